//! Statements and envelopes: their spelling, sanity and order.
use crate::types::{Ballot, Fault, Hash, NodeId, Slot, Value};
use crate::xdr::{Reader, Writer};

const LIST_LIMIT: u32 = 64;
const SIGNATURE_LIMIT: u32 = 64;

#[derive(Clone, Debug, PartialEq)]
pub struct Prepare {
    pub set_hash: Hash,
    pub ballot: Ballot,
    pub prepared: Option<Ballot>,
    pub prepared_prime: Option<Ballot>,
    pub n_commit: u32,
    pub n_high: u32,
}

#[derive(Clone, Debug, PartialEq)]
pub struct Confirm {
    pub ballot: Ballot,
    pub n_prepared: u32,
    pub n_commit: u32,
    pub n_high: u32,
    pub set_hash: Hash,
}

#[derive(Clone, Debug, PartialEq)]
pub struct Externalize {
    pub commit: Ballot,
    pub n_high: u32,
    pub set_hash: Hash,
}

#[derive(Clone, Debug, PartialEq)]
pub struct Nominate {
    pub set_hash: Hash,
    pub votes: Vec<Value>,
    pub accepted: Vec<Value>,
}

#[derive(Clone, Debug, PartialEq)]
pub enum Pledges {
    Prepare(Prepare),
    Confirm(Confirm),
    Externalize(Externalize),
    Nominate(Nominate),
}

#[derive(Clone, Debug, PartialEq)]
pub struct Statement {
    pub node: NodeId,
    pub slot: Slot,
    pub pledges: Pledges,
}

#[derive(Clone, Debug, PartialEq)]
pub struct Envelope {
    pub statement: Statement,
    pub signature: Vec<u8>,
}

impl Pledges {
    fn read(reader: &mut Reader<'_>) -> Result<Pledges, Fault> {
        let place = reader.place();
        Ok(match reader.u32()? {
            0 => Pledges::Prepare(Prepare {
                set_hash: reader.hash()?,
                ballot: reader.ballot()?,
                prepared: reader.optional(|r| r.ballot())?,
                prepared_prime: reader.optional(|r| r.ballot())?,
                n_commit: reader.u32()?,
                n_high: reader.u32()?,
            }),
            1 => Pledges::Confirm(Confirm {
                ballot: reader.ballot()?,
                n_prepared: reader.u32()?,
                n_commit: reader.u32()?,
                n_high: reader.u32()?,
                set_hash: reader.hash()?,
            }),
            2 => Pledges::Externalize(Externalize {
                commit: reader.ballot()?,
                n_high: reader.u32()?,
                set_hash: reader.hash()?,
            }),
            3 => Pledges::Nominate(Nominate {
                set_hash: reader.hash()?,
                votes: reader.array(LIST_LIMIT, |r| r.value())?,
                accepted: reader.array(LIST_LIMIT, |r| r.value())?,
            }),
            _ => return Err(Fault::Malformed(place)),
        })
    }

    fn write(&self, writer: &mut Writer) {
        match self {
            Pledges::Prepare(p) => {
                writer.u32(0);
                writer.fixed(&p.set_hash.0);
                writer.ballot(&p.ballot);
                writer.optional(&p.prepared);
                writer.optional(&p.prepared_prime);
                writer.u32(p.n_commit);
                writer.u32(p.n_high);
            }
            Pledges::Confirm(c) => {
                writer.u32(1);
                writer.ballot(&c.ballot);
                writer.u32(c.n_prepared);
                writer.u32(c.n_commit);
                writer.u32(c.n_high);
                writer.fixed(&c.set_hash.0);
            }
            Pledges::Externalize(e) => {
                writer.u32(2);
                writer.ballot(&e.commit);
                writer.u32(e.n_high);
                writer.fixed(&e.set_hash.0);
            }
            Pledges::Nominate(n) => {
                writer.u32(3);
                writer.fixed(&n.set_hash.0);
                writer.values(&n.votes);
                writer.values(&n.accepted);
            }
        }
    }
}

impl Envelope {
    pub fn write(&self, writer: &mut Writer) {
        writer.node(&self.statement.node);
        writer.u64(self.statement.slot.0);
        self.statement.pledges.write(writer);
        writer.opaque(&self.signature);
    }

    pub fn read(reader: &mut Reader<'_>) -> Result<Envelope, Fault> {
        let statement = Statement {
            node: reader.node()?,
            slot: Slot(reader.u64()?),
            pledges: Pledges::read(reader)?,
        };
        let signature = reader.opaque(SIGNATURE_LIMIT)?.to_vec();
        Ok(Envelope {
            statement,
            signature,
        })
    }

    pub fn set_hash(&self) -> &Hash {
        match &self.statement.pledges {
            Pledges::Prepare(p) => &p.set_hash,
            Pledges::Confirm(c) => &c.set_hash,
            Pledges::Externalize(e) => &e.set_hash,
            Pledges::Nominate(n) => &n.set_hash,
        }
    }
}

fn are_apart(prepared: &Option<Ballot>, prime: &Option<Ballot>) -> bool {
    match (prepared, prime) {
        (Some(prepared), Some(prime)) => prime < prepared && prime.value != prepared.value,
        _ => true,
    }
}

impl Statement {
    pub fn is_sane(&self) -> bool {
        match &self.pledges {
            Pledges::Prepare(p) => {
                p.ballot.counter > 0
                    && are_apart(&p.prepared, &p.prepared_prime)
                    && (p.n_high == 0
                        || p.prepared
                            .as_ref()
                            .is_some_and(|prepared| p.n_high <= prepared.counter))
                    && (p.n_commit == 0
                        || p.n_high != 0 && p.n_commit <= p.n_high && p.n_high <= p.ballot.counter)
            }
            Pledges::Confirm(c) => {
                c.ballot.counter > 0 && c.n_high <= c.ballot.counter && c.n_commit <= c.n_high
            }
            Pledges::Externalize(e) => e.commit.counter > 0 && e.n_high >= e.commit.counter,
            Pledges::Nominate(n) => {
                (!n.votes.is_empty() || !n.accepted.is_empty())
                    && n.votes.is_sorted_by(|a, b| a < b)
                    && n.accepted.is_sorted_by(|a, b| a < b)
            }
        }
    }
}

fn contains_all(new: &[Value], old: &[Value]) -> bool {
    old.iter().all(|value| new.contains(value))
}

/// Whether `new` is newer than `old`.
pub fn newer(old: &Statement, new: &Statement) -> bool {
    if old.node != new.node || old.slot != new.slot {
        return false;
    }
    match (&old.pledges, &new.pledges) {
        (Pledges::Prepare(old), Pledges::Prepare(new)) => {
            (&old.ballot, &old.prepared, &old.prepared_prime, old.n_high)
                < (&new.ballot, &new.prepared, &new.prepared_prime, new.n_high)
        }
        (Pledges::Prepare(_), Pledges::Confirm(_) | Pledges::Externalize(_)) => true,
        (Pledges::Confirm(old), Pledges::Confirm(new)) => {
            (&old.ballot, old.n_prepared, old.n_high) < (&new.ballot, new.n_prepared, new.n_high)
        }
        (Pledges::Confirm(_), Pledges::Externalize(_)) => true,
        (Pledges::Nominate(old), Pledges::Nominate(new)) => {
            contains_all(&new.votes, &old.votes)
                && contains_all(&new.accepted, &old.accepted)
                && (!contains_all(&old.votes, &new.votes)
                    || !contains_all(&old.accepted, &new.accepted))
        }
        _ => false,
    }
}
