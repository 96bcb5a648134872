//! The slot stage: the journal, verdicts, the machine of each undecided slot, decisions.
use crate::ballots::Decision as Certified;
use crate::envelope::Envelope;
use crate::link::Cause;
use crate::pending::{Delivery, DropCause, Ready};
use crate::quorum::SaneSet;
use crate::slot::{SlotInput, SlotMachine, SlotOutput, Verdict as Found};
use crate::types::{ConnId, NodeId, Seq, Slot, Value};
use crate::wire::Message;
use std::collections::{BTreeMap, BTreeSet};
use std::sync::Arc;

pub const JOURNAL_LIMIT: usize = 1_000_000;
const WINDOW: u64 = 16;
const LAST_SLOT: u64 = 4_294_967_295;

/// What a node is told by its user.
#[allow(dead_code)]
pub enum Command {
    Tick,
    Propose(Slot, Value),
    Round(Slot),
    Timer(Slot),
    Ask(u8, Slot),
}

#[derive(Clone, Copy, Debug, PartialEq, Eq)]
pub enum Verdict {
    OldSlot,
    FarSlot,
    Already,
    Unasked,
    Own,
    BadStatement,
    BadValue,
    Stale,
    Idle,
    Fresh,
    Forwarded,
    Decided,
}

#[derive(Debug)]
pub enum Fate {
    Taken {
        conn: ConnId,
        seq: Seq,
        #[allow(dead_code)]
        message: Message,
        #[allow(dead_code)]
        set: Option<Arc<SaneSet>>,
        verdict: Verdict,
    },
    Dropped {
        conn: ConnId,
        seq: Seq,
        cause: DropCause,
    },
    Closed {
        conn: ConnId,
        cause: Cause,
    },
}

#[allow(dead_code)]
#[derive(Debug)]
pub enum Origin {
    Machine {
        n: u32,
        quorum: BTreeSet<NodeId>,
        own: Envelope,
    },
    Named {
        conn: ConnId,
        seq: Seq,
    },
}

#[derive(Debug)]
pub struct Decision {
    pub slot: Slot,
    pub value: Value,
    pub origin: Origin,
}

/// What goes on to the applier.
pub enum Onward {
    Decided(Arc<Decision>),
    Asked { link: u8, slot: Slot },
}

/// What goes out to peers.
pub enum Outgoing {
    ToAll(Envelope),
    To(u8, Message),
}

pub struct Took {
    #[allow(dead_code)]
    pub verdict: Option<Verdict>,
    pub onward: Option<Onward>,
    pub outgoing: Vec<Outgoing>,
}

impl Took {
    fn quiet(verdict: Option<Verdict>) -> Took {
        Took {
            verdict,
            onward: None,
            outgoing: Vec::new(),
        }
    }
}

/// The slots that may be decided: the lowest one without a decision, and which after it have one.
struct Window {
    lowest: u64,
    ahead: BTreeSet<u64>,
}

impl Window {
    fn decide(&mut self, slot: Slot) {
        self.ahead.insert(slot.0);
        while self.ahead.remove(&self.lowest) {
            self.lowest += 1;
        }
    }

    fn is_far(&self, slot: Slot) -> bool {
        slot.0 > LAST_SLOT || slot.0 - self.lowest >= WINDOW
    }

    /// Why a slot isn't open to envelopes and commands, if it isn't.
    fn gate(&self, slot: Slot) -> Option<Verdict> {
        if slot.0 < self.lowest {
            Some(Verdict::OldSlot)
        } else if self.is_far(slot) {
            Some(Verdict::FarSlot)
        } else if self.ahead.contains(&slot.0) {
            Some(Verdict::Already)
        } else {
            None
        }
    }

    /// Why a slot isn't open to records and asks, if it isn't.
    fn gate_of_records(&self, slot: Slot) -> Option<Verdict> {
        if slot.0 < self.lowest || self.ahead.contains(&slot.0) {
            Some(Verdict::Already)
        } else if self.is_far(slot) {
            Some(Verdict::FarSlot)
        } else {
            None
        }
    }
}

pub struct Ledger {
    me: NodeId,
    local: Arc<SaneSet>,
    peers: Vec<NodeId>,
    journal: Vec<Fate>,
    /// Kept, as the crates keep them, though nothing here reads them.
    decisions: Vec<Arc<Decision>>,
    window: Window,
    machines: BTreeMap<u64, SlotMachine>,
    asked: BTreeSet<(u8, Slot)>,
}

/// What enters the journal with the verdict on it.
struct Entering {
    conn: ConnId,
    seq: Seq,
    envelope: Box<Envelope>,
    set: Arc<SaneSet>,
}

fn verdict_from(found: Found) -> Verdict {
    match found {
        Found::Fresh => Verdict::Fresh,
        Found::Stale => Verdict::Stale,
        Found::Own => Verdict::Own,
        Found::BadStatement => Verdict::BadStatement,
        Found::BadValue => Verdict::BadValue,
        Found::Idle => Verdict::Idle,
    }
}

impl Ledger {
    pub fn new(me: NodeId, local: Arc<SaneSet>, peers: Vec<NodeId>) -> Ledger {
        Ledger {
            me,
            local,
            peers,
            journal: Vec::new(),
            decisions: Vec::new(),
            window: Window {
                lowest: 1,
                ahead: BTreeSet::new(),
            },
            machines: BTreeMap::new(),
            asked: BTreeSet::new(),
        }
    }

    pub fn journal(&self) -> &[Fate] {
        &self.journal
    }

    fn link(&self, conn: &ConnId) -> u8 {
        let place = self.peers.iter().position(|peer| *peer == conn.from);
        place.unwrap_or(self.peers.len()) as u8
    }

    /// Takes one thing; none where the journal is full.
    pub fn take(&mut self, ready: Ready) -> Option<Took> {
        if !matches!(ready, Ready::Local(_)) && self.journal.len() == JOURNAL_LIMIT {
            return None;
        }
        Some(match ready {
            Ready::Deliver(delivery) => self.deliver(delivery),
            Ready::Dropped { conn, seq, cause } => {
                self.pass(None, Fate::Dropped { conn, seq, cause })
            }
            Ready::Closed { conn, cause } => self.pass(None, Fate::Closed { conn, cause }),
            Ready::Local(command) => self.command(command),
        })
    }

    /// Adds nothing but an entry.
    fn pass(&mut self, verdict: Option<Verdict>, fate: Fate) -> Took {
        self.journal.push(fate);
        Took::quiet(verdict)
    }

    fn deliver(&mut self, delivery: Delivery) -> Took {
        let Delivery {
            conn,
            seq,
            message,
            set,
        } = delivery;
        match (message, set) {
            (Message::Envelope(envelope), Some(set)) => {
                self.take_envelope(conn, seq, envelope, set)
            }
            (Message::Record(slot, value), set) => self.take_record(conn, seq, slot, value, set),
            (message, set) => {
                let onward = match &message {
                    Message::GetRecord(slot) => Some(Onward::Asked {
                        link: self.link(&conn),
                        slot: *slot,
                    }),
                    _ => None,
                };
                let verdict = Verdict::Forwarded;
                let fate = Fate::Taken {
                    conn,
                    seq,
                    message,
                    set,
                    verdict,
                };
                Took {
                    onward,
                    ..self.pass(Some(verdict), fate)
                }
            }
        }
    }

    fn take_envelope(
        &mut self,
        conn: ConnId,
        seq: Seq,
        envelope: Box<Envelope>,
        set: Arc<SaneSet>,
    ) -> Took {
        let slot = envelope.statement.slot;
        if let Some(verdict) = self.window.gate(slot) {
            let fate = Fate::Taken {
                conn,
                seq,
                message: Message::Envelope(envelope),
                set: Some(set),
                verdict,
            };
            return self.pass(Some(verdict), fate);
        }
        let input = SlotInput::Envelope((*envelope).clone(), set.clone());
        let entering = Entering {
            conn,
            seq,
            envelope,
            set,
        };
        self.enter(slot, input, Some(entering))
    }

    /// An input of an open slot, with the entry that its verdict gives.
    fn enter(&mut self, slot: Slot, input: SlotInput, entering: Option<Entering>) -> Took {
        let (me, local) = (self.me, &self.local);
        let machine = self
            .machines
            .entry(slot.0)
            .or_insert_with(|| SlotMachine::new(me, slot, local.clone()));
        let SlotOutput {
            verdict,
            nomination,
            ballot,
            decided,
            ..
        } = machine.input(input);
        if decided.is_some() {
            self.machines.remove(&slot.0);
        }
        let verdict = verdict_from(verdict);
        let own = nomination.into_iter().chain(ballot);
        let outgoing = own.map(Outgoing::ToAll).collect();
        let onward = decided.map(|certified| self.decide_certified(slot, certified));
        self.journal.extend(entering.map(|e| Fate::Taken {
            conn: e.conn,
            seq: e.seq,
            message: Message::Envelope(e.envelope),
            set: Some(e.set),
            verdict,
        }));
        Took {
            verdict: Some(verdict),
            onward,
            outgoing,
        }
    }

    fn decide_certified(&mut self, slot: Slot, certified: Certified) -> Onward {
        let Certified {
            value,
            n,
            quorum,
            own,
        } = certified;
        let origin = Origin::Machine { n, quorum, own };
        self.decide(slot, value, origin)
    }

    fn decide(&mut self, slot: Slot, value: Value, origin: Origin) -> Onward {
        let decision = Arc::new(Decision {
            slot,
            value,
            origin,
        });
        self.window.decide(slot);
        self.decisions.push(decision.clone());
        Onward::Decided(decision)
    }

    fn take_record(
        &mut self,
        conn: ConnId,
        seq: Seq,
        slot: Slot,
        value: Value,
        set: Option<Arc<SaneSet>>,
    ) -> Took {
        let link = self.link(&conn);
        let verdict = match self.window.gate_of_records(slot) {
            Some(verdict) => verdict,
            None if self.asked.contains(&(link, slot)) => Verdict::Decided,
            None => Verdict::Unasked,
        };
        let mut onward = None;
        if verdict == Verdict::Decided {
            self.machines.remove(&slot.0);
            onward = Some(self.decide(slot, value.clone(), Origin::Named { conn, seq }));
        }
        let fate = Fate::Taken {
            conn,
            seq,
            message: Message::Record(slot, value),
            set,
            verdict,
        };
        Took {
            onward,
            ..self.pass(Some(verdict), fate)
        }
    }

    fn command(&mut self, command: Command) -> Took {
        match command {
            Command::Propose(slot, value) => self.open_input(slot, SlotInput::Propose(value)),
            Command::Round(slot) => self.open_input(slot, SlotInput::Round),
            Command::Timer(slot) => self.open_input(slot, SlotInput::Timer),
            Command::Tick => Took::quiet(None),
            Command::Ask(link, slot) => self.ask(link, slot),
        }
    }

    fn open_input(&mut self, slot: Slot, input: SlotInput) -> Took {
        match self.window.gate(slot) {
            Some(verdict) => Took::quiet(Some(verdict)),
            None => self.enter(slot, input, None),
        }
    }

    fn ask(&mut self, link: u8, slot: Slot) -> Took {
        if let Some(verdict) = self.window.gate_of_records(slot) {
            return Took::quiet(Some(verdict));
        }
        if !self.asked.insert((link, slot)) {
            return Took::quiet(Some(Verdict::Idle));
        }
        Took {
            verdict: Some(Verdict::Fresh),
            onward: None,
            outgoing: vec![Outgoing::To(link, Message::GetRecord(slot))],
        }
    }
}
