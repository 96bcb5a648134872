//! Claims, asked of a board again and again.
use crate::board::{Board, Prepared};
use crate::envelope::{Envelope, Pledges, Prepare, Statement};
use crate::quorum::{QuorumSet, SaneSet};
use crate::types::{Ballot, Fault, NodeId, Slot, Value};
use std::hint::black_box;
use std::sync::Arc;

const OWN: u32 = 100;
const WORK: u32 = 1_000_000;

#[derive(Clone, Copy, PartialEq, Eq)]
pub enum Sharing {
    One,
    Each,
}

fn node(number: u32) -> NodeId {
    let mut id = [0; 32];
    id[..4].copy_from_slice(&number.to_be_bytes());
    NodeId(id)
}

fn ballot(counter: u32, byte: u8) -> Ballot {
    Ballot {
        counter,
        value: Value(vec![byte; 32]),
    }
}

fn envelope(number: u32, set: &SaneSet) -> Envelope {
    let byte = if number % 10 == 9 { 6 } else { 5 };
    Envelope {
        statement: Statement {
            node: node(number),
            slot: Slot(1),
            pledges: Pledges::Prepare(Prepare {
                set_hash: set.hash,
                ballot: ballot(2, byte),
                prepared: Some(ballot(1, byte)),
                prepared_prime: None,
                n_commit: 0,
                n_high: 0,
            }),
        },
        signature: Vec::new(),
    }
}

fn set_of(threshold: u32, first: u32, len: u32, ring: u32) -> Result<Arc<SaneSet>, Fault> {
    let validators = (0..len)
        .map(|step| if ring > 0 { (first + step) % ring } else { first + step })
        .map(node)
        .collect();
    let set = QuorumSet {
        threshold,
        validators,
        inner_sets: Vec::new(),
    };
    Ok(Arc::new(set.into_sane()?))
}

fn set_at(sharing: Sharing, nodes: u32, number: u32) -> Result<Arc<SaneSet>, Fault> {
    match sharing {
        Sharing::One => set_of(nodes - nodes / 3, 0, nodes, 0),
        Sharing::Each => {
            let len = nodes.min(OWN);
            set_of(len - len / 3, number + 1, len, nodes)
        }
    }
}

pub fn count_votes(sharing: Sharing, nodes: u32) -> Result<String, Fault> {
    let mut board = Board::new(node(0), set_at(sharing, nodes, 0)?);
    for number in 0..nodes {
        let set = set_at(sharing, nodes, number)?;
        board.put(envelope(number, &set), set);
    }
    let cost = match sharing {
        Sharing::One => nodes,
        Sharing::Each => nodes.saturating_mul(nodes.min(OWN)),
    };
    let ballots = [ballot(1, 5), ballot(2, 5)];
    let claims = ballots.each_ref().map(|ballot| Prepared(ballot.counter, &ballot.value));
    let (mut asked, mut accepted, mut confirmed) = (0u64, 0u64, 0u64);
    for _ in 0..WORK.checked_div(cost).unwrap_or(0) {
        for claim in &claims {
            asked += 1;
            accepted += black_box(&board).accepted(claim) as u64;
            confirmed += black_box(&board).confirmed(claim) as u64;
        }
    }
    let name = match sharing {
        Sharing::One => "votes-one",
        Sharing::Each => "votes-each",
    };
    Ok(format!(
        "{name} {nodes}: asked {asked} accepted {accepted} confirmed {confirmed}"
    ))
}
