//! The nomination of one node in one slot.
use crate::board::{Board, Nominated};
use crate::envelope::{Envelope, Nominate, Pledges, Statement};
use crate::kv::is_ops;
use crate::quorum::{QuorumSet, SaneSet};
use crate::types::{Hash, NodeId, Slot, Value};
use std::collections::BTreeSet;
use std::sync::Arc;

/// The most values of an own list.
const LIMIT: usize = 7;

pub struct Nomination {
    me: NodeId,
    slot: Slot,
    local: Arc<SaneSet>,
    hash: Hash,
    board: Board,
    nodes: Vec<NodeId>,
    rounds: u64,
    leaders: BTreeSet<NodeId>,
    proposal: Option<Value>,
    /// The good values that statements on the board name.
    known: BTreeSet<Value>,
    votes: BTreeSet<Value>,
    accepted: BTreeSet<Value>,
    candidates: BTreeSet<Value>,
}

/// What there is to say: the own statement, and the composite.
pub type Given = (Option<Envelope>, Option<Value>);

fn nodes_in(set: &QuorumSet, nodes: &mut BTreeSet<NodeId>) {
    nodes.extend(&set.validators);
    for inner in &set.inner_sets {
        nodes_in(inner, nodes);
    }
}

fn vote(votes: &mut BTreeSet<Value>, value: &Value) {
    if votes.len() < LIMIT && !votes.contains(value) {
        votes.insert(value.clone());
    }
}

fn values_of(statement: &Statement) -> BTreeSet<&Value> {
    match &statement.pledges {
        Pledges::Nominate(n) => n.votes.iter().chain(&n.accepted).collect(),
        _ => BTreeSet::new(),
    }
}

impl Nomination {
    pub fn new(me: NodeId, slot: Slot, local: Arc<SaneSet>) -> Nomination {
        let mut nodes = BTreeSet::from([me]);
        nodes_in(&local.set, &mut nodes);
        let mut nomination = Nomination {
            me,
            slot,
            hash: local.hash,
            board: Board::new(me, local.clone()),
            local,
            nodes: nodes.into_iter().collect(),
            rounds: 0,
            leaders: BTreeSet::new(),
            proposal: None,
            known: BTreeSet::new(),
            votes: BTreeSet::new(),
            accepted: BTreeSet::new(),
            candidates: BTreeSet::new(),
        };
        nomination.add_round();
        nomination
    }

    pub fn has_proposal(&self) -> bool {
        self.proposal.is_some()
    }

    pub fn is_last_round(&self) -> bool {
        self.rounds == self.nodes.len() as u64
    }

    pub fn last(&self, node: &NodeId) -> Option<&Statement> {
        self.board.statement(node)
    }

    fn add_round(&mut self) {
        self.rounds += 1;
        let nodes = self.nodes.len() as u64;
        let place = (self.slot.0 % nodes + (self.rounds + nodes - 2) % nodes) % nodes;
        self.leaders.insert(self.nodes[place as usize]);
    }

    fn vote_first(&mut self) {
        if !self.candidates.is_empty() {
            return;
        }
        if let Some(value) = &self.proposal
            && self.leaders.contains(&self.me)
        {
            vote(&mut self.votes, value);
        }
        for leader in &self.leaders {
            if *leader == self.me {
                continue;
            }
            for value in self.board.statement(leader).into_iter().flat_map(values_of) {
                if is_ops(&value.0) {
                    vote(&mut self.votes, value);
                }
            }
        }
    }

    fn step(&mut self) {
        self.vote_first();
        for value in &self.known {
            if !self.accepted.contains(value)
                && (self.votes.len() < LIMIT || self.votes.contains(value))
                && self.board.accepted(&Nominated(value))
            {
                vote(&mut self.votes, value);
                self.accepted.insert(value.clone());
            }
        }
        for value in &self.accepted {
            if !self.candidates.contains(value) && self.board.confirmed(&Nominated(value)) {
                self.candidates.insert(value.clone());
            }
        }
    }

    fn own(&self) -> Envelope {
        Envelope {
            statement: Statement {
                node: self.me,
                slot: self.slot,
                pledges: Pledges::Nominate(Nominate {
                    set_hash: self.hash,
                    votes: self.votes.iter().cloned().collect(),
                    accepted: self.accepted.iter().cloned().collect(),
                }),
            },
            signature: Vec::new(),
        }
    }

    fn know(&mut self, statement: &Statement) {
        for value in values_of(statement) {
            if !self.known.contains(value) && is_ops(&value.0) {
                self.known.insert(value.clone());
            }
        }
    }

    /// Repeats the steps until the own lists stay.
    fn advance(&mut self) -> Given {
        let candidates = self.candidates.len();
        let mut renewed = false;
        loop {
            let size = self.votes.len() + self.accepted.len();
            self.step();
            if self.votes.len() + self.accepted.len() == size {
                break;
            }
            let own = self.own();
            self.know(&own.statement);
            self.board.put(own, self.local.clone());
            renewed = true;
        }
        let composite = if self.candidates.len() > candidates {
            self.candidates.last().cloned()
        } else {
            None
        };
        (renewed.then(|| self.own()), composite)
    }

    pub fn propose(&mut self, value: Value) -> Given {
        self.proposal = Some(value);
        self.advance()
    }

    pub fn round(&mut self) -> Given {
        self.add_round();
        self.advance()
    }

    /// Another node's fresh NOMINATE.
    pub fn take(&mut self, envelope: Envelope, delivered: Arc<SaneSet>) -> Given {
        self.know(&envelope.statement);
        self.board.put(envelope, delivered);
        self.advance()
    }
}
