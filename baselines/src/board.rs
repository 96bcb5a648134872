//! Federated voting: a board of statements of one kind, and which claims are accepted and confirmed on it.
use crate::envelope::{Envelope, Pledges, Statement};
use crate::quorum::{QuorumSet, SaneSet};
use crate::types::{Hash, NodeId, Value};
use std::collections::{BTreeMap, BTreeSet};
use std::sync::Arc;

pub trait Claim {
    fn is_accepted_by(&self, statement: &Statement) -> bool;
    /// Whether it is voted for or accepted.
    fn is_supported_by(&self, statement: &Statement) -> bool;
}

/// The ballot of this counter and value is prepared.
#[derive(Clone, Copy)]
pub struct Prepared<'a>(pub u32, pub &'a Value);

impl Claim for Prepared<'_> {
    fn is_accepted_by(&self, statement: &Statement) -> bool {
        let Prepared(counter, value) = *self;
        match &statement.pledges {
            Pledges::Prepare(p) => [&p.prepared, &p.prepared_prime]
                .into_iter()
                .flatten()
                .any(|ballot| counter <= ballot.counter && *value == ballot.value),
            Pledges::Confirm(c) => counter <= c.n_prepared && *value == c.ballot.value,
            Pledges::Externalize(e) => *value == e.commit.value,
            Pledges::Nominate(_) => false,
        }
    }

    fn is_supported_by(&self, statement: &Statement) -> bool {
        let Prepared(counter, value) = *self;
        let votes = match &statement.pledges {
            Pledges::Prepare(p) => counter <= p.ballot.counter && *value == p.ballot.value,
            Pledges::Confirm(c) => *value == c.ballot.value,
            Pledges::Externalize(_) | Pledges::Nominate(_) => false,
        };
        votes || self.is_accepted_by(statement)
    }
}

/// The value is committed at each counter from the first to the second.
#[derive(Clone, Copy)]
pub struct Committed<'a>(pub u32, pub u32, pub &'a Value);

impl Claim for Committed<'_> {
    fn is_accepted_by(&self, statement: &Statement) -> bool {
        let Committed(low, high, value) = *self;
        match &statement.pledges {
            Pledges::Confirm(c) => {
                *value == c.ballot.value && c.n_commit <= low && high <= c.n_high
            }
            Pledges::Externalize(e) => *value == e.commit.value && e.commit.counter <= low,
            Pledges::Prepare(_) | Pledges::Nominate(_) => false,
        }
    }

    fn is_supported_by(&self, statement: &Statement) -> bool {
        let Committed(low, high, value) = *self;
        let votes = match &statement.pledges {
            Pledges::Prepare(p) => {
                *value == p.ballot.value && p.n_commit != 0 && p.n_commit <= low && high <= p.n_high
            }
            Pledges::Confirm(c) => *value == c.ballot.value && c.n_commit <= low,
            Pledges::Externalize(_) | Pledges::Nominate(_) => false,
        };
        votes || self.is_accepted_by(statement)
    }
}

/// The value is nominated.
#[derive(Clone, Copy)]
pub struct Nominated<'a>(pub &'a Value);

impl Claim for Nominated<'_> {
    fn is_accepted_by(&self, statement: &Statement) -> bool {
        match &statement.pledges {
            Pledges::Nominate(n) => n.accepted.contains(self.0),
            _ => false,
        }
    }

    fn is_supported_by(&self, statement: &Statement) -> bool {
        match &statement.pledges {
            Pledges::Nominate(n) => n.votes.contains(self.0) || n.accepted.contains(self.0),
            _ => false,
        }
    }
}

pub struct Entry {
    pub envelope: Envelope,
    place: usize,
}

/// The newest statement of each node, its place, and the groups of nodes that share a set.
pub struct Board {
    me: NodeId,
    local: Arc<SaneSet>,
    entries: BTreeMap<NodeId, Entry>,
    /// The group of the node at each place; none of a node whose set is itself alone.
    groups: Vec<Option<usize>>,
    sets: Vec<Arc<SaneSet>>,
    places: BTreeMap<Hash, usize>,
}

impl QuorumSet {
    fn is_satisfied_by(&self, has: &impl Fn(&NodeId) -> bool) -> bool {
        let mut missing = self.threshold;
        for node in &self.validators {
            if missing == 0 {
                return true;
            }
            if has(node) {
                missing -= 1;
            }
        }
        for inner in &self.inner_sets {
            if missing == 0 {
                return true;
            }
            if inner.is_satisfied_by(has) {
                missing -= 1;
            }
        }
        missing == 0
    }
}

impl Board {
    pub fn new(me: NodeId, local: Arc<SaneSet>) -> Board {
        Board {
            me,
            local,
            entries: BTreeMap::new(),
            groups: Vec::new(),
            sets: Vec::new(),
            places: BTreeMap::new(),
        }
    }

    /// The group of nodes that share this set.
    fn group_of(&mut self, set: Arc<SaneSet>) -> usize {
        match self.places.get(&set.hash) {
            Some(&group) if self.sets[group].set == set.set => group,
            _ => {
                self.places.insert(set.hash, self.sets.len());
                self.sets.push(set);
                self.sets.len() - 1
            }
        }
    }

    /// Puts the envelope in the place of its node's last. For this node the local set counts, for another node's EXTERNALIZE
    /// that node alone.
    pub fn put(&mut self, envelope: Envelope, delivered: Arc<SaneSet>) {
        let node = envelope.statement.node;
        let group = if node == self.me {
            Some(self.group_of(self.local.clone()))
        } else if matches!(envelope.statement.pledges, Pledges::Externalize(_)) {
            None
        } else {
            Some(self.group_of(delivered))
        };
        match self.entries.get_mut(&node) {
            Some(entry) => {
                self.groups[entry.place] = group;
                entry.envelope = envelope;
            }
            None => {
                let place = self.groups.len();
                self.groups.push(group);
                self.entries.insert(node, Entry { envelope, place });
            }
        }
    }

    pub fn statement(&self, node: &NodeId) -> Option<&Statement> {
        self.entries
            .get(node)
            .map(|entry| &entry.envelope.statement)
    }

    pub fn statements(&self) -> impl Iterator<Item = &Statement> {
        self.entries.values().map(|entry| &entry.envelope.statement)
    }

    fn has(&self, marks: &[bool], node: &NodeId) -> bool {
        self.entries
            .get(node)
            .is_some_and(|entry| marks[entry.place])
    }

    fn has_quorum(&self, marks: &mut [bool]) -> bool {
        if !self.has(marks, &self.me)
            || !self
                .local
                .set
                .is_satisfied_by(&|node: &NodeId| self.has(marks, node))
        {
            return false;
        }
        loop {
            let verdicts: Vec<bool> = self
                .sets
                .iter()
                .map(|set| {
                    set.set
                        .is_satisfied_by(&|node: &NodeId| self.has(marks, node))
                })
                .collect();
            let mut removed = false;
            for (mark, group) in marks.iter_mut().zip(&self.groups) {
                if *mark && group.is_some_and(|group| !verdicts[group]) {
                    *mark = false;
                    removed = true;
                }
            }
            if !removed {
                return self.has(marks, &self.me);
            }
        }
    }

    fn accepting(&self, claim: &impl Claim) -> Vec<bool> {
        let mut accepting = vec![false; self.groups.len()];
        for entry in self.entries.values() {
            accepting[entry.place] = claim.is_accepted_by(&entry.envelope.statement);
        }
        accepting
    }

    /// Whether the nodes block the local set.
    pub fn is_blocked_by(&self, has: impl Fn(&NodeId) -> bool) -> bool {
        !self.local.set.is_satisfied_by(&|node: &NodeId| !has(node))
    }

    pub fn accepted(&self, claim: &impl Claim) -> bool {
        let mut supporting = vec![false; self.groups.len()];
        let mut accepting = vec![false; self.groups.len()];
        for entry in self.entries.values() {
            supporting[entry.place] = claim.is_supported_by(&entry.envelope.statement);
            accepting[entry.place] = claim.is_accepted_by(&entry.envelope.statement);
        }
        self.is_blocked_by(|node| self.has(&accepting, node)) || self.has_quorum(&mut supporting)
    }

    pub fn confirmed(&self, claim: &impl Claim) -> bool {
        let mut accepting = self.accepting(claim);
        self.has_quorum(&mut accepting)
    }

    /// The greatest quorum at this node among the nodes that accept the claim.
    pub fn certificate(&self, claim: &impl Claim) -> Option<BTreeSet<NodeId>> {
        let mut accepting = self.accepting(claim);
        let found = self.has_quorum(&mut accepting);
        found.then(|| {
            let marked = self
                .entries
                .iter()
                .filter(|(_, entry)| accepting[entry.place]);
            marked.map(|(node, _)| *node).collect()
        })
    }
}
