//! The ballots of one node in one slot.
use crate::board::{Board, Committed, Prepared};
use crate::envelope::{Confirm, Envelope, Externalize, Pledges, Prepare, Statement, newer};
use crate::quorum::SaneSet;
use crate::types::{Ballot, Hash, NodeId, Slot, Value};
use std::collections::{BTreeMap, BTreeSet};
use std::sync::Arc;

const APPLICATIONS: u32 = 64;

#[derive(Clone, Copy, PartialEq, Eq)]
enum Phase {
    Prepare,
    Confirm,
    Externalize,
}

/// What a node holds: the present ballot, the highest two that are accepted as prepared, the one confirmed as prepared, and
/// the range of commit.
struct State {
    phase: Phase,
    present: Option<Ballot>,
    prepared: Option<Ballot>,
    prime: Option<Ballot>,
    confirmed: Option<Ballot>,
    high: Option<Ballot>,
    low: Option<Ballot>,
    composite: Option<Value>,
}

#[allow(dead_code)]
pub struct Decision {
    pub value: Value,
    pub n: u32,
    pub quorum: BTreeSet<NodeId>,
    pub own: Envelope,
}

#[derive(Default)]
pub struct Balloted {
    pub statement: Option<Envelope>,
    pub decided: Option<Decision>,
    pub more: bool,
}

pub struct Ballots {
    me: NodeId,
    slot: Slot,
    local: Arc<SaneSet>,
    hash: Hash,
    board: Board,
    state: State,
    emitted: Option<Statement>,
}

/// A ballot that a statement names.
type Named<'a> = (u32, &'a Value);

fn named(ballot: &Ballot) -> Named<'_> {
    (ballot.counter, &ballot.value)
}

fn owned((counter, value): Named<'_>) -> Ballot {
    Ballot {
        counter,
        value: value.clone(),
    }
}

fn counter(ballot: &Option<Ballot>) -> u32 {
    ballot.as_ref().map_or(0, |ballot| ballot.counter)
}

/// Less and incompatible.
fn is_under(low: Named<'_>, high: Named<'_>) -> bool {
    low < high && low.1 != high.1
}

fn is_over(ballot: &Option<Ballot>, low: &Ballot) -> bool {
    ballot
        .as_ref()
        .is_some_and(|ballot| is_under(named(low), named(ballot)))
}

/// Whether the ballot is greater than the one that is there, if there is one.
fn is_above(ballot: Named<'_>, held: &Option<Ballot>) -> bool {
    held.as_ref().is_none_or(|held| named(held) < ballot)
}

fn counter_of(statement: &Statement) -> u32 {
    match &statement.pledges {
        Pledges::Prepare(p) => p.ballot.counter,
        Pledges::Confirm(c) => c.ballot.counter,
        Pledges::Externalize(e) => e.n_high,
        Pledges::Nominate(_) => 0,
    }
}

fn candidates(board: &Board) -> BTreeSet<Named<'_>> {
    let mut found = BTreeSet::new();
    for statement in board.statements() {
        match &statement.pledges {
            Pledges::Prepare(p) => {
                found.insert(named(&p.ballot));
                found.extend(p.prepared.iter().chain(&p.prepared_prime).map(named));
            }
            Pledges::Confirm(c) => {
                let value = &c.ballot.value;
                found.extend([
                    (c.ballot.counter, value),
                    (c.n_prepared, value),
                    (c.n_high, value),
                ]);
            }
            Pledges::Externalize(e) => {
                let value = &e.commit.value;
                found.extend([(e.commit.counter, value), (e.n_high, value)]);
            }
            Pledges::Nominate(_) => {}
        }
    }
    found.retain(|(counter, _)| *counter != 0);
    found
}

/// The ends of the ranges of commit that statements name, by value.
fn boundaries(board: &Board) -> BTreeMap<&Value, BTreeSet<u32>> {
    let mut found: BTreeMap<&Value, BTreeSet<u32>> = BTreeMap::new();
    for statement in board.statements() {
        let (value, ends) = match &statement.pledges {
            Pledges::Prepare(p) if p.n_commit != 0 => (&p.ballot.value, [p.n_commit, p.n_high]),
            Pledges::Confirm(c) => (&c.ballot.value, [c.n_commit, c.n_high]),
            Pledges::Externalize(e) => (&e.commit.value, [e.commit.counter, e.n_high]),
            _ => continue,
        };
        for end in ends {
            if end != 0 {
                found.entry(value).or_default().insert(end);
            }
        }
    }
    found
}

impl State {
    /// The first rule.
    fn accept_prepared(&mut self, board: &Board) -> bool {
        let is_accepted = |ballot: &Named<'_>| board.accepted(&Prepared(ballot.0, ballot.1));
        let all = candidates(board);
        let better = {
            let mut above = all
                .iter()
                .rev()
                .take_while(|x| is_above(**x, &self.prepared))
                .filter(|x| {
                    self.phase == Phase::Prepare
                        || self.low.as_ref().is_some_and(|low| low.value == *x.1)
                });
            above.find(|x| is_accepted(x)).map(|x| owned(*x))
        };
        let mut changed = better.is_some();
        let before = match better {
            Some(better) => self.prepared.replace(better),
            None => None,
        };
        if self.phase != Phase::Prepare {
            return changed;
        }
        let Some(prepared) = &self.prepared else {
            return changed;
        };
        let is_under = |x: &Named<'_>| is_under(*x, named(prepared));
        let held = [&before, &self.prime]
            .into_iter()
            .flatten()
            .map(named)
            .filter(is_under)
            .max();
        let found = all
            .range(..named(prepared))
            .rev()
            .take_while(|x| held.is_none_or(|held| held < **x))
            .filter(|x| is_under(x))
            .find(|x| is_accepted(x));
        let prime = found.copied().or(held);
        if prime != self.prime.as_ref().map(named) {
            self.prime = prime.map(owned);
            changed = true;
        }
        if let (Some(high), Some(_)) = (&self.high, &self.low)
            && (is_over(&self.prepared, high) || is_over(&self.prime, high))
        {
            self.low = None;
            changed = true;
        }
        changed
    }

    /// The second rule.
    fn confirm_prepared(&mut self, board: &Board) -> bool {
        if self.phase != Phase::Prepare {
            return false;
        }
        let all = candidates(board);
        let mut above = all
            .iter()
            .rev()
            .take_while(|x| is_above(**x, &self.confirmed));
        let mut changed = false;
        if let Some(x) = above.find(|x| board.confirmed(&Prepared(x.0, x.1))) {
            let ballot = owned(*x);
            changed = true;
            if is_above(*x, &self.present) {
                self.present = Some(ballot.clone());
                self.high = Some(ballot.clone());
            } else if self
                .present
                .as_ref()
                .is_some_and(|present| present.value == ballot.value)
            {
                self.high = Some(ballot.clone());
            }
            self.confirmed = Some(ballot);
        }
        if let (Some(low), Some(present)) = (&self.low, &self.present)
            && low.value != present.value
        {
            self.low = None;
            changed = true;
        }
        if let (None, Some(high)) = (&self.low, &self.high)
            && self.high == self.present
            && !is_over(&self.prepared, high)
            && !is_over(&self.prime, high)
        {
            self.low = Some(high.clone());
            changed = true;
        }
        changed
    }

    /// The third rule.
    fn accept_commit(&mut self, board: &Board) -> bool {
        for (value, ends) in boundaries(board) {
            let floor = match (self.phase, &self.low) {
                (Phase::Confirm, Some(low)) if low.value != *value => continue,
                (Phase::Confirm, _) => counter(&self.high),
                _ => 0,
            };
            let mut above = ends.iter().rev().take_while(|n| **n > floor);
            let Some(&high) = above.find(|n| board.accepted(&Committed(**n, **n, value))) else {
                continue;
            };
            let mut below = ends.range(..high);
            let low = below.find(|n| board.accepted(&Committed(**n, high, value)));
            self.commit(low.copied().unwrap_or(high), high, value);
            return true;
        }
        false
    }

    /// Takes the range of commit.
    fn commit(&mut self, low: u32, high: u32, value: &Value) {
        self.low = Some(owned((low, value)));
        if is_above((high, value), &self.present)
            || self
                .present
                .as_ref()
                .is_some_and(|present| present.value != *value)
        {
            self.present = Some(owned((high, value)));
        }
        self.high = Some(owned((high, value)));
        if self.phase == Phase::Prepare {
            self.phase = Phase::Confirm;
            let prime = self.prime.take().filter(|prime| prime.value == *value);
            if self
                .prepared
                .as_ref()
                .is_some_and(|prepared| prepared.value != *value)
            {
                self.prepared = prime;
            }
        }
    }

    /// The fourth rule.
    fn confirm_commit(&mut self, board: &Board) -> bool {
        let (Phase::Confirm, Some(held)) = (self.phase, &self.low) else {
            return false;
        };
        let all = boundaries(board);
        let value = &held.value;
        let Some(ends) = all.get(value) else {
            return false;
        };
        let Some(&high) = ends
            .iter()
            .rev()
            .find(|n| board.confirmed(&Committed(**n, **n, value)))
        else {
            return false;
        };
        let mut below = ends.range(..high);
        let low = below.find(|n| board.confirmed(&Committed(**n, high, value)));
        self.high = Some(owned((high, value)));
        self.low = Some(owned((low.copied().unwrap_or(high), value)));
        self.phase = Phase::Externalize;
        true
    }

    /// A present ballot of this counter, where there is a value for it.
    fn raise_to(&mut self, n: u32) -> bool {
        let value = match self.phase {
            Phase::Confirm => self.low.as_ref().map(|low| &low.value),
            _ => None,
        };
        let value = value
            .or(self.confirmed.as_ref().map(|confirmed| &confirmed.value))
            .or(self.composite.as_ref())
            .or(self.prepared.as_ref().map(|prepared| &prepared.value));
        let Some(value) = value.cloned() else {
            return false;
        };
        if n <= counter(&self.present) {
            return false;
        }
        if self.phase == Phase::Prepare {
            if self.confirmed.is_some() {
                self.high = self.confirmed.clone();
            }
            if self.low.as_ref().is_some_and(|low| low.value != value) {
                self.low = None;
            }
        }
        self.present = Some(Ballot { counter: n, value });
        true
    }

    /// The fifth rule.
    fn catch_up(&mut self, me: &NodeId, board: &Board) -> bool {
        let others = || board.statements().filter(|statement| statement.node != *me);
        let are_ahead = |n: u32| {
            others().any(|statement| n < counter_of(statement))
                && board.is_blocked_by(|node| {
                    node != me
                        && board
                            .statement(node)
                            .is_some_and(|statement| n < counter_of(statement))
                })
        };
        if !are_ahead(counter(&self.present)) {
            return false;
        }
        let counters: BTreeSet<u32> = others().map(counter_of).collect();
        match counters.into_iter().find(|n| !are_ahead(*n)) {
            Some(n) => self.raise_to(n),
            None => false,
        }
    }

    fn apply(&mut self, me: &NodeId, board: &Board) -> bool {
        if self.phase == Phase::Externalize {
            return false;
        }
        self.accept_prepared(board)
            || self.confirm_prepared(board)
            || self.accept_commit(board)
            || self.confirm_commit(board)
            || self.catch_up(me, board)
    }

    fn pledges(&self, set_hash: Hash) -> Option<Pledges> {
        Some(match self.phase {
            Phase::Prepare => Pledges::Prepare(Prepare {
                set_hash,
                ballot: self.present.clone().unwrap_or(Ballot {
                    counter: 0,
                    value: Value(Vec::new()),
                }),
                prepared: self.prepared.clone(),
                prepared_prime: self.prime.clone(),
                n_commit: counter(&self.low),
                n_high: counter(&self.high),
            }),
            Phase::Confirm => Pledges::Confirm(Confirm {
                ballot: self.present.clone()?,
                n_prepared: counter(&self.prepared),
                n_commit: counter(&self.low),
                n_high: counter(&self.high),
                set_hash,
            }),
            Phase::Externalize => Pledges::Externalize(Externalize {
                commit: self.low.clone()?,
                n_high: counter(&self.high),
                set_hash,
            }),
        })
    }
}

impl Ballots {
    pub fn new(me: NodeId, slot: Slot, local: Arc<SaneSet>) -> Ballots {
        Ballots {
            me,
            slot,
            hash: local.hash,
            board: Board::new(me, local.clone()),
            local,
            state: State {
                phase: Phase::Prepare,
                present: None,
                prepared: None,
                prime: None,
                confirmed: None,
                high: None,
                low: None,
                composite: None,
            },
            emitted: None,
        }
    }

    pub fn last(&self, node: &NodeId) -> Option<&Statement> {
        self.board.statement(node)
    }

    fn renew(&mut self) {
        if let Some(pledges) = self.state.pledges(self.hash) {
            let statement = Statement {
                node: self.me,
                slot: self.slot,
                pledges,
            };
            let signature = Vec::new();
            self.board.put(
                Envelope {
                    statement,
                    signature,
                },
                self.local.clone(),
            );
        }
    }

    /// Applies the rules until none changes anything, at most 64 times, and gives what there is to say.
    fn settle(&mut self, changed: bool) -> Balloted {
        let before = self.state.phase;
        if changed {
            self.renew();
        }
        let mut applied = 0;
        while applied < APPLICATIONS && self.state.apply(&self.me, &self.board) {
            self.renew();
            applied += 1;
        }
        let decided = if before != Phase::Externalize && self.state.phase == Phase::Externalize {
            self.decision()
        } else {
            None
        };
        Balloted {
            statement: self.emit(),
            decided,
            more: applied == APPLICATIONS,
        }
    }

    fn decision(&self) -> Option<Decision> {
        let low = self.state.low.as_ref()?;
        let n = counter(&self.state.high);
        let quorum = self.board.certificate(&Committed(n, n, &low.value))?;
        Some(Decision {
            value: low.value.clone(),
            n,
            quorum,
            own: Envelope {
                statement: self.board.statement(&self.me)?.clone(),
                signature: Vec::new(),
            },
        })
    }

    fn emit(&mut self) -> Option<Envelope> {
        let own = self.board.statement(&self.me)?;
        if !own.is_sane() || self.emitted.as_ref().is_some_and(|last| !newer(last, own)) {
            return None;
        }
        self.emitted = Some(own.clone());
        Some(Envelope {
            statement: own.clone(),
            signature: Vec::new(),
        })
    }

    /// A composite of the nomination.
    pub fn candidate(&mut self, value: Value) -> Balloted {
        if self.state.phase == Phase::Externalize {
            return Balloted::default();
        }
        if self.state.present.is_none() {
            self.state.present = Some(owned((1, &value)));
        }
        self.state.composite = Some(value);
        self.settle(true)
    }

    pub fn timer(&mut self) -> Balloted {
        let raised = match counter(&self.state.present).checked_add(1) {
            Some(n) => self.state.raise_to(n),
            None => false,
        };
        self.settle(raised)
    }

    /// Another node's fresh ballot statement.
    pub fn take(&mut self, envelope: Envelope, delivered: Arc<SaneSet>) -> Balloted {
        self.board.put(envelope, delivered);
        self.settle(false)
    }
}
