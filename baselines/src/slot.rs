//! The machine of one slot: nomination and ballots together.
use crate::ballots::{Balloted, Ballots, Decision};
use crate::envelope::{Envelope, Pledges, Statement, newer};
use crate::kv::is_ops;
use crate::nominate::{Given, Nomination};
use crate::quorum::SaneSet;
use crate::types::{Ballot, NodeId, Slot, Value};
use std::sync::Arc;

#[allow(dead_code)]
pub enum SlotInput {
    Propose(Value),
    Round,
    Timer,
    Envelope(Envelope, Arc<SaneSet>),
}

#[derive(Clone, Copy, Debug, PartialEq, Eq)]
pub enum Verdict {
    Fresh,
    Stale,
    Own,
    BadStatement,
    BadValue,
    Idle,
}

#[allow(dead_code)]
pub struct SlotOutput {
    pub verdict: Verdict,
    pub nomination: Option<Envelope>,
    pub ballot: Option<Envelope>,
    pub decided: Option<Decision>,
    pub more: bool,
}

pub struct SlotMachine {
    me: NodeId,
    nomination: Nomination,
    ballots: Ballots,
    decided: bool,
    more: bool,
}

fn has_good_values(pledges: &Pledges) -> bool {
    let is_good = |ballot: &Ballot| is_ops(&ballot.value.0);
    match pledges {
        Pledges::Prepare(p) => {
            is_good(&p.ballot)
                && p.prepared.as_ref().is_none_or(is_good)
                && p.prepared_prime.as_ref().is_none_or(is_good)
        }
        Pledges::Confirm(c) => is_good(&c.ballot),
        Pledges::Externalize(e) => is_good(&e.commit),
        Pledges::Nominate(_) => true,
    }
}

impl SlotMachine {
    pub fn new(me: NodeId, slot: Slot, set: Arc<SaneSet>) -> SlotMachine {
        SlotMachine {
            me,
            nomination: Nomination::new(me, slot, set.clone()),
            ballots: Ballots::new(me, slot, set),
            decided: false,
            more: false,
        }
    }

    fn quiet(&self, verdict: Verdict) -> SlotOutput {
        SlotOutput {
            verdict,
            nomination: None,
            ballot: None,
            decided: None,
            more: self.more,
        }
    }

    fn balloted(&mut self, nomination: Option<Envelope>, given: Balloted) -> SlotOutput {
        self.more = given.more;
        self.decided = given.decided.is_some();
        SlotOutput {
            verdict: Verdict::Fresh,
            nomination,
            ballot: given.statement,
            decided: given.decided,
            more: given.more,
        }
    }

    fn pass_on(&mut self, (statement, composite): Given) -> SlotOutput {
        match composite {
            Some(value) => {
                let given = self.ballots.candidate(value);
                self.balloted(statement, given)
            }
            None => SlotOutput {
                nomination: statement,
                ..self.quiet(Verdict::Fresh)
            },
        }
    }

    fn judge(&self, statement: &Statement) -> Verdict {
        let last = match statement.pledges {
            Pledges::Nominate(_) => self.nomination.last(&statement.node),
            _ => self.ballots.last(&statement.node),
        };
        if statement.node == self.me {
            Verdict::Own
        } else if !statement.is_sane() {
            Verdict::BadStatement
        } else if !has_good_values(&statement.pledges) {
            Verdict::BadValue
        } else if last.is_some_and(|last| !newer(last, statement)) {
            Verdict::Stale
        } else {
            Verdict::Fresh
        }
    }

    fn hear(&mut self, envelope: Envelope, set: Arc<SaneSet>) -> SlotOutput {
        let verdict = self.judge(&envelope.statement);
        if verdict != Verdict::Fresh {
            return self.quiet(verdict);
        }
        if let Pledges::Nominate(_) = envelope.statement.pledges {
            let given = self.nomination.take(envelope, set);
            self.pass_on(given)
        } else {
            let given = self.ballots.take(envelope, set);
            self.balloted(None, given)
        }
    }

    /// Takes one input. After the decision nothing changes any more.
    pub fn input(&mut self, input: SlotInput) -> SlotOutput {
        if self.decided {
            return self.quiet(Verdict::Idle);
        }
        match input {
            SlotInput::Propose(value) if !is_ops(&value.0) => self.quiet(Verdict::BadValue),
            SlotInput::Propose(_) if self.nomination.has_proposal() => self.quiet(Verdict::Idle),
            SlotInput::Propose(value) => {
                let given = self.nomination.propose(value);
                self.pass_on(given)
            }
            SlotInput::Round if self.nomination.is_last_round() => self.quiet(Verdict::Idle),
            SlotInput::Round => {
                let given = self.nomination.round();
                self.pass_on(given)
            }
            SlotInput::Timer => {
                let given = self.ballots.timer();
                let changed = given.statement.is_some();
                let mut out = self.balloted(None, given);
                if !changed {
                    out.verdict = Verdict::Idle;
                }
                out
            }
            SlotInput::Envelope(envelope, set) => self.hear(envelope, set),
        }
    }
}
