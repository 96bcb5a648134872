//! What waits to go to one peer.
use crate::envelope::{Envelope, Pledges, Statement};
use crate::wire::Message;
use std::collections::VecDeque;

const WAITING: usize = 64;

/// Requests and answers, and the newest own statement of each slot and kind.
pub struct Outbox {
    ring: VecDeque<Message>,
    statements: VecDeque<Box<Envelope>>,
}

fn is_nomination(statement: &Statement) -> bool {
    matches!(statement.pledges, Pledges::Nominate(_))
}

fn are_alike(one: &Statement, other: &Statement) -> bool {
    one.slot == other.slot && is_nomination(one) == is_nomination(other)
}

impl Outbox {
    pub fn new() -> Outbox {
        Outbox {
            ring: VecDeque::with_capacity(WAITING),
            statements: VecDeque::with_capacity(WAITING),
        }
    }

    pub fn put(&mut self, message: Message) {
        match message {
            Message::Envelope(envelope) => self.put_statement(envelope),
            message => {
                if self.ring.len() == WAITING {
                    self.ring.pop_front();
                }
                self.ring.push_back(message);
            }
        }
    }

    fn put_statement(&mut self, envelope: Box<Envelope>) {
        let mut waiting = self.statements.iter_mut();
        if let Some(there) =
            waiting.find(|there| are_alike(&there.statement, &envelope.statement))
        {
            *there = envelope;
            return;
        }
        if self.statements.len() == WAITING {
            self.statements.pop_front();
        }
        self.statements.push_back(envelope);
    }

    pub fn next(&mut self) -> Option<Message> {
        let answer = self.ring.pop_front();
        answer.or_else(|| self.statements.pop_front().map(Message::Envelope))
    }
}
