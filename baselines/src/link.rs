//! A link's receiving end: its queue, its reader, and the reader's hand.
use crate::ledger::Command;
use crate::node::Reply;
use crate::types::{ConnId, NodeId, Seq, Slot};
use crate::wire::{Message, decode};
use std::collections::VecDeque;

const CARRIED_LIMIT: u64 = 1_000_000;
const LIVES: u32 = 65_535;

#[derive(Clone, Copy, Debug, PartialEq, Eq)]
pub enum Cause {
    Malformed,
    Link,
    Spent,
    ParkedFull,
}

enum Item {
    Opened(ConnId),
    Bytes(ConnId, Vec<u8>),
    Closed(ConnId),
}

/// What reaches the inbox.
pub enum Inbound {
    Opened(ConnId),
    Carried(ConnId, Seq, Message),
    Side(ConnId, Message),
    Closed(ConnId, Cause),
    Local(Command),
}

pub struct Link {
    from: NodeId,
    to: NodeId,
    pub life: u32,
    is_open: bool,
    room: usize,
    queue: VecDeque<Item>,
    has_ended: bool,
    next: u64,
    /// What was read of one item, and isn't put yet.
    hand: VecDeque<Inbound>,
}

impl Link {
    pub fn new(from: NodeId, to: NodeId, room: usize) -> Link {
        Link {
            from,
            to,
            life: 0,
            is_open: false,
            room,
            queue: VecDeque::with_capacity(room),
            has_ended: true,
            next: 0,
            hand: VecDeque::new(),
        }
    }

    pub fn conn(&self) -> ConnId {
        ConnId {
            from: self.from,
            to: self.to,
            life: self.life,
        }
    }

    /// Whether what is sent now would be accepted.
    pub fn accepts(&self) -> bool {
        self.is_open && self.queue.len() < self.room
    }

    fn put(&mut self, item: Item) -> Reply {
        self.queue.push_back(item);
        Reply::Accepted
    }

    pub fn open(&mut self) -> Reply {
        if self.is_open {
            return Reply::AlreadyOpen;
        }
        if self.life == LIVES {
            return Reply::LivesSpent;
        }
        if self.queue.len() == self.room {
            return Reply::Full;
        }
        self.life += 1;
        self.is_open = true;
        self.put(Item::Opened(self.conn()))
    }

    pub fn send(&mut self, bytes: Vec<u8>) -> Reply {
        if !self.is_open {
            return Reply::NotOpen;
        }
        if self.queue.len() == self.room {
            return Reply::Full;
        }
        self.put(Item::Bytes(self.conn(), bytes))
    }

    pub fn close(&mut self) -> Reply {
        if !self.is_open {
            return Reply::NotOpen;
        }
        if self.queue.len() == self.room {
            return Reply::Full;
        }
        self.is_open = false;
        self.put(Item::Closed(self.conn()))
    }

    pub fn take(&mut self) -> Reply {
        if !self.hand.is_empty() {
            return Reply::Blocked;
        }
        let Some(item) = self.queue.pop_front() else {
            return Reply::Idle;
        };
        self.read(item);
        Reply::Moved
    }

    pub fn give(&mut self, is_full: bool) -> Result<Inbound, Reply> {
        if !self.hand.is_empty() && is_full {
            return Err(Reply::Blocked);
        }
        self.hand.pop_front().ok_or(Reply::Idle)
    }

    fn read(&mut self, item: Item) {
        match item {
            Item::Opened(conn) => {
                self.has_ended = false;
                self.next = 0;
                self.hand.push_back(Inbound::Opened(conn));
            }
            _ if self.has_ended => {}
            Item::Bytes(conn, bytes) => match decode(&bytes) {
                Err(_) => self.end(conn, Cause::Malformed),
                Ok(message) if message.is_side() => {
                    self.hand.push_back(Inbound::Side(conn, message))
                }
                Ok(Message::Records { first, values }) => {
                    for (place, value) in (0..).zip(values) {
                        self.carry(conn, Message::Record(Slot(first.0 + place), value));
                    }
                }
                Ok(message) => self.carry(conn, message),
            },
            Item::Closed(conn) => self.end(conn, Cause::Link),
        }
    }

    /// Numbers a message, or ends the connection where it has carried as many as it may; behind an end nothing comes.
    fn carry(&mut self, conn: ConnId, message: Message) {
        if self.has_ended {
            return;
        }
        if self.next == CARRIED_LIMIT {
            self.end(conn, Cause::Spent);
            return;
        }
        self.next += 1;
        let seq = Seq(self.next - 1);
        self.hand.push_back(Inbound::Carried(conn, seq, message));
    }

    fn end(&mut self, conn: ConnId, cause: Cause) {
        self.has_ended = true;
        self.hand.push_back(Inbound::Closed(conn, cause));
    }
}
