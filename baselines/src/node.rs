//! One node: events in; replies, journal, decisions, applied list and state out.
use crate::kv::KvState;
use crate::ledger::{Command, Decision, Fate, Ledger, Onward, Outgoing};
use crate::link::{Inbound, Link};
use crate::outbox::Outbox;
use crate::pending::{Pending, Ready};
use crate::quorum::QuorumSet;
use crate::types::{ConnId, Fault, NodeId};
use crate::wire::{Message, encode};
use std::collections::{BTreeMap, BTreeSet, VecDeque};
use std::sync::Arc;

const CAPACITY_LIMIT: usize = 1_024;
const PEER_LIMIT: usize = 7;

pub enum Event {
    Open(u8),
    Send(u8, Vec<u8>),
    Close(u8),
    Local(Command),
    ReaderTake(u8),
    ReaderPut(u8),
    PendTake,
    PendPut,
    SlotTake,
    SlotPut,
    ApplyTake,
    Drain(u8),
}

#[derive(Debug, PartialEq, Eq)]
pub enum Reply {
    Accepted,
    Moved,
    Sent(Vec<u8>),
    Idle,
    Blocked,
    Full,
    NotOpen,
    AlreadyOpen,
    LivesSpent,
    NoLink,
    Failed,
    JournalFull,
}

#[derive(Default)]
struct Applier {
    applied: Vec<Arc<Decision>>,
    waiting: BTreeMap<u64, Arc<Decision>>,
    state: KvState,
}

impl Applier {
    fn take(&mut self, onward: Onward) -> Option<(u8, Message)> {
        match onward {
            Onward::Decided(decision) => {
                self.waiting.insert(decision.slot.0, decision);
                while let Some(decision) = self.waiting.remove(&(self.applied.len() as u64 + 1)) {
                    self.state.apply_value(&decision.value.0);
                    self.applied.push(decision);
                }
                None
            }
            Onward::Asked { link, slot } => {
                let place = usize::try_from(slot.0.checked_sub(1)?).ok()?;
                let decision = self.applied.get(place)?;
                Some((link, Message::Record(slot, decision.value.clone())))
            }
        }
    }
}

#[derive(Clone, Copy)]
pub struct Capacities {
    pub link: usize,
    pub inbox: usize,
    pub ready: usize,
    pub decided: usize,
}

pub struct Config {
    pub me: NodeId,
    pub set: QuorumSet,
    pub peers: Vec<NodeId>,
    pub capacities: Capacities,
}

pub struct Node {
    capacities: Capacities,
    links: Vec<Link>,
    inbox: VecDeque<Inbound>,
    pending: Pending,
    pend_hand: Option<Ready>,
    ready: VecDeque<Ready>,
    ledger: Ledger,
    slot_hand: Option<Onward>,
    decided: VecDeque<Onward>,
    applier: Applier,
    outboxes: Vec<Outbox>,
    failed: bool,
}

impl Node {
    pub fn new(config: Config) -> Result<Node, Fault> {
        let Config {
            me,
            set,
            peers,
            capacities,
        } = config;
        let Capacities {
            link,
            inbox,
            ready,
            decided,
        } = capacities;
        let is_fit = [link, inbox, ready, decided]
            .iter()
            .all(|room| (1..=CAPACITY_LIMIT).contains(room));
        let names: BTreeSet<&NodeId> = peers.iter().collect();
        if !is_fit || peers.len() > PEER_LIMIT || names.len() < peers.len() || names.contains(&me) {
            return Err(Fault::BadConfig);
        }
        let set = Arc::new(set.into_sane().map_err(|_| Fault::BadConfig)?);
        Ok(Node {
            capacities,
            links: peers
                .iter()
                .map(|peer| Link::new(*peer, me, link))
                .collect(),
            outboxes: peers.iter().map(|_| Outbox::new()).collect(),
            inbox: VecDeque::with_capacity(inbox),
            ledger: Ledger::new(me, set.clone(), peers.clone()),
            pending: Pending::new(me, peers, set),
            pend_hand: None,
            ready: VecDeque::with_capacity(ready),
            slot_hand: None,
            decided: VecDeque::with_capacity(decided),
            applier: Applier::default(),
            failed: false,
        })
    }

    pub fn journal(&self) -> &[Fate] {
        self.ledger.journal()
    }

    pub fn applied(&self) -> &[Arc<Decision>] {
        &self.applier.applied
    }

    pub fn state(&self) -> Option<&KvState> {
        (!self.failed).then_some(&self.applier.state)
    }

    pub fn links(&self) -> &[Link] {
        &self.links
    }

    pub fn parked(&self, conn: &ConnId) -> usize {
        self.pending.parked(conn)
    }

    pub fn step(&mut self, event: Event) -> Reply {
        if self.failed {
            return Reply::Failed;
        }
        match event {
            Event::Open(link) => self.on_link(link, Link::open),
            Event::Send(link, bytes) => self.on_link(link, |link| link.send(bytes)),
            Event::Close(link) => self.on_link(link, Link::close),
            Event::Local(_) if self.inbox.len() == self.capacities.inbox => Reply::Full,
            Event::Local(command) => {
                self.inbox.push_back(Inbound::Local(command));
                Reply::Accepted
            }
            Event::ReaderTake(link) => self.on_link(link, Link::take),
            Event::ReaderPut(link) => self.reader_put(link),
            Event::PendTake => self.pend_take(),
            Event::PendPut => self.pend_put(),
            Event::SlotTake => self.slot_take(),
            Event::SlotPut => self.slot_put(),
            Event::ApplyTake => match self.decided.pop_front() {
                Some(onward) => {
                    let answer = self.applier.take(onward);
                    self.hand_out(answer);
                    Reply::Moved
                }
                None => Reply::Idle,
            },
            Event::Drain(link) => match self.outboxes.get_mut(link as usize) {
                Some(outbox) => match outbox.next() {
                    Some(message) => Reply::Sent(encode(&message)),
                    None => Reply::Idle,
                },
                None => Reply::NoLink,
            },
        }
    }

    fn hand_out(&mut self, answer: Option<(u8, Message)>) {
        if let Some((link, message)) = answer
            && let Some(outbox) = self.outboxes.get_mut(link as usize)
        {
            outbox.put(message);
        }
    }

    fn on_link(&mut self, link: u8, act: impl FnOnce(&mut Link) -> Reply) -> Reply {
        self.links.get_mut(link as usize).map_or(Reply::NoLink, act)
    }

    fn reader_put(&mut self, link: u8) -> Reply {
        let is_full = self.inbox.len() == self.capacities.inbox;
        let Some(link) = self.links.get_mut(link as usize) else {
            return Reply::NoLink;
        };
        match link.give(is_full) {
            Ok(item) => {
                self.inbox.push_back(item);
                Reply::Moved
            }
            Err(reply) => reply,
        }
    }

    fn pend_take(&mut self) -> Reply {
        if self.pend_hand.is_some() {
            return Reply::Blocked;
        }
        self.pend_hand = self.pending.next_ready();
        if self.pend_hand.is_some() {
            return Reply::Moved;
        }
        let Some(item) = self.inbox.pop_front() else {
            return Reply::Idle;
        };
        let answer = self.pending.take(item);
        self.hand_out(answer);
        self.pend_hand = self.pending.next_ready();
        Reply::Moved
    }

    fn pend_put(&mut self) -> Reply {
        if self.pend_hand.is_some() && self.ready.len() == self.capacities.ready {
            return Reply::Blocked;
        }
        match self.pend_hand.take() {
            Some(ready) => {
                self.ready.push_back(ready);
                Reply::Moved
            }
            None => Reply::Idle,
        }
    }

    fn slot_take(&mut self) -> Reply {
        if self.slot_hand.is_some() {
            return Reply::Blocked;
        }
        let Some(ready) = self.ready.pop_front() else {
            return Reply::Idle;
        };
        let Some(took) = self.ledger.take(ready) else {
            self.failed = true;
            return Reply::JournalFull;
        };
        for outgoing in took.outgoing {
            match outgoing {
                Outgoing::ToAll(envelope) => {
                    for outbox in &mut self.outboxes {
                        outbox.put(Message::Envelope(Box::new(envelope.clone())));
                    }
                }
                Outgoing::To(link, message) => self.hand_out(Some((link, message))),
            }
        }
        self.slot_hand = took.onward;
        Reply::Moved
    }

    fn slot_put(&mut self) -> Reply {
        if self.slot_hand.is_some() && self.decided.len() == self.capacities.decided {
            return Reply::Blocked;
        }
        match self.slot_hand.take() {
            Some(onward) => {
                self.decided.push_back(onward);
                Reply::Moved
            }
            None => Reply::Idle,
        }
    }
}
