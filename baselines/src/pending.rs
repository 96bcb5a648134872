//! Messages that wait for their quorum sets.
use crate::ledger::Command;
use crate::link::{Cause, Inbound};
use crate::quorum::{QuorumSet, SaneSet};
use crate::types::{ConnId, Hash, NodeId, Seq, Slot};
use crate::wire::Message;
use std::collections::{HashMap, VecDeque};
use std::sync::Arc;

const PARKED_LIMIT: usize = 64;
const OTHER_SETS_LIMIT: usize = 256;
const MISS_LIMIT: u8 = 12;

#[derive(Clone, Copy, Debug, PartialEq, Eq)]
pub enum DropCause {
    BadSet,
    GaveUp,
    Closed,
    ParkedFull,
}

pub enum Ready {
    Deliver(Delivery),
    Dropped {
        conn: ConnId,
        seq: Seq,
        cause: DropCause,
    },
    Closed {
        conn: ConnId,
        cause: Cause,
    },
    Local(Command),
}

pub struct Delivery {
    pub conn: ConnId,
    pub seq: Seq,
    pub message: Message,
    pub set: Option<Arc<SaneSet>>,
}

enum Parked {
    Waits(Seq, Message, Hash),
    Free(Delivery),
    Lost(Seq, Slot, DropCause),
}

#[derive(Clone)]
enum Outcome {
    Has(Arc<SaneSet>),
    Lost(DropCause),
}

struct Queue {
    conn: ConnId,
    parked: VecDeque<Parked>,
}

/// A wanted hash: its misses, and which links were asked.
struct Want {
    order: u64,
    misses: u8,
    asked: u8,
}

pub struct Pending {
    me: NodeId,
    peers: Vec<NodeId>,
    local: Arc<SaneSet>,
    others: HashMap<Hash, Arc<SaneSet>>,
    stored: VecDeque<Hash>,
    wants: HashMap<Hash, Want>,
    wanted: u64,
    queues: Vec<Queue>,
    leaving: VecDeque<Ready>,
}

impl Parked {
    fn seq(&self) -> Seq {
        match self {
            Parked::Waits(seq, ..) | Parked::Lost(seq, ..) => *seq,
            Parked::Free(delivery) => delivery.seq,
        }
    }

    /// The slot that it names: with its connection this is its lane.
    fn slot(&self) -> Slot {
        match self {
            Parked::Waits(_, message, _) => slot_of(message),
            Parked::Free(delivery) => slot_of(&delivery.message),
            Parked::Lost(_, slot, _) => *slot,
        }
    }

    fn is_waiting(&self) -> bool {
        matches!(self, Parked::Waits(..))
    }

    fn waits_for(&self, hash: &Hash) -> bool {
        matches!(self, Parked::Waits(_, _, waited) if waited == hash)
    }

    fn leave(self, conn: ConnId) -> Option<Ready> {
        match self {
            Parked::Waits(..) => None,
            Parked::Free(delivery) => Some(Ready::Deliver(delivery)),
            Parked::Lost(seq, _, cause) => Some(Ready::Dropped { conn, seq, cause }),
        }
    }
}

/// The slot that a carried message names.
fn slot_of(message: &Message) -> Slot {
    match message {
        Message::Envelope(envelope) => envelope.statement.slot,
        Message::GetRecord(slot) | Message::Record(slot, _) => *slot,
        _ => Slot(0),
    }
}

/// Behind these it is held back where it waits, and where one of its lane stands before it.
fn is_held(before: &VecDeque<Parked>, parked: &Parked) -> bool {
    parked.is_waiting() || before.iter().any(|other| other.slot() == parked.slot())
}

impl Queue {
    /// Gives of each lane all that stands before the first that waits.
    fn serve(&mut self, leaving: &mut VecDeque<Ready>) {
        let mut kept = VecDeque::new();
        for parked in self.parked.drain(..) {
            if is_held(&kept, &parked) {
                kept.push_back(parked);
            } else {
                leaving.extend(parked.leave(self.conn));
            }
        }
        self.parked = kept;
    }

    /// What waits for the hash has its outcome.
    fn settle(&mut self, hash: &Hash, outcome: &Outcome) {
        for parked in &mut self.parked {
            if !parked.waits_for(hash) {
                continue;
            }
            let held = std::mem::replace(parked, Parked::Lost(Seq(0), Slot(0), DropCause::BadSet));
            let Parked::Waits(seq, message, _) = held else {
                continue;
            };
            *parked = match outcome {
                Outcome::Lost(cause) => Parked::Lost(seq, slot_of(&message), *cause),
                Outcome::Has(set) => Parked::Free(Delivery {
                    conn: self.conn,
                    seq,
                    message,
                    set: Some(set.clone()),
                }),
            };
        }
    }
}

impl Pending {
    pub fn new(me: NodeId, peers: Vec<NodeId>, local: Arc<SaneSet>) -> Pending {
        Pending {
            me,
            peers,
            local,
            others: HashMap::new(),
            stored: VecDeque::new(),
            wants: HashMap::new(),
            wanted: 0,
            queues: Vec::new(),
            leaving: VecDeque::new(),
        }
    }

    pub fn next_ready(&mut self) -> Option<Ready> {
        self.leaving.pop_front()
    }

    /// How many messages of the connection it holds.
    pub fn parked(&self, conn: &ConnId) -> usize {
        let is_of = |ready: &&Ready| match ready {
            Ready::Deliver(delivery) => delivery.conn == *conn,
            Ready::Dropped { conn: of, .. } => of == conn,
            Ready::Closed { .. } | Ready::Local(_) => false,
        };
        let queue = self.queues.iter().find(|queue| queue.conn == *conn);
        self.leaving.iter().filter(is_of).count() + queue.map_or(0, |queue| queue.parked.len())
    }

    fn place_of(&self, conn: &ConnId) -> Option<usize> {
        self.queues.iter().position(|queue| queue.conn == *conn)
    }

    fn link(&self, conn: &ConnId) -> Option<u8> {
        self.peers
            .iter()
            .position(|peer| *peer == conn.from)
            .map(|place| place as u8)
    }

    fn set(&self, hash: &Hash) -> Option<&Arc<SaneSet>> {
        if *hash == self.local.hash {
            return Some(&self.local);
        }
        self.others.get(hash)
    }

    /// Takes an item, and gives the message for a link, if there is one.
    pub fn take(&mut self, item: Inbound) -> Option<(u8, Message)> {
        match item {
            Inbound::Opened(conn) => self.open(conn),
            Inbound::Carried(conn, seq, message) => return self.bring(conn, seq, message),
            Inbound::Side(conn, message) => {
                self.place_of(&conn)?;
                return self.hear(&conn, message);
            }
            Inbound::Closed(conn, cause) => {
                if let Some(place) = self.place_of(&conn) {
                    self.empty(place, DropCause::Closed);
                    self.leaving.push_back(Ready::Closed { conn, cause });
                }
            }
            Inbound::Local(Command::Tick) => self.tick(),
            Inbound::Local(command) => self.leaving.push_back(Ready::Local(command)),
        }
        None
    }

    fn open(&mut self, conn: ConnId) {
        let is_open = self.queues.iter().any(|queue| queue.conn.from == conn.from);
        let Some(link) = self.link(&conn).filter(|_| conn.to == self.me && !is_open) else {
            return;
        };
        self.queues.push(Queue {
            conn,
            parked: VecDeque::new(),
        });
        for want in self.wants.values_mut() {
            want.asked &= !(1 << link);
        }
    }

    fn bring(&mut self, conn: ConnId, seq: Seq, message: Message) -> Option<(u8, Message)> {
        let place = self.place_of(&conn)?;
        let (parked, waits_for) = self.entering(conn, seq, message);
        if !is_held(&self.queues[place].parked, &parked) {
            self.leaving.extend(parked.leave(conn));
            return None;
        }
        if self.queues[place].parked.len() >= PARKED_LIMIT {
            let cause = DropCause::ParkedFull;
            self.empty(place, cause);
            self.leaving.push_back(Ready::Dropped { conn, seq, cause });
            self.leaving.push_back(Ready::Closed {
                conn,
                cause: Cause::ParkedFull,
            });
            return None;
        }
        if self.queues[place].parked.is_empty() {
            // the queues stand in the order in which they began to wait
            let queue = self.queues.remove(place);
            self.queues.push(queue);
        }
        let queue = self.queues.iter_mut().find(|queue| queue.conn == conn)?;
        queue.parked.push_back(parked);
        waits_for.and_then(|hash| self.want(&conn, hash))
    }

    /// What a message is that comes, and the hash that it waits for.
    fn entering(&self, conn: ConnId, seq: Seq, message: Message) -> (Parked, Option<Hash>) {
        let set = match &message {
            Message::Envelope(envelope) => {
                let hash = *envelope.set_hash();
                match self.set(&hash) {
                    None => return (Parked::Waits(seq, message, hash), Some(hash)),
                    set => set.cloned(),
                }
            }
            _ => None,
        };
        let delivery = Delivery {
            conn,
            seq,
            message,
            set,
        };
        (Parked::Free(delivery), None)
    }

    fn want(&mut self, conn: &ConnId, hash: Hash) -> Option<(u8, Message)> {
        let link = self.link(conn)?;
        let wanted = &mut self.wanted;
        let want = self.wants.entry(hash).or_insert_with(|| {
            *wanted += 1;
            Want {
                order: *wanted,
                misses: 0,
                asked: 0,
            }
        });
        let is_asked = want.asked & 1 << link != 0;
        want.asked |= 1 << link;
        (!is_asked).then_some((link, Message::GetSet(hash)))
    }

    /// Drops all that is parked of a connection, and what it alone waited for isn't wanted any more.
    fn empty(&mut self, place: usize, cause: DropCause) {
        let Queue { conn, parked } = self.queues.remove(place);
        for held in parked {
            let seq = held.seq();
            self.leaving.push_back(Ready::Dropped { conn, seq, cause });
            if let Parked::Waits(_, _, hash) = held {
                let mut others = self.queues.iter().flat_map(|queue| &queue.parked);
                if !others.any(|other| other.waits_for(&hash)) {
                    self.wants.remove(&hash);
                }
            }
        }
    }

    fn hear(&mut self, conn: &ConnId, message: Message) -> Option<(u8, Message)> {
        match message {
            Message::GetSet(hash) => {
                let answer = match self.set(&hash) {
                    Some(set) => Message::Set(set.set.clone()),
                    None => Message::NoSet(hash),
                };
                return Some((self.link(conn)?, answer));
            }
            Message::Set(set) => self.hear_set(set),
            Message::NoSet(hash) => {
                if let Some(want) = self.wants.get_mut(&hash) {
                    want.misses += 1;
                    if want.misses == MISS_LIMIT {
                        self.wants.remove(&hash);
                        self.resolve(&hash, Outcome::Lost(DropCause::GaveUp));
                    }
                }
            }
            _ => {}
        }
        None
    }

    fn hear_set(&mut self, set: QuorumSet) {
        let hash = set.hash();
        if self.wants.remove(&hash).is_none() {
            return;
        }
        if !set.is_sane() {
            return self.resolve(&hash, Outcome::Lost(DropCause::BadSet));
        }
        let set = Arc::new(SaneSet { set, hash });
        if hash != self.local.hash && self.others.insert(hash, set.clone()).is_none() {
            self.stored.push_back(hash);
            if self.stored.len() > OTHER_SETS_LIMIT
                && let Some(first) = self.stored.pop_front()
            {
                self.others.remove(&first);
            }
        }
        self.resolve(&hash, Outcome::Has(set));
    }

    fn resolve(&mut self, hash: &Hash, outcome: Outcome) {
        for queue in &mut self.queues {
            queue.settle(hash, &outcome);
        }
        self.serve();
    }

    /// Gives what may leave, queue after queue.
    fn serve(&mut self) {
        for queue in &mut self.queues {
            queue.serve(&mut self.leaving);
        }
    }

    fn tick(&mut self) {
        for want in self.wants.values_mut() {
            want.misses += 1;
        }
        let is_last = |want: &Want| want.misses == MISS_LIMIT;
        let mut lost: Vec<(u64, Hash)> = self
            .wants
            .iter()
            .filter(|(_, want)| is_last(want))
            .map(|(hash, want)| (want.order, *hash))
            .collect();
        lost.sort_unstable();
        self.wants.retain(|_, want| !is_last(want));
        // Queues whose heads wait for the hash that was wanted first come first.
        self.queues.sort_by_key(|queue| {
            let head = queue.parked.front();
            lost.iter()
                .position(|(_, hash)| head.is_some_and(|head| head.waits_for(hash)))
                .unwrap_or(lost.len())
        });
        for (_, hash) in &lost {
            for queue in &mut self.queues {
                queue.settle(hash, &Outcome::Lost(DropCause::GaveUp));
            }
        }
        self.serve();
    }
}
