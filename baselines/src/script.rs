//! Scripts in, reports out.
use crate::hex;
use crate::ledger::{Command as Local, Decision, Fate, Origin, Verdict};
use crate::link::Cause;
use crate::node::{Capacities, Config, Event, Node, Reply};
use crate::pending::DropCause;
use crate::quorum::QuorumSet;
use crate::types::{ConnId, Fault, NodeId, Slot, Value};
use std::collections::BTreeMap;
use std::io::{Read, Write};

pub const SCRIPT_LIMIT: usize = 1_048_576;
const NODES: u8 = 8;
const LIVES: u32 = 65_535;
const ROUNDS: u32 = 100_000;

/// What a line says of the link between two nodes.
enum Act {
    Open,
    Send(Vec<u8>),
    Close,
}

enum Command {
    Caps(Capacities),
    Nodes { count: u8, quorum: u8 },
    Set { node: u8, set: QuorumSet },
    Link { from: u8, to: u8, act: Act },
    Tick(u8),
    Ask { from: u8, to: u8, slot: u64 },
    Propose { node: u8, slot: u64, value: Vec<u8> },
    Round(u8, u64),
    Timer(u8, u64),
    Wait(u8),
    Settle,
    Report(u8),
}

/// A number without sign or leading zero.
fn number(word: &str) -> Option<u64> {
    if word.starts_with('+') || (word.len() > 1 && word.starts_with('0')) {
        return None;
    }
    word.parse().ok()
}

fn small_number(word: &str) -> Option<u8> {
    number(word)?.try_into().ok()
}

fn capacity(word: &str) -> Option<usize> {
    let room = number(word)?.try_into().ok()?;
    (1..=1_024).contains(&room).then_some(room)
}

fn bytes_of(word: &str) -> Option<Vec<u8>> {
    match word {
        "-" => Some(Vec::new()),
        "" => None,
        _ => hex::decode(word),
    }
}

fn link(from: &str, to: &str, act: Act) -> Option<Command> {
    Some(Command::Link {
        from: small_number(from)?,
        to: small_number(to)?,
        act,
    })
}

fn command(words: &[&str]) -> Option<Command> {
    match *words {
        ["settle"] => Some(Command::Settle),
        ["report", node] => Some(Command::Report(small_number(node)?)),
        ["caps", link, inbox, ready, decided] => Some(Command::Caps(Capacities {
            link: capacity(link)?,
            inbox: capacity(inbox)?,
            ready: capacity(ready)?,
            decided: capacity(decided)?,
        })),
        ["nodes", count, quorum] => Some(Command::Nodes {
            count: small_number(count)?,
            quorum: small_number(quorum)?,
        }),
        ["set", node, word] => Some(Command::Set {
            node: small_number(node)?,
            set: QuorumSet::decode(&bytes_of(word)?).ok()?,
        }),
        ["open", from, to] => link(from, to, Act::Open),
        ["close", from, to] => link(from, to, Act::Close),
        ["send", from, to, word] => link(from, to, Act::Send(bytes_of(word)?)),
        ["propose", node, slot, word] => Some(Command::Propose {
            node: small_number(node)?,
            slot: number(slot)?,
            value: bytes_of(word)?,
        }),
        ["round", node, slot] => Some(Command::Round(small_number(node)?, number(slot)?)),
        ["timer", node, slot] => Some(Command::Timer(small_number(node)?, number(slot)?)),
        ["wait", node, things] => {
            number(things)?;
            Some(Command::Wait(small_number(node)?))
        }
        ["tick", node] => Some(Command::Tick(small_number(node)?)),
        ["ask", from, to, slot] => Some(Command::Ask {
            from: small_number(from)?,
            to: small_number(to)?,
            slot: number(slot)?,
        }),
        _ => None,
    }
}

#[derive(Default)]
struct Reading {
    commands: Vec<Command>,
    count: u8,
    has_begun: bool,
    /// Of each link whether it is open, and its lives.
    links: BTreeMap<(u8, u8), (bool, u32)>,
}

impl Reading {
    fn has(&self, node: u8) -> bool {
        (1..=self.count).contains(&node)
    }

    fn admits(&self, command: &Command) -> bool {
        match command {
            Command::Caps(_) => self.count == 0,
            Command::Nodes { count, quorum } => {
                self.count == 0 && (1..=NODES).contains(count) && (1..=*count).contains(quorum)
            }
            Command::Set { node, set } => self.has(*node) && !self.has_begun && set.is_sane(),
            Command::Link { from, to, act } => {
                let (is_open, lives) = *self.links.get(&(*from, *to)).unwrap_or(&(false, 0));
                let fits = match act {
                    Act::Open => !is_open && lives < LIVES,
                    Act::Send(_) | Act::Close => is_open,
                };
                self.has(*from) && self.has(*to) && from != to && fits
            }
            Command::Ask { from, to, .. } => self.has(*from) && self.has(*to) && from != to,
            Command::Tick(node)
            | Command::Report(node)
            | Command::Wait(node)
            | Command::Round(node, _)
            | Command::Timer(node, _)
            | Command::Propose { node, .. } => self.has(*node),
            Command::Settle => self.count > 0,
        }
    }

    fn add(&mut self, command: Command) -> Option<()> {
        if !self.admits(&command) {
            return None;
        }
        match &command {
            Command::Nodes { count, .. } => self.count = *count,
            Command::Caps(_) | Command::Set { .. } => {}
            Command::Link { from, to, act } => {
                self.has_begun = true;
                let (is_open, lives) = self.links.entry((*from, *to)).or_default();
                match act {
                    Act::Open => {
                        *is_open = true;
                        *lives += 1;
                    }
                    Act::Close => *is_open = false,
                    Act::Send(_) => {}
                }
            }
            _ => self.has_begun = true,
        }
        self.commands.push(command);
        Some(())
    }

    fn read_line(&mut self, line: &[u8]) -> Option<()> {
        if !line.is_ascii() {
            return None;
        }
        if line.is_empty() || line[0] == b'#' {
            return Some(());
        }
        let line = std::str::from_utf8(line).ok()?;
        let words: Vec<&str> = line.split(' ').collect();
        self.add(command(&words)?)
    }
}

fn parse(text: &[u8]) -> Result<Vec<Command>, Fault> {
    let mut reading = Reading::default();
    for (index, line) in text.split(|byte| *byte == b'\n').enumerate() {
        reading.read_line(line).ok_or(Fault::BadScript(index + 1))?;
    }
    Ok(reading.commands)
}

fn id_from(number: u8) -> NodeId {
    NodeId([number; 32])
}

/// The nodes that a script begins with.
fn new_nodes(commands: &[Command]) -> Result<Vec<Node>, Fault> {
    let mut capacities = Capacities {
        link: 64,
        inbox: 64,
        ready: 64,
        decided: 64,
    };
    let mut sets = Vec::new();
    for command in commands {
        match command {
            Command::Caps(given) => capacities = *given,
            Command::Nodes { count, quorum } => {
                let all = QuorumSet {
                    threshold: u32::from(*quorum),
                    validators: (1..=*count).map(id_from).collect(),
                    inner_sets: Vec::new(),
                };
                sets = vec![all; *count as usize];
            }
            Command::Set { node, set } => sets[*node as usize - 1] = set.clone(),
            _ => {}
        }
    }
    let count = sets.len() as u8;
    let configs = (1..).zip(sets).map(|(number, set)| Config {
        me: id_from(number),
        set,
        peers: (1..=count)
            .filter(|other| *other != number)
            .map(id_from)
            .collect(),
        capacities,
    });
    configs.map(Node::new).collect()
}

/// The place of a node among the peers of another.
fn place(from: u8, to: u8) -> u8 {
    if from < to { from - 1 } else { from - 2 }
}

/// Nodes, and the links on which the script alone sends.
struct Network {
    nodes: Vec<Node>,
    driven: Vec<(u8, u8)>,
}

impl Network {
    fn new(commands: &[Command]) -> Result<Network, Fault> {
        let driven = commands.iter().filter_map(|command| match command {
            Command::Link {
                from,
                to,
                act: Act::Send(_),
            } => Some((*from, *to)),
            _ => None,
        });
        let mut driven: Vec<(u8, u8)> = driven.collect();
        driven.sort_unstable();
        driven.dedup();
        Ok(Network {
            nodes: new_nodes(commands)?,
            driven,
        })
    }

    /// What a node says next to each other one goes there; whether anything went.
    fn carry(&mut self, from: u8) -> bool {
        let mut sent = false;
        for to in 1..=self.nodes.len() as u8 {
            if from == to || self.driven.binary_search(&(from, to)).is_ok() {
                continue;
            }
            let link = place(from, to);
            let receiver = &self.nodes[to as usize - 1];
            if !receiver.links()[link as usize].accepts() {
                continue;
            }
            let reply = self.nodes[from as usize - 1].step(Event::Drain(place(to, from)));
            if let Reply::Sent(bytes) = reply {
                self.nodes[to as usize - 1].step(Event::Send(link, bytes));
                sent = true;
            }
        }
        sent
    }

    /// One round over the nodes; whether anything moved.
    fn round(&mut self) -> bool {
        let mut moved = false;
        for number in 1..=self.nodes.len() as u8 {
            let node = &mut self.nodes[number as usize - 1];
            let links = node.links().len() as u8;
            let mut step = |event| moved |= node.step(event) == Reply::Moved;
            for link in 0..links {
                step(Event::ReaderTake(link));
                step(Event::ReaderPut(link));
            }
            step(Event::PendTake);
            step(Event::PendPut);
            step(Event::SlotTake);
            step(Event::SlotPut);
            step(Event::ApplyTake);
            moved |= self.carry(number);
        }
        moved
    }

    fn settle(&mut self) -> Result<(), Fault> {
        for _ in 0..ROUNDS {
            if !self.round() {
                break;
            }
        }
        if self.nodes.iter().any(|node| node.state().is_none()) {
            return Err(Fault::Failed);
        }
        Ok(())
    }

    /// Where the queue is full, settles and tries again once.
    fn put(&mut self, to: u8, event: &dyn Fn() -> Event) -> Result<(), Fault> {
        let place = to as usize - 1;
        if self.nodes[place].step(event()) == Reply::Full {
            self.settle()?;
            if self.nodes[place].step(event()) != Reply::Accepted {
                return Err(Fault::Failed);
            }
        }
        Ok(())
    }
}

fn word_of_verdict(verdict: Verdict) -> &'static str {
    match verdict {
        Verdict::OldSlot => "old-slot",
        Verdict::FarSlot => "far-slot",
        Verdict::Already => "already",
        Verdict::Unasked => "unasked",
        Verdict::Own => "own",
        Verdict::BadStatement => "bad-statement",
        Verdict::BadValue => "bad-value",
        Verdict::Stale => "stale",
        Verdict::Idle => "idle",
        Verdict::Fresh => "fresh",
        Verdict::Forwarded => "forwarded",
        Verdict::Decided => "decided",
    }
}

fn word_of_cause(cause: Cause) -> &'static str {
    match cause {
        Cause::Malformed => "malformed",
        Cause::Link => "link",
        Cause::Spent => "spent",
        Cause::ParkedFull => "parked-full",
    }
}

fn word_of_drop(cause: DropCause) -> &'static str {
    match cause {
        DropCause::BadSet => "bad-set",
        DropCause::GaveUp => "gave-up",
        DropCause::Closed => "closed",
        DropCause::ParkedFull => "parked-full",
    }
}

fn write_fate(text: &mut Vec<u8>, fate: &Fate) -> std::io::Result<()> {
    match fate {
        Fate::Taken { seq, verdict, .. } => {
            writeln!(text, "{} taken {}", seq.0, word_of_verdict(*verdict))
        }
        Fate::Dropped { seq, cause, .. } => {
            writeln!(text, "{} dropped {}", seq.0, word_of_drop(*cause))
        }
        Fate::Closed { cause, .. } => writeln!(text, "closed {}", word_of_cause(*cause)),
    }
}

/// Digits, or a dash for none.
fn write_hex(text: &mut Vec<u8>, bytes: &[u8]) {
    if bytes.is_empty() {
        text.push(b'-');
    } else {
        hex::write(text, bytes);
    }
}

fn write_applied(text: &mut Vec<u8>, applied: &Decision) -> std::io::Result<()> {
    write!(text, "applied {} ", applied.slot.0)?;
    write_hex(text, &applied.value.0);
    match &applied.origin {
        Origin::Machine { .. } => writeln!(text, " machine"),
        Origin::Named { conn, seq } => {
            writeln!(text, " record {} {} {}", conn.from.0[0], conn.life, seq.0)
        }
    }
}

fn write_report(text: &mut Vec<u8>, number: u8, node: &Node) -> std::io::Result<()> {
    writeln!(text, "node {number}")?;
    let mut sections: BTreeMap<ConnId, Vec<u8>> = BTreeMap::new();
    for fate in node.journal() {
        let (Fate::Taken { conn, .. } | Fate::Dropped { conn, .. } | Fate::Closed { conn, .. }) =
            fate;
        write_fate(sections.entry(*conn).or_default(), fate)?;
    }
    for link in node.links() {
        for life in 1..=link.life {
            let conn = ConnId {
                life,
                ..link.conn()
            };
            if node.parked(&conn) > 0 {
                sections.entry(conn).or_default();
            }
        }
    }
    for (conn, lines) in &sections {
        writeln!(text, "conn {} {}", conn.from.0[0], conn.life)?;
        text.extend_from_slice(lines);
        match node.parked(conn) {
            0 => {}
            parked => writeln!(text, "parked {parked}")?,
        }
    }
    for decision in node.applied() {
        write_applied(text, decision)?;
    }
    if let Some(state) = node.state() {
        for (key, value) in &state.entries {
            text.extend_from_slice(b"state ");
            write_hex(text, key);
            text.push(b'=');
            write_hex(text, value);
            text.push(b'\n');
        }
    }
    text.extend_from_slice(b"end\n");
    Ok(())
}

fn played(text: &[u8]) -> Result<Vec<u8>, Fault> {
    let commands = parse(text)?;
    let mut network = Network::new(&commands)?;
    for command in &commands {
        match command {
            Command::Link { from, to, act } => {
                let link = place(*from, *to);
                network.put(*to, &|| match act {
                    Act::Open => Event::Open(link),
                    Act::Send(bytes) => Event::Send(link, bytes.clone()),
                    Act::Close => Event::Close(link),
                })?;
            }
            Command::Tick(node) => network.put(*node, &|| Event::Local(Local::Tick))?,
            Command::Ask { from, to, slot } => {
                let link = place(*to, *from);
                network.put(*from, &|| {
                    Event::Local(Local::Ask(link, Slot(*slot)))
                })?;
            }
            Command::Propose { node, slot, value } => network.put(*node, &|| {
                let value = Value(value.clone());
                Event::Local(Local::Propose(Slot(*slot), value))
            })?,
            Command::Round(node, slot) => {
                network.put(*node, &|| Event::Local(Local::Round(Slot(*slot))))?;
            }
            Command::Timer(node, slot) => {
                network.put(*node, &|| Event::Local(Local::Timer(Slot(*slot))))?;
            }
            Command::Settle | Command::Wait(_) => network.settle()?,
            _ => {}
        }
    }
    let mut printed = Vec::new();
    for command in &commands {
        if let Command::Report(number) = command {
            let node = &network.nodes[*number as usize - 1];
            write_report(&mut printed, *number, node).map_err(|_| Fault::Device)?;
        }
    }
    Ok(printed)
}

/// Plays a script, and writes its reports once all of them are made.
pub fn play(reader: impl Read, mut writer: impl Write) -> Result<(), Fault> {
    let mut text = Vec::new();
    reader
        .take(SCRIPT_LIMIT as u64 + 1)
        .read_to_end(&mut text)
        .map_err(|_| Fault::Device)?;
    if text.len() > SCRIPT_LIMIT {
        return Err(Fault::TooLong);
    }
    let printed = played(&text)?;
    writer.write_all(&printed).map_err(|_| Fault::Device)
}
