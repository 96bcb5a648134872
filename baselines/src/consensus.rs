//! Nodes that exchange all they say until each has decided, slot after slot.
use crate::envelope::Envelope;
use crate::quorum::{QuorumSet, SaneSet};
use crate::slot::{SlotInput, SlotMachine, SlotOutput};
use crate::types::{Fault, NodeId, Slot, Value};
use std::collections::VecDeque;
use std::sync::Arc;

#[derive(Default)]
struct Consensus {
    decided: u64,
    envelopes: u64,
}

/// One slot's machines, and what was said and isn't heard yet, each with the place of the node that said it.
struct Meeting {
    set: Arc<SaneSet>,
    machines: Vec<SlotMachine>,
    said: VecDeque<(usize, Envelope)>,
    decided: usize,
}

/// The value that puts "1" at a key of 4 bytes, which is the slot's own.
fn value_of(slot: u32) -> Value {
    let [e, f, g, h] = slot.to_be_bytes();
    Value(vec![
        0, 0, 0, 1, 0, 0, 0, 0, 0, 0, 0, 4, e, f, g, h, 0, 0, 0, 1, b'1', 0, 0, 0,
    ])
}

fn node(place: usize) -> NodeId {
    let mut id = [0; 32];
    id[..4].copy_from_slice(&(place as u32 + 1).to_be_bytes());
    NodeId(id)
}

impl Meeting {
    fn new(nodes: usize, slot: u64, set: &Arc<SaneSet>) -> Meeting {
        let machine = |place| SlotMachine::new(node(place), Slot(slot), set.clone());
        Meeting {
            set: set.clone(),
            machines: (0..nodes).map(machine).collect(),
            said: VecDeque::new(),
            decided: 0,
        }
    }

    fn enter(&mut self, place: usize, input: SlotInput) {
        let SlotOutput {
            nomination,
            ballot,
            decided,
            ..
        } = self.machines[place].input(input);
        self.decided += decided.is_some() as usize;
        self.said.extend(
            nomination
                .into_iter()
                .chain(ballot)
                .map(|envelope| (place, envelope)),
        );
    }

    /// Brings what was said to all others, until each node has decided.
    fn exchange(&mut self, consensus: &mut Consensus) {
        while self.decided < self.machines.len() {
            let Some((from, envelope)) = self.said.pop_front() else {
                return;
            };
            consensus.envelopes += 1;
            for place in 0..self.machines.len() {
                if place != from {
                    self.enter(
                        place,
                        SlotInput::Envelope(envelope.clone(), self.set.clone()),
                    );
                }
            }
        }
    }
}

pub fn decide_slots(nodes: u32, size: u32) -> Result<String, Fault> {
    let count = nodes as usize;
    let set = QuorumSet {
        threshold: nodes - (nodes - 1) / 3,
        validators: (0..count).map(node).collect(),
        inner_sets: Vec::new(),
    };
    let set = Arc::new(set.into_sane()?);
    let mut consensus = Consensus::default();
    for slot in 1..=size as u64 {
        let mut meeting = Meeting::new(count, slot, &set);
        let leader = (slot - 1) as usize % count;
        meeting.enter(leader, SlotInput::Propose(value_of(slot as u32)));
        meeting.exchange(&mut consensus);
        consensus.decided += meeting.decided as u64;
    }
    let Consensus { decided, envelopes } = consensus;
    Ok(format!(
        "consensus-{nodes} {size}: decided {decided} envelopes {envelopes}"
    ))
}
