//! Link messages.
use crate::envelope::Envelope;
use crate::quorum::QuorumSet;
use crate::types::{Fault, Hash, Slot, Value};
use crate::xdr::{Reader, Writer};

pub const MESSAGE_LIMIT: usize = 65_536;

/// The most records of a batch.
const BATCH_LIMIT: u32 = 32;

#[derive(Clone, Debug)]
pub enum Message {
    Envelope(Box<Envelope>),
    GetSet(Hash),
    Set(QuorumSet),
    NoSet(Hash),
    GetRecord(Slot),
    Record(Slot, Value),
    /// The values of the slots from the first one on.
    Records {
        first: Slot,
        values: Vec<Value>,
    },
}

impl Message {
    /// Whether it is about quorum sets, and isn't numbered on its connection.
    pub fn is_side(&self) -> bool {
        matches!(
            self,
            Message::GetSet(_) | Message::Set(_) | Message::NoSet(_)
        )
    }
}

/// A batch: each of its slots has 64 bits.
fn records(reader: &mut Reader) -> Result<Message, Fault> {
    let place = reader.place();
    let first = reader.u64()?;
    let count_place = reader.place();
    let count = reader.count(BATCH_LIMIT)?;
    let further = u64::from(count)
        .checked_sub(1)
        .ok_or(Fault::Malformed(count_place))?;
    first.checked_add(further).ok_or(Fault::Malformed(place))?;
    let values = (0..count)
        .map(|_| reader.value())
        .collect::<Result<_, _>>()?;
    Ok(Message::Records {
        first: Slot(first),
        values,
    })
}

/// The message that the bytes spell, all of them.
pub fn decode(bytes: &[u8]) -> Result<Message, Fault> {
    if bytes.len() > MESSAGE_LIMIT {
        return Err(Fault::TooLong);
    }
    let mut reader = Reader::new(bytes);
    let message = match reader.u32()? {
        1 => Message::Envelope(Box::new(Envelope::read(&mut reader)?)),
        2 => Message::GetSet(reader.hash()?),
        3 => Message::Set(QuorumSet::read(&mut reader)?),
        4 => Message::NoSet(reader.hash()?),
        5 => Message::GetRecord(Slot(reader.u64()?)),
        6 => Message::Record(Slot(reader.u64()?), reader.value()?),
        7 => records(&mut reader)?,
        _ => return Err(Fault::Malformed(0)),
    };
    reader.end()?;
    Ok(message)
}

/// The bytes that spell the message.
pub fn encode(message: &Message) -> Vec<u8> {
    let mut writer = Writer::default();
    match message {
        Message::Envelope(envelope) => {
            writer.u32(1);
            envelope.write(&mut writer);
        }
        Message::GetSet(hash) => {
            writer.u32(2);
            writer.fixed(&hash.0);
        }
        Message::Set(set) => {
            writer.u32(3);
            set.write(&mut writer.bytes);
        }
        Message::NoSet(hash) => {
            writer.u32(4);
            writer.fixed(&hash.0);
        }
        Message::GetRecord(slot) => {
            writer.u32(5);
            writer.u64(slot.0);
        }
        Message::Record(slot, value) => {
            writer.u32(6);
            writer.u64(slot.0);
            writer.opaque(&value.0);
        }
        Message::Records { first, values } => {
            writer.u32(7);
            writer.u64(first.0);
            writer.values(values);
        }
    }
    writer.bytes
}
