//! Messages that are decoded again and again.
use crate::types::Fault;
use crate::wire::{Message, decode};
use std::hint::black_box;

const DISTINCT: u32 = 4_096;

fn record(slot: u64) -> [u8; 40] {
    let [a, b, c, d, e, f, g, h] = slot.to_be_bytes();
    [
        0, 0, 0, 6, a, b, c, d, e, f, g, h, 0, 0, 0, 24, 0, 0, 0, 1, 0, 0, 0, 0, 0, 0, 0, 4, e, f,
        g, h, 0, 0, 0, 1, b'1', 0, 0, 0,
    ]
}

pub fn decode_records(size: u32) -> Result<String, Fault> {
    let messages: Vec<[u8; 40]> = (1..=DISTINCT as u64).map(record).collect();
    let (mut count, mut slots, mut len) = (0u64, 0u64, 0u64);
    let mut take_all = |messages: &[[u8; 40]]| {
        for bytes in messages {
            // The message is owned here, and let go again.
            if let Message::Record(slot, value) = black_box(decode(bytes)?) {
                count = count.wrapping_add(1);
                slots = slots.wrapping_add(slot.0);
                len = len.wrapping_add(value.0.len() as u64);
            }
        }
        Ok(())
    };
    for _ in 0..size / DISTINCT {
        take_all(&messages)?;
    }
    take_all(&messages[..(size % DISTINCT) as usize])?;
    Ok(format!(
        "decode {size}: messages {count} slots {slots} bytes {len}"
    ))
}
