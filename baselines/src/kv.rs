//! Operation lists, and the state that they build.
use crate::types::Fault;
use crate::xdr::Reader;
use std::collections::BTreeMap;

const LIST_LIMIT: usize = 4_096;
const COUNT_LIMIT: u32 = 64;
const KEY_LIMIT: u32 = 64;
const ENTRY_LIMIT: u32 = 256;

enum Op<'a> {
    Put(&'a [u8], &'a [u8]),
    Del(&'a [u8]),
}

impl<'a> Op<'a> {
    fn read(reader: &mut Reader<'a>) -> Result<Op<'a>, Fault> {
        let place = reader.place();
        match reader.u32()? {
            0 => Ok(Op::Put(
                reader.opaque(KEY_LIMIT)?,
                reader.opaque(ENTRY_LIMIT)?,
            )),
            1 => Ok(Op::Del(reader.opaque(KEY_LIMIT)?)),
            _ => Err(Fault::Malformed(place)),
        }
    }
}

/// The operations of a value, where it is an operation list.
fn ops_of(bytes: &[u8]) -> Option<Vec<Op<'_>>> {
    if bytes.len() > LIST_LIMIT {
        return None;
    }
    let mut reader = Reader::new(bytes);
    let ops = reader.array(COUNT_LIMIT, Op::read).ok()?;
    reader.end().ok()?;
    Some(ops)
}

pub fn is_ops(bytes: &[u8]) -> bool {
    ops_of(bytes).is_some()
}

#[derive(Default)]
pub struct KvState {
    pub entries: BTreeMap<Vec<u8>, Vec<u8>>,
}

impl KvState {
    /// Applies the operations of a value; one that is no list leaves the state.
    pub fn apply_value(&mut self, bytes: &[u8]) {
        for op in ops_of(bytes).into_iter().flatten() {
            match op {
                Op::Put(key, value) => {
                    self.entries.insert(key.to_vec(), value.to_vec());
                }
                Op::Del(key) => {
                    self.entries.remove(key);
                }
            }
        }
    }
}
