//! XDR (RFC 4506) from the front of a slice.
use crate::types::{Ballot, Fault, Hash, NodeId, Value};

pub const VALUE_LIMIT: u32 = 4_096;

pub struct Reader<'a> {
    place: usize,
    rest: &'a [u8],
}

pub fn padding_len(len: usize) -> usize {
    len.wrapping_neg() % 4
}

impl<'a> Reader<'a> {
    pub fn new(bytes: &'a [u8]) -> Self {
        Reader {
            place: 0,
            rest: bytes,
        }
    }

    pub fn place(&self) -> usize {
        self.place
    }

    fn chunk<const N: usize>(&mut self) -> Result<&'a [u8; N], Fault> {
        let (front, rest) = self
            .rest
            .split_first_chunk::<N>()
            .ok_or(Fault::Malformed(self.place))?;
        self.place += N;
        self.rest = rest;
        Ok(front)
    }

    pub fn u32(&mut self) -> Result<u32, Fault> {
        Ok(u32::from_be_bytes(*self.chunk()?))
    }

    pub fn u64(&mut self) -> Result<u64, Fault> {
        Ok(u64::from_be_bytes(*self.chunk()?))
    }

    /// That many bytes, and their padding of zeros.
    fn bytes(&mut self, len: usize) -> Result<&'a [u8], Fault> {
        let zeros = padding_len(len);
        if self.rest.len() < len + zeros {
            return Err(Fault::Malformed(self.place));
        }
        let (bytes, rest) = self.rest.split_at(len);
        let (padding, rest) = rest.split_at(zeros);
        if let Some(i) = padding.iter().position(|byte| *byte != 0) {
            return Err(Fault::Malformed(self.place + len + i));
        }
        self.place += len + zeros;
        self.rest = rest;
        Ok(bytes)
    }

    pub fn fixed<const N: usize>(&mut self) -> Result<[u8; N], Fault> {
        let mut array = [0; N];
        array.copy_from_slice(self.bytes(N)?);
        Ok(array)
    }

    pub fn count(&mut self, max: u32) -> Result<u32, Fault> {
        let count = self.u32()?;
        if count > max {
            return Err(Fault::TooLong);
        }
        Ok(count)
    }

    pub fn opaque(&mut self, max: u32) -> Result<&'a [u8], Fault> {
        let len = self.count(max)? as usize;
        self.bytes(len)
    }

    pub fn flag(&mut self) -> Result<bool, Fault> {
        let place = self.place;
        match self.u32()? {
            0 => Ok(false),
            1 => Ok(true),
            _ => Err(Fault::Malformed(place)),
        }
    }

    pub fn end(&self) -> Result<(), Fault> {
        if self.rest.is_empty() {
            Ok(())
        } else {
            Err(Fault::Malformed(self.place))
        }
    }

    pub fn value(&mut self) -> Result<Value, Fault> {
        Ok(Value(self.opaque(VALUE_LIMIT)?.to_vec()))
    }

    pub fn hash(&mut self) -> Result<Hash, Fault> {
        Ok(Hash(self.fixed()?))
    }

    pub fn node(&mut self) -> Result<NodeId, Fault> {
        let place = self.place;
        match self.u32()? {
            0 => Ok(NodeId(self.fixed()?)),
            _ => Err(Fault::Malformed(place)),
        }
    }

    pub fn ballot(&mut self) -> Result<Ballot, Fault> {
        Ok(Ballot {
            counter: self.u32()?,
            value: self.value()?,
        })
    }

    pub fn optional<T>(
        &mut self,
        read: impl FnOnce(&mut Self) -> Result<T, Fault>,
    ) -> Result<Option<T>, Fault> {
        if self.flag()? {
            Ok(Some(read(self)?))
        } else {
            Ok(None)
        }
    }

    pub fn array<T>(
        &mut self,
        max: u32,
        mut read: impl FnMut(&mut Self) -> Result<T, Fault>,
    ) -> Result<Vec<T>, Fault> {
        let count = self.count(max)?;
        // No more than the bytes that are left can hold.
        let mut items = Vec::with_capacity((count as usize).min(self.rest.len() / 4));
        for _ in 0..count {
            items.push(read(self)?);
        }
        Ok(items)
    }
}

/// Writes what `Reader` reads.
#[derive(Default)]
pub struct Writer {
    pub bytes: Vec<u8>,
}

impl Writer {
    pub fn u32(&mut self, number: u32) {
        self.bytes.extend_from_slice(&number.to_be_bytes());
    }

    pub fn u64(&mut self, number: u64) {
        self.bytes.extend_from_slice(&number.to_be_bytes());
    }

    pub fn fixed(&mut self, bytes: &[u8; 32]) {
        self.bytes.extend_from_slice(bytes);
    }

    pub fn opaque(&mut self, bytes: &[u8]) {
        self.u32(bytes.len() as u32);
        self.bytes.extend_from_slice(bytes);
        let padded = bytes.len().next_multiple_of(4);
        self.bytes.extend_from_slice(&[0; 4][..padded - bytes.len()]);
    }

    pub fn node(&mut self, node: &NodeId) {
        self.u32(0);
        self.fixed(&node.0);
    }

    pub fn ballot(&mut self, ballot: &Ballot) {
        self.u32(ballot.counter);
        self.opaque(&ballot.value.0);
    }

    pub fn optional(&mut self, ballot: &Option<Ballot>) {
        match ballot {
            Some(ballot) => {
                self.u32(1);
                self.ballot(ballot);
            }
            None => self.u32(0),
        }
    }

    pub fn values(&mut self, values: &[Value]) {
        self.u32(values.len() as u32);
        for value in values {
            self.opaque(&value.0);
        }
    }
}
