//! Quorum sets: their spelling, sanity and hash.
use crate::sha256::sha256;
use crate::types::{Fault, Hash, NodeId};
use crate::xdr::Reader;

const MAX_ENTRIES: u32 = 1_000;
const MAX_LEVELS: u32 = 4;
const MAX_NODES: usize = 1_000;
const MAX_BYTES: usize = 65_532;

#[derive(Clone, Debug, PartialEq, Eq)]
pub struct QuorumSet {
    pub threshold: u32,
    pub validators: Vec<NodeId>,
    pub inner_sets: Vec<QuorumSet>,
}

/// A sane quorum set, with its hash.
#[derive(Debug)]
pub struct SaneSet {
    pub set: QuorumSet,
    pub hash: Hash,
}

impl QuorumSet {
    pub fn read(reader: &mut Reader<'_>) -> Result<QuorumSet, Fault> {
        Self::read_at(reader, MAX_LEVELS)
    }

    fn read_at(reader: &mut Reader<'_>, levels: u32) -> Result<QuorumSet, Fault> {
        let threshold = reader.u32()?;
        let validators = reader.array(MAX_ENTRIES, |r| r.node())?;
        let most = if levels == 0 { 0 } else { MAX_ENTRIES };
        let inner_sets = reader.array(most, |r| Self::read_at(r, levels - 1))?;
        Ok(QuorumSet {
            threshold,
            validators,
            inner_sets,
        })
    }

    pub fn decode(bytes: &[u8]) -> Result<QuorumSet, Fault> {
        let mut reader = Reader::new(bytes);
        let set = Self::read(&mut reader)?;
        reader.end()?;
        Ok(set)
    }

    pub fn write(&self, out: &mut Vec<u8>) {
        out.extend_from_slice(&self.threshold.to_be_bytes());
        out.extend_from_slice(&(self.validators.len() as u32).to_be_bytes());
        for node in &self.validators {
            out.extend_from_slice(&[0; 4]);
            out.extend_from_slice(&node.0);
        }
        out.extend_from_slice(&(self.inner_sets.len() as u32).to_be_bytes());
        for inner in &self.inner_sets {
            inner.write(out);
        }
    }

    fn fits(&self, levels: u32) -> bool {
        let most = if levels == 0 { 0 } else { MAX_ENTRIES as usize };
        self.validators.len() <= MAX_ENTRIES as usize
            && self.inner_sets.len() <= most
            && self.inner_sets.iter().all(|inner| inner.fits(levels - 1))
    }

    fn is_in_range(&self) -> bool {
        let entries = self.validators.len() + self.inner_sets.len();
        self.threshold != 0
            && self.threshold as usize <= entries
            && self.inner_sets.iter().all(|inner| inner.is_in_range())
    }

    fn nodes(&self, nodes: &mut Vec<NodeId>) {
        nodes.extend_from_slice(&self.validators);
        for inner in &self.inner_sets {
            inner.nodes(nodes);
        }
    }

    fn spelled_len(&self) -> usize {
        12 + 36 * self.validators.len()
            + self
                .inner_sets
                .iter()
                .map(|inner| inner.spelled_len())
                .sum::<usize>()
    }

    pub fn is_sane(&self) -> bool {
        if !self.fits(MAX_LEVELS) || !self.is_in_range() {
            return false;
        }
        let mut nodes = Vec::new();
        self.nodes(&mut nodes);
        nodes.sort_unstable();
        nodes.len() <= MAX_NODES
            && nodes.is_sorted_by(|a, b| a < b)
            && self.spelled_len() <= MAX_BYTES
    }

    pub fn hash(&self) -> Hash {
        let mut bytes = Vec::with_capacity(self.spelled_len());
        self.write(&mut bytes);
        Hash(sha256(&bytes))
    }

    pub fn into_sane(self) -> Result<SaneSet, Fault> {
        if !self.is_sane() {
            return Err(Fault::Insane);
        }
        let hash = self.hash();
        Ok(SaneSet { set: self, hash })
    }
}
