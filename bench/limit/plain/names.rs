//! Names of sources and binary packages as small numbers, and maps with a quick hash.

use std::collections::{HashMap, HashSet};
use std::hash::{BuildHasherDefault, Hasher};

pub type Map<Key, Value> = HashMap<Key, Value, BuildHasherDefault<QuickHasher>>;
pub type Set<Key> = HashSet<Key, BuildHasherDefault<QuickHasher>>;

/// A hash of eight bytes at a time, by a rotation and a product. It isn't safe against keys that were made to collide.
#[derive(Default)]
pub struct QuickHasher(u64);

impl QuickHasher {
    fn add(&mut self, word: u64) {
        self.0 = (self.0.rotate_left(5) ^ word).wrapping_mul(0x517c_c1b7_2722_0a95);
    }
}

impl Hasher for QuickHasher {
    /// A map goes by the low bits, and a product has mixed the high ones best.
    fn finish(&self) -> u64 {
        self.0.rotate_left(26)
    }

    fn write(&mut self, bytes: &[u8]) {
        let (words, last) = bytes.as_chunks::<8>();
        for word in words {
            self.add(u64::from_le_bytes(*word));
        }
        let last = last.iter().fold(0, |word, &byte| word << 8 | u64::from(byte));
        self.add(last ^ (bytes.len() as u64) << 56);
    }

    fn write_u8(&mut self, number: u8) {
        self.add(number.into());
    }

    fn write_u32(&mut self, number: u32) {
        self.add(number.into());
    }

    fn write_usize(&mut self, number: usize) {
        self.add(number as u64);
    }
}

/// The place of a name among those that were met.
pub type NameId = u32;

#[derive(Default)]
pub struct Names<'a> {
    ids: Map<&'a [u8], NameId>,
    texts: Vec<&'a [u8]>,
}

impl<'a> Names<'a> {
    pub fn id(&mut self, text: &'a [u8]) -> NameId {
        *self.ids.entry(text).or_insert_with(|| {
            self.texts.push(text);
            self.texts.len() as NameId - 1
        })
    }

    pub fn text(&self, name: NameId) -> &'a [u8] {
        self.texts[name as usize]
    }

    pub fn len(&self) -> usize {
        self.texts.len()
    }
}
