//! Hash tables with a quick hash: keys are numbers that nobody picks to collide.

use std::collections::{HashMap, HashSet};
use std::hash::{BuildHasherDefault, Hasher};

pub type Map<K, V> = HashMap<K, V, BuildHasherDefault<Mix>>;
pub type Set<K> = HashSet<K, BuildHasherDefault<Mix>>;

/// Each number is multiplied in; the high half, which the product mixes best, is folded onto the low one.
#[derive(Default)]
pub struct Mix(u64);

impl Hasher for Mix {
    fn write_u64(&mut self, number: u64) {
        let product = (self.0 ^ number).wrapping_mul(0x9e37_79b9_7f4a_7c15);
        self.0 = product ^ product >> 32;
    }

    fn write_u32(&mut self, number: u32) {
        self.write_u64(number.into());
    }

    fn write_u16(&mut self, number: u16) {
        self.write_u64(number.into());
    }

    fn write(&mut self, _: &[u8]) {
        unreachable!("keys are made of numbers");
    }

    fn finish(&self) -> u64 {
        self.0
    }
}
