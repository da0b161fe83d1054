//! Paths by valve, as the library stores them: for each block of 64 states one word per fluent, bit i set exactly if it holds in
//! state i of the block.

use lawhemuri::{restore, store, Refusal};

/// States in one block.
const BLOCK: usize = 64;

/// States kept by valve.
pub struct ByValve {
    fluents: usize,
    words: Vec<u64>,
}

impl ByValve {
    /// Stores some states of so many fluents. States of a path are never refused.
    pub fn of(fluents: usize, states: &[u64]) -> Result<ByValve, Refusal> {
        let mut words = vec![0; states.len().div_ceil(BLOCK) * fluents];
        store(fluents as u64, states, &mut words)?;
        Ok(ByValve { fluents, words })
    }

    /// The words of each block, in the order of the fluents.
    pub fn blocks(&self) -> impl Iterator<Item = &[u64]> {
        self.words.chunks(self.fluents.max(1))
    }

    /// So many states, as the library gives them back.
    pub fn states(&self, count: usize) -> Result<Vec<u64>, Refusal> {
        let mut states = vec![0; count];
        restore(self.fluents as u64, count as u64, &self.words, &mut states)?;
        Ok(states)
    }

    /// Whether a fluent holds in a state.
    pub fn holds(&self, fluent: usize, state: usize) -> bool {
        self.words[state / BLOCK * self.fluents + fluent] >> (state % BLOCK) & 1 == 1
    }

    /// The stretches of states from `first` on and before `last` in which a fluent stays as it is: `(from, to, whether it holds)`.
    pub fn stretches(&self, fluent: usize, first: usize, last: usize) -> Vec<(usize, usize, bool)> {
        let mut out: Vec<(usize, usize, bool)> = Vec::new();
        for state in first..last {
            let holds = self.holds(fluent, state);
            match out.last_mut() {
                Some(stretch) if stretch.2 == holds => stretch.1 = state + 1,
                _ => out.push((state, state + 1, holds)),
            }
        }
        out
    }
}

#[cfg(test)]
mod tests {
    use super::*;

    #[test]
    fn every_bit_is_where_it_is_looked_for() {
        let states: Vec<u64> = (0..200_u64).map(|i| i.wrapping_mul(0x9e37_79b9_7f4a_7c15) >> 59).collect();
        let by_valve = ByValve::of(5, &states).unwrap();
        for (i, state) in states.iter().enumerate() {
            assert!((0..5).all(|k| by_valve.holds(k, i) == (state >> k & 1 == 1)), "state {i}");
        }
        assert_eq!(by_valve.states(200), Ok(states.clone()));
        assert_eq!(by_valve.states(300), Err(Refusal::BadWordCount));
        assert_eq!(ByValve::of(4, &states).err(), Some(Refusal::BadStart));
    }

    #[test]
    fn stretches_across_a_block() {
        let states: Vec<u64> = (0..130).map(|i| u64::from((60..70).contains(&i))).collect();
        let by_valve = ByValve::of(1, &states).unwrap();
        assert_eq!(by_valve.stretches(0, 0, 130), [(0, 60, false), (60, 70, true), (70, 130, false)]);
        assert_eq!(by_valve.stretches(0, 65, 72), [(65, 70, true), (70, 72, false)]);
    }
}
