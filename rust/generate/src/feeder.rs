//! Feeder states: fresh, waiting and damaged.

use crate::Generator;
use crate::layout::{HEAD, LONGEST_RECORD, MARK, MOST_USED, MOST_WAITING};
use crate::stream::record;

/// A feeder's state as its two parts.
#[derive(Clone, Debug, PartialEq, Eq)]
pub struct State {
    pub waiting: [u8; MOST_WAITING],
    pub count: usize,
}

impl State {
    /// The bytes given, all counted, with zero after them.
    fn of(bytes: &[u8]) -> State {
        let mut waiting = [0; MOST_WAITING];
        let count = bytes.len().min(MOST_WAITING);
        waiting[..count].copy_from_slice(&bytes[..count]);
        State { waiting, count }
    }
}

impl Generator {
    /// A state, half of the time one that feeding leaves.
    pub fn state(&mut self, store: &[u8]) -> State {
        if self.random.once_in(2) {
            self.left_state(store)
        } else {
            self.damaged_state(store)
        }
    }

    /// A state that feeding leaves: fresh, or a record that is not all there.
    pub fn left_state(&mut self, store: &[u8]) -> State {
        match self.random.below(4) {
            0 => State::of(&[]),
            1 => {
                let record = self.longest_record();
                let heads = [1, 2, HEAD - 3, HEAD - 2, HEAD - 1, HEAD, HEAD + 1];
                let cuts = [&heads[..], &[MOST_WAITING - 1, MOST_WAITING]].concat();
                let cut = self.random.pick(&cuts);
                State::of(&record[..cut])
            }
            _ => {
                let record = self.record(store);
                let cut = self.random.below(record.len());
                State::of(&record[..cut])
            }
        }
    }

    /// A state that no feeding leaves.
    pub fn damaged_state(&mut self, store: &[u8]) -> State {
        let mut state = self.left_state(store);
        match self.random.below(6) {
            0 => {
                let counts = [LONGEST_RECORD, LONGEST_RECORD + 1, MOST_USED];
                let counts = [&counts[..], &[usize::MAX, usize::MAX - 1]].concat();
                state.count = self.random.pick(&counts);
            }
            1 => self.fill_after(&mut state),
            2 => {
                // Any byte but the mark's first.
                let other = usize::from(MARK[0]) + self.random.between(1, 255);
                let other = other as u8;
                state.waiting[0] = other;
                state.count = state.count.max(1);
            }
            3 => {
                let [first, mark] = MARK;
                let second = self.random.pick(&[first, mark - 1, mark + 1, 0]);
                state = State::of(&[first, second, mark]);
                state.count = self.random.between(2, 3);
            }
            4 => {
                let head = self.false_head();
                state = State::of(&head);
            }
            _ => {
                // A whole record waits no longer.
                let record = record(0, "EXHLEN");
                state = State::of(&record);
            }
        }
        state
    }

    /// A byte that is not zero after the waiting ones.
    fn fill_after(&mut self, state: &mut State) {
        state.count = state.count.min(MOST_WAITING - 1);
        let at = self.random.between(state.count, MOST_WAITING - 1);
        state.waiting[at] = self.random.between(1, 255) as u8;
    }
}
