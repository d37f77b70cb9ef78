//! Rooms as they are lent: full of something else than zero, with elements beside them that no call may touch.

use crate::bridge::{Lent, Values};
use crate::list::Asked;

const BESIDE: usize = 3;

pub struct Fenced<T> {
    all: Vec<T>,
    held: T,
}

impl<T: Copy + PartialEq + Default> Fenced<T> {
    pub fn of(len: usize, held: T) -> Self {
        Fenced { all: vec![held; len + 2 * BESIDE], held }
    }

    pub fn lent(&mut self) -> &mut [T] {
        let end = self.all.len() - BESIDE;
        &mut self.all[BESIDE..end]
    }

    pub fn now(&self) -> &[T] {
        &self.all[BESIDE..self.all.len() - BESIDE]
    }

    /// The answer, then zeros up to `asked`; past that, and beside, what was held.
    pub fn holds(&self, answer: &[T], asked: usize) -> bool {
        let at = |i: usize| {
            if i < BESIDE || i >= BESIDE + asked {
                self.held
            } else {
                answer.get(i - BESIDE).copied().unwrap_or_default()
            }
        };
        self.all.iter().enumerate().all(|(i, &x)| x == at(i))
    }
}

pub struct Rooms {
    room: Fenced<u16>,
    first: Fenced<i64>,
    second: Fenced<i64>,
    sums: Fenced<u64>,
}

impl Rooms {
    pub fn of(room: usize, first: usize, second: usize, sums: usize) -> Self {
        Rooms {
            room: Fenced::of(room, 7),
            first: Fenced::of(first, -7),
            second: Fenced::of(second, 77),
            sums: Fenced::of(sums, 7),
        }
    }

    pub fn lent(&mut self) -> Lent<'_> {
        Lent { room: self.room.lent(), first: self.first.lent(), second: self.second.lent(), sums: self.sums.lent() }
    }

    pub fn first(&self) -> &[i64] {
        self.first.now()
    }

    /// The answer in the first coefficient room; every room zero in its asked part.
    pub fn hold(&self, answer: &[i64], asked: Asked) -> bool {
        self.room.holds(&[], asked.cells)
            && self.first.holds(answer, asked.coefficients)
            && self.second.holds(&[], asked.coefficients)
            && self.sums.holds(&[], asked.sums)
    }

    pub fn untouched(&self) -> bool {
        self.hold(&[], Asked::default())
    }
}

/// What `values` holds before a call.
pub const HELD: Values = [9, 8, 7, 6];

/// The call is done, and `values` has these words and zeros after them.
pub fn told(number: u8, values: &Values, words: &[u64]) -> bool {
    number == 0 && (0..4).all(|i| values[i] == words.get(i).copied().unwrap_or(0))
}
