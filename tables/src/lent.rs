//! A lent buffer with words or bytes around it that no call may touch.

use std::ops::Range;

const GUARD: usize = 5;

pub struct Lent<T> {
    all: Vec<T>,
    before: Vec<T>,
    inside: Range<usize>,
}

impl<T: Copy + PartialEq + From<u8>> Lent<T> {
    /// Lends a part of a longer vector.
    pub fn new(content: &[T]) -> Self {
        let guard =
            |first: u8| (0..GUARD as u8).map(move |k| T::from(first ^ k.wrapping_mul(0x3b)));
        let all: Vec<T> = guard(0xde)
            .chain(content.iter().copied())
            .chain(guard(0xa5))
            .collect();
        Lent {
            before: all.clone(),
            all,
            inside: GUARD..GUARD + content.len(),
        }
    }

    /// What is lent, as it stood at first.
    pub fn anew(&mut self) -> &mut [T] {
        self.all.copy_from_slice(&self.before);
        &mut self.all[self.inside.clone()]
    }

    pub fn content(&self) -> Vec<T> {
        self.all[self.inside.clone()].to_vec()
    }

    /// Whether what stands around it is as it was.
    pub fn kept(&self) -> bool {
        let Range { start, end } = self.inside;
        self.all[..start] == self.before[..start] && self.all[end..] == self.before[end..]
    }
}
