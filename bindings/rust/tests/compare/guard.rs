//! A buffer between guards, which a call must leave as they are.

const EDGE: usize = 16;

pub struct Guarded<T> {
    all: Vec<T>,
    before: Vec<T>,
}

impl<T: Copy + PartialEq + From<u8> + std::fmt::Debug> Guarded<T> {
    pub fn new(content: &[T]) -> Self {
        let edge = |first: u8| (0..EDGE as u8).map(move |k| T::from(first.wrapping_add(k.wrapping_mul(37))));
        let all: Vec<T> = edge(11).chain(content.iter().copied()).chain(edge(101)).collect();
        Guarded { before: all.clone(), all }
    }

    pub fn lend(&mut self) -> &mut [T] {
        let end = self.all.len() - EDGE;
        &mut self.all[EDGE..end]
    }

    pub fn content(&self) -> &[T] {
        &self.all[EDGE..self.all.len() - EDGE]
    }

    /// The guards are as they were.
    pub fn edges_kept(&self) -> bool {
        self.all[..EDGE] == self.before[..EDGE] && self.all[self.all.len() - EDGE..] == self.before[self.all.len() - EDGE..]
    }

    /// Guards and content are as they were.
    pub fn kept(&self) -> bool {
        self.all == self.before
    }
}
