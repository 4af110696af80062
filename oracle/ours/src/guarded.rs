//! A slice with guards before and behind it, to see that nothing is written beside it.

/// How many numbers a guard has.
const GUARD: usize = 64;

pub struct Guarded<T> {
    all: Vec<T>,
}

impl<T: Copy + PartialEq + From<u32>> Guarded<T> {
    pub fn new(inside: &[T]) -> Self {
        let guard: Vec<T> = (0..GUARD).map(guard).collect();
        Self {
            all: [&guard, inside, &guard].concat(),
        }
    }

    pub fn inside(&self) -> &[T] {
        &self.all[GUARD..self.all.len() - GUARD]
    }

    pub fn inside_mut(&mut self) -> &mut [T] {
        let end = self.all.len() - GUARD;
        &mut self.all[GUARD..end]
    }

    /// Whether the guards are as they were.
    pub fn holds(&self) -> bool {
        let behind = self.all.len() - GUARD;
        let is_guard = |from: usize| (0..GUARD).all(|i| self.all[from + i] == guard(i));
        is_guard(0) && is_guard(behind)
    }
}

fn guard<T: From<u32>>(place: usize) -> T {
    T::from(0xa5a5_0000 + place as u32)
}
