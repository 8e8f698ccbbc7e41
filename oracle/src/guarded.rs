//! Rows of memory for a call, with guards before and after them.

/// Items before and after lent memory that no call may touch. The odd number puts lent memory where
/// nothing is aligned beyond its item.
const GUARD: usize = 67;

/// What a row is lent of.
pub trait Item: Copy + PartialEq {
    /// What stands in lent memory before a call, and in its guards.
    const PATTERN: Self;

    /// Whether it is the pattern, bit for bit.
    fn is_pattern(self) -> bool {
        self == Self::PATTERN
    }
}

/// Lent memory with its guards.
pub struct Guarded<T>(Vec<T>);

impl<T: Item> Guarded<T> {
    pub fn with(lent: &[T]) -> Guarded<T> {
        let guard = [T::PATTERN; GUARD];
        Guarded([&guard, lent, &guard].concat())
    }

    /// Lent memory that is the pattern all through.
    pub fn blank(length: usize) -> Guarded<T> {
        Guarded(vec![T::PATTERN; length + 2 * GUARD])
    }

    pub fn lent(&mut self) -> &mut [T] {
        let end = self.0.len() - GUARD;
        &mut self.0[GUARD..end]
    }

    /// Whether a guard changed.
    pub fn strayed(&self) -> bool {
        let (before, after) = (&self.0[..GUARD], &self.0[self.0.len() - GUARD..]);
        before.iter().chain(after).any(|item| !item.is_pattern())
    }
}
