//! Lent memory with guard elements before and after it, which no call may alter.

/// How many guard elements stand at each side; CISHMOLAQ_GUARD=0 leaves them out, so that valgrind sees the edges.
fn width() -> usize {
    crate::amount("CISHMOLAQ_GUARD", 64) as usize
}

#[derive(Clone)]
pub struct Guarded<T> {
    all: Vec<T>,
    guard: T,
    width: usize,
}

impl<T: Copy + PartialEq + std::fmt::Debug> Guarded<T> {
    pub fn new(contents: &[T], guard: T) -> Guarded<T> {
        let width = width();
        let mut all = vec![guard; width];
        all.extend_from_slice(contents);
        all.extend(std::iter::repeat(guard).take(width));
        all.shrink_to_fit();
        Guarded { all, guard, width }
    }

    /// What is lent.
    pub fn lent(&mut self) -> &mut [T] {
        let end = self.all.len() - self.width;
        &mut self.all[self.width..end]
    }

    /// What is in it, after a look at the guards.
    pub fn contents(&self) -> &[T] {
        let end = self.all.len() - self.width;
        let guards = self.all[..self.width].iter().chain(&self.all[end..]);
        assert!(guards.into_iter().all(|g| *g == self.guard), "a call wrote outside the memory lent");
        &self.all[self.width..end]
    }
}
