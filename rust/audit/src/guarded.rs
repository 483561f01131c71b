//! Buffers between guard values, to see that an engine stays inside what it is given.

/// Guard values on each side.
const GUARD: usize = 64;

/// A buffer that is filled anew for each case.
pub struct Guarded<T> {
    values: Vec<T>,
    fill: T,
}

impl<T: Copy + PartialEq> Guarded<T> {
    pub fn new(fill: T) -> Guarded<T> {
        Guarded {
            values: Vec::new(),
            fill,
        }
    }

    /// Copies `content` between guard values.
    pub fn set(&mut self, content: &[T]) {
        self.values.clear();
        self.values.resize(GUARD, self.fill);
        self.values.extend_from_slice(content);
        self.values.resize(content.len() + 2 * GUARD, self.fill);
    }

    pub fn content(&self) -> &[T] {
        &self.values[GUARD..self.values.len() - GUARD]
    }

    pub fn content_mut(&mut self) -> &mut [T] {
        let end = self.values.len() - GUARD;
        &mut self.values[GUARD..end]
    }

    /// Everything, for tests that write where an engine must not.
    #[cfg(test)]
    pub fn with_guards_mut(&mut self) -> &mut [T] {
        &mut self.values
    }

    /// Whether all guard values are as they were.
    pub fn is_intact(&self) -> bool {
        let before = &self.values[..GUARD];
        let behind = &self.values[self.values.len() - GUARD..];
        [before, behind]
            .iter()
            .all(|side| **side == [self.fill; GUARD])
    }
}

#[cfg(test)]
mod tests {
    use super::{Guarded, GUARD};

    #[test]
    fn every_guard_value_counts() {
        let mut buffer = Guarded::new(0xA5);
        for place in 0..3 + 2 * GUARD {
            buffer.set(&[1, 2, 3]);
            assert!(buffer.is_intact());
            buffer.values[place] ^= 1;
            let is_content = (GUARD..GUARD + 3).contains(&place);
            assert_eq!(buffer.is_intact(), is_content, "place {place}");
        }
    }

    #[test]
    fn content_lies_between_the_guards() {
        let mut buffer = Guarded::new(0_u64);
        buffer.set(&[7, 8]);
        assert_eq!(buffer.content(), [7, 8]);
        buffer.content_mut().fill(9);
        assert_eq!(buffer.content(), [9, 9]);
        assert!(buffer.is_intact());
        buffer.set(&[]);
        assert_eq!(buffer.content(), []);
        assert!(buffer.is_intact());
    }
}
