//! Memory lent to a function under test, with other memory on both sides, to show that what it was not to change stays as it was.

/// How much memory stands on either side.
const GUARD: usize = 64;

/// What memory holds before anything is put there; no two neighbours are the same.
fn fresh(i: usize) -> u8 {
    (i * 37 + 11) as u8
}

pub struct Lent<T> {
    memory: Vec<T>,
    len: usize,
}

impl<T: Copy + PartialEq + From<u8>> Lent<T> {
    /// A buffer to be filled.
    pub fn empty(len: usize) -> Lent<T> {
        Lent { memory: (0..len + 2 * GUARD).map(|i| T::from(fresh(i))).collect(), len }
    }

    /// A buffer to be read.
    pub fn full(content: &[T]) -> Lent<T> {
        let mut lent = Lent::empty(content.len());
        lent.memory[GUARD..GUARD + content.len()].copy_from_slice(content);
        lent
    }

    pub fn len(&self) -> usize {
        self.len
    }

    pub fn is_empty(&self) -> bool {
        self.len == 0
    }

    pub fn pointer(&self) -> *const T {
        self.memory[GUARD..].as_ptr()
    }

    pub fn pointer_to_fill(&mut self) -> *mut T {
        self.memory[GUARD..].as_mut_ptr()
    }

    /// What was put into the first places, if all else is as it was.
    pub fn filled(&self, count: usize) -> Result<&[T], String> {
        if count > self.len {
            return Err(format!("{count} places of {} said to be filled", self.len));
        }
        let is_fresh = |i: usize| self.memory[i] == T::from(fresh(i));
        match (0..GUARD).chain(GUARD + count..self.memory.len()).find(|&i| !is_fresh(i)) {
            Some(i) => Err(format!("place {} of a buffer of {} was changed, {count} filled", i as i64 - GUARD as i64, self.len)),
            None => Ok(&self.memory[GUARD..GUARD + count]),
        }
    }

    /// Whether a buffer that was lent for reading is as it was.
    pub fn is_still(&self, content: &[T]) -> Result<(), String> {
        if self.filled(self.len)? == content {
            Ok(())
        } else {
            Err("what was lent for reading was changed".to_string())
        }
    }
}
