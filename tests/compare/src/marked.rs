//! Buffers filled with marks, with guards before and behind the part that is lent.

const GUARD: usize = 16;

fn mark(k: usize) -> u64 {
    (k as u64 + 1).wrapping_mul(0x9E37_79B9_7F4A_7C15)
}

/// A buffer of bytes, numbers or words.
#[derive(Clone, Debug, PartialEq, Eq)]
pub struct Marked<T> {
    all: Vec<T>,
    length: usize,
}

impl<T> Marked<T> {
    fn new(length: usize, of: impl Fn(u64) -> T) -> Marked<T> {
        let all = (0..length + 2 * GUARD).map(|k| of(mark(k))).collect();
        Marked { all, length }
    }
}

#[cfg(feature = "compile")]
impl Marked<u8> {
    pub fn bytes(length: usize) -> Marked<u8> {
        Marked::new(length, |mark| (mark >> 56) as u8)
    }
}

#[cfg(feature = "judge_placement")]
impl Marked<u16> {
    pub fn numbers(length: usize) -> Marked<u16> {
        Marked::new(length, |mark| (mark >> 48) as u16)
    }
}

#[cfg(feature = "run")]
impl Marked<u64> {
    pub fn words(length: usize) -> Marked<u64> {
        Marked::new(length, |mark| mark)
    }
}

impl<T: Copy> Marked<T> {
    /// The part that is lent.
    pub fn lent(&mut self) -> &mut [T] {
        &mut self.all[GUARD..GUARD + self.length]
    }

    /// The first of the lent words.
    #[cfg(feature = "run")]
    pub fn front(&self, count: usize) -> &[T] {
        &self.all[GUARD..GUARD + count]
    }

    /// The first place where two buffers differ, counted from the lent part's front, and what
    /// stands there in each.
    pub fn first_difference(&self, other: &Marked<T>) -> Option<(isize, T, T)>
    where
        T: PartialEq,
    {
        if self == other {
            return None;
        }
        let mut pairs = self.all.iter().zip(&other.all);
        let at = pairs.position(|(a, b)| a != b)?;
        Some((at as isize - GUARD as isize, self.all[at], other.all[at]))
    }

    /// The same buffer with these at its front.
    #[cfg(feature = "compile")]
    pub fn with_front(mut self, front: &[T]) -> Marked<T> {
        self.all[GUARD..GUARD + front.len()].copy_from_slice(front);
        self
    }

    /// The guards of an empty buffer around these.
    #[cfg(feature = "judge_placement")]
    pub fn around(mut self, content: &[T]) -> Marked<T> {
        self.all.splice(GUARD..GUARD, content.iter().copied());
        self.length = content.len();
        self
    }
}
