//! Lent buffers with watched words around them.

/// A buffer whose middle part is lent. The words before and after it are watched: two buffers are compared with them.
#[derive(Clone, Debug, PartialEq, Eq)]
pub struct Lent<T> {
    words: Vec<T>,
    length: usize,
}

/// Words that stand before the lent part, and after it.
const MARGIN: usize = 3;

impl<T: Copy> Lent<T> {
    /// Lends `length` words from a source of words.
    pub fn new(length: usize, mut word: impl FnMut() -> T) -> Lent<T> {
        Lent { words: (0..length + 2 * MARGIN).map(|_| word()).collect(), length }
    }

    /// Lends these words, with more of the source around them.
    pub fn of(lent: &[T], word: impl FnMut() -> T) -> Lent<T> {
        let mut buffer = Lent::new(lent.len(), word);
        buffer.get_mut().copy_from_slice(lent);
        buffer
    }

    /// The lent words.
    pub fn get(&self) -> &[T] {
        &self.words[MARGIN..][..self.length]
    }

    /// The lent words, to be written.
    pub fn get_mut(&mut self) -> &mut [T] {
        &mut self.words[MARGIN..][..self.length]
    }

    /// Lends a shorter part; the words past it are watched like the others.
    pub fn shortened(&self, length: usize) -> Lent<T> {
        assert!(length <= self.length);
        Lent { words: self.words.clone(), length }
    }
}
