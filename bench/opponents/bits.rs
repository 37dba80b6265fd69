//! Sets of small numbers, a bit each: pages, and slots.

#[derive(Clone, Copy, PartialEq, Eq)]
pub struct Bits<const WORDS: usize>([u64; WORDS]);

/// The words that a span has bits in, and these bits.
fn span(first: usize, count: usize) -> impl Iterator<Item = (usize, u64)> {
    let end = first + count;
    (first / 64..end.div_ceil(64)).map(move |at| {
        let from = first.saturating_sub(at * 64);
        let over = (at * 64 + 64).saturating_sub(end);
        (at, !0 << from & !0 >> over)
    })
}

impl<const WORDS: usize> Bits<WORDS> {
    pub const NONE: Self = Bits([0; WORDS]);

    pub fn contains(&self, number: usize) -> bool {
        self.0[number / 64] >> (number % 64) & 1 == 1
    }

    /// Without a branch: 1 for a number in the set, 0 for any other below the limit.
    pub fn bit(&self, number: usize) -> u64 {
        self.0[number / 64 % WORDS] >> (number % 64) & 1
    }

    pub fn insert(&mut self, number: usize) {
        self.0[number / 64] |= 1 << (number % 64);
    }

    pub fn remove(&mut self, number: usize) {
        self.0[number / 64] &= !(1 << (number % 64));
    }

    pub fn insert_span(&mut self, first: usize, count: usize) {
        span(first, count).for_each(|(at, bits)| self.0[at] |= bits);
    }

    pub fn remove_span(&mut self, first: usize, count: usize) {
        span(first, count).for_each(|(at, bits)| self.0[at] &= !bits);
    }

    pub fn insert_all(&mut self, others: &Self) {
        for (word, other) in self.0.iter_mut().zip(others.0) {
            *word |= other;
        }
    }

    pub fn is_empty(&self) -> bool {
        self.0.iter().fold(0, |all, word| all | word) == 0
    }

    pub fn len(&self) -> usize {
        self.0.iter().map(|word| word.count_ones() as usize).sum()
    }

    pub fn lowest(&self) -> Option<usize> {
        let at = self.0.iter().position(|&word| word != 0)?;
        Some(at * 64 + self.0[at].trailing_zeros() as usize)
    }

    pub fn iter(self) -> impl Iterator<Item = usize> {
        (0..WORDS).flat_map(move |at| {
            let rest = |&word: &u64| Some(word & word.wrapping_sub(1));
            let words = std::iter::successors(Some(self.0[at]), rest);
            let some = words.take_while(|&word| word != 0);
            some.map(move |word| at * 64 + word.trailing_zeros() as usize)
        })
    }

    /// Spans of numbers one after the other, none across a word: the first, and how many.
    pub fn spans(self) -> impl Iterator<Item = (usize, usize)> {
        (0..WORDS).flat_map(move |at| {
            // A carry from the lowest bit takes its span.
            let lowest = |word: u64| word & word.wrapping_neg();
            let rest = move |&word: &u64| Some(word & word.wrapping_add(lowest(word)));
            let words = std::iter::successors(Some(self.0[at]), rest);
            words.take_while(|&word| word != 0).map(move |word| {
                let first = word.trailing_zeros();
                (at * 64 + first as usize, (word >> first).trailing_ones() as usize)
            })
        })
    }

    /// The bits of 64 numbers, from 64 times `at` on.
    pub fn word(&self, at: usize) -> u64 {
        self.0[at]
    }
}

impl From<u64> for Bits<1> {
    fn from(word: u64) -> Self {
        Bits([word])
    }
}

/// How far into a span the first bit of `words` stands, which is asked for every word of the span.
pub fn lowest_in(first: usize, count: usize, words: impl Fn(usize) -> u64) -> Option<usize> {
    let (at, found) = span(first, count)
        .map(|(at, bits)| (at, words(at) & bits))
        .find(|&(_, found)| found != 0)?;
    Some(at * 64 + found.trailing_zeros() as usize - first)
}
