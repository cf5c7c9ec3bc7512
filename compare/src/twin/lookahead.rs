//! Lookahead sets (document 01: event sets): sets of strings of at most K letters out of L, as the bits of one number.
//!
//! Strings are numbered as the vertices of a tree in which each has L children: the empty one is 0, and string s with the letter l
//! behind it is L × s + 1 + l. So shorter strings come first, and with y of j letters, x y is L^j × x + y.

#[derive(Clone, Copy, Debug, PartialEq, Eq)]
pub struct Set<const K: usize, const L: usize>(u64);

/// The number of the first string of so many letters.
const fn first_of_length(length: usize, letters: usize) -> usize {
    let (mut first, mut shorter) = (0, 0);
    while shorter < length {
        first = letters * first + 1;
        shorter += 1;
    }
    first
}

/// The number of the first K letters of a row of letters.
pub fn string<const K: usize, const L: usize>(letters: &[u8]) -> usize {
    letters.iter().take(K).fold(0, |string, &letter| L * string + 1 + letter as usize)
}

impl<const K: usize, const L: usize> Set<K, L> {
    pub const EMPTY: Self = Set(0);
    /// The empty string alone (document 01: "nothing").
    pub const NOTHING: Self = Set(1);
    /// How many strings there are.
    pub const STRINGS: usize = first_of_length(K + 1, L);

    pub fn letter(letter: u8) -> Self {
        Set(1 << (1 + letter))
    }

    /// Every string over the first so many letters: nothing or a letter, K times.
    pub fn every(letters: usize) -> Self {
        let once = (0..letters).fold(Self::NOTHING, |set, letter| set.join(Self::letter(letter as u8)));
        (0..K).fold(Self::NOTHING, |set, _| set.then(once))
    }

    pub fn bits(self) -> u64 {
        self.0
    }

    /// The numbers of the strings in this set, lowest first.
    pub fn strings(self) -> impl Iterator<Item = usize> {
        let mut left = self.0;
        std::iter::from_fn(move || {
            let lowest = (left != 0).then(|| left.trailing_zeros() as usize);
            left &= left.wrapping_sub(1);
            lowest
        })
    }

    pub fn meet(self, other: Self) -> Self {
        Set(self.0 & other.0)
    }

    pub fn join(self, other: Self) -> Self {
        Set(self.0 | other.0)
    }

    /// Joins `other` to this set and tells whether that changed it.
    pub fn add(&mut self, other: Self) -> bool {
        let before = *self;
        *self = self.join(other);
        *self != before
    }

    /// The strings of just so many letters.
    const fn of_length(length: usize) -> u64 {
        let (from, to) = (first_of_length(length, L), first_of_length(length + 1, L));
        (u64::MAX >> (64 - (to - from))) << from
    }

    /// Each string cut to so many letters.
    fn cut(self, length: usize) -> u64 {
        let mut bits = self.0;
        for longer in (length + 1..=K).rev() {
            for shorter in first_of_length(longer - 1, L)..first_of_length(longer, L) {
                let continued = (u64::MAX >> (64 - L)) << (L * shorter + 1);
                bits |= u64::from(bits & continued != 0) << shorter;
            }
            bits &= !Self::of_length(longer);
        }
        bits
    }

    /// Stringing: each string of this set with each of `tail` behind it, cut to K letters; empty if one of the two is.
    pub fn then(self, tail: Self) -> Self {
        if tail == Self::EMPTY {
            return Self::EMPTY;
        }
        let mut bits = self.0 & Self::of_length(K);
        if self.0 & 1 == 1 {
            bits |= tail.0;
        }
        for length in 1..K {
            let rest = tail.cut(K - length);
            for front in Set::<K, L>(self.0 & Self::of_length(length)).strings() {
                for behind in 0..=K - length {
                    bits |= (rest & Self::of_length(behind)) << (L.pow(behind as u32) * front);
                }
            }
        }
        Set(bits)
    }
}

#[cfg(test)]
mod tests {
    use super::{string, Set};
    use crate::cards::Random;
    use std::collections::BTreeSet;

    type Plain = BTreeSet<Vec<u8>>;

    fn all(k: usize, letters: u8) -> Vec<Vec<u8>> {
        let mut strings = vec![vec![]];
        let mut from = 0;
        for _ in 0..k {
            let to = strings.len();
            for at in from..to {
                for letter in 0..letters {
                    strings.push([strings[at].clone(), vec![letter]].concat());
                }
            }
            from = to;
        }
        strings
    }

    fn number<const K: usize, const L: usize>(plain: &Plain) -> Set<K, L> {
        plain.iter().fold(Set::EMPTY, |set, letters| set.join(Set(1 << string::<K, L>(letters))))
    }

    fn strung(one: &Plain, other: &Plain, k: usize) -> Plain {
        one.iter().flat_map(|x| other.iter().map(move |y| [x.clone(), y.clone()].concat().into_iter().take(k).collect())).collect()
    }

    fn try_all<const K: usize, const L: usize>() {
        let strings = all(K, L as u8);
        assert_eq!(strings.len(), Set::<K, L>::STRINGS);
        for (at, letters) in strings.iter().enumerate() {
            assert_eq!(at, string::<K, L>(letters));
        }
        for letters in 0..=L {
            let over: Plain = strings.iter().filter(|string| string.iter().all(|&letter| (letter as usize) < letters)).cloned().collect();
            assert_eq!(Set::<K, L>::every(letters), number(&over));
        }
        let mut random = Random::new((100 * K + L) as u64);
        let mut some = |percent: usize| -> Plain { strings.iter().filter(|_| random.chance(percent)).cloned().collect() };
        for round in 0..2_000 {
            let percent = [3, 10, 50, 90][round % 4];
            let (x, y) = (some(percent), some(100 - percent));
            assert_eq!(number::<K, L>(&x).then(number(&y)), number(&strung(&x, &y, K)), "{x:?} {y:?}");
            assert_eq!(number::<K, L>(&x).meet(number(&y)), number(&x.intersection(&y).cloned().collect()));
            assert_eq!(number::<K, L>(&x).strings().count(), x.len());
        }
    }

    #[test]
    fn stringing_is_that_of_plain_sets() {
        try_all::<1, 24>();
        try_all::<2, 7>();
        try_all::<3, 3>();
        try_all::<4, 2>();
        try_all::<5, 1>();
        try_all::<1, 1>();
    }
}
