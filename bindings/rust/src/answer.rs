//! An answer, and its parts.

use std::fmt;

#[derive(Clone, Copy, Debug, PartialEq, Eq, Hash)]
pub enum Verdict {
    Refused,
    Passed,
    Rejected,
    Accepted,
}

/// What a call answers, packed as the header tells.
#[derive(Clone, Copy, PartialEq, Eq, Hash)]
pub struct Answer(u64);

impl Answer {
    #[inline]
    pub const fn from_bits(bits: u64) -> Answer {
        Answer(bits)
    }

    #[inline]
    pub const fn bits(self) -> u64 {
        self.0
    }

    #[inline]
    pub const fn verdict(self) -> Verdict {
        match self.0 & 255 {
            0 => Verdict::Refused,
            1 => Verdict::Passed,
            2 => Verdict::Rejected,
            _ => Verdict::Accepted,
        }
    }

    /// The number of a refusal, 0 for every other answer.
    #[inline]
    pub const fn number(self) -> u8 {
        (self.0 >> 8) as u8
    }

    /// The place of a refusal.
    #[inline]
    pub const fn place(self) -> u16 {
        (self.0 >> 16) as u16
    }

    /// How many pairs of a name and a place the descent called.
    #[inline]
    pub const fn count(self) -> u16 {
        (self.0 >> 32) as u16
    }

    /// The greatest place among them.
    #[inline]
    pub const fn far(self) -> u16 {
        (self.0 >> 48) as u16
    }
}

/// As the programs print it.
impl fmt::Display for Answer {
    fn fmt(&self, out: &mut fmt::Formatter) -> fmt::Result {
        match self.verdict() {
            Verdict::Refused => write!(out, "refused {} {}", self.number(), self.place()),
            Verdict::Passed => write!(out, "passed"),
            Verdict::Rejected => write!(out, "rejected {} {}", self.count(), self.far()),
            Verdict::Accepted => write!(out, "accepted {} {}", self.count(), self.far()),
        }
    }
}

impl fmt::Debug for Answer {
    fn fmt(&self, out: &mut fmt::Formatter) -> fmt::Result {
        write!(out, "{self} ({:016x})", self.0)
    }
}
