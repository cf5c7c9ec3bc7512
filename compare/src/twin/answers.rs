//! What a call answers.

#[derive(Clone, Copy, Debug, PartialEq, Eq)]
pub enum Verdict {
    Refused,
    Passed,
    Rejected,
    Accepted,
}

/// What a call answers; `code`, `position` and `farthest` are document 01's number, place and far.
#[derive(Clone, Copy, Debug, PartialEq, Eq)]
pub struct Outcome {
    pub verdict: Verdict,
    pub code: u8,
    pub position: u16,
    pub count: u16,
    pub farthest: u16,
}

impl Outcome {
    pub fn passed() -> Self {
        Outcome { verdict: Verdict::Passed, code: 0, position: 0, count: 0, farthest: 0 }
    }

    pub fn judged(accepted: bool, count: u16, farthest: u16) -> Self {
        let verdict = if accepted { Verdict::Accepted } else { Verdict::Rejected };
        Outcome { verdict, code: 0, position: 0, count, farthest }
    }
}

/// A refusal: its code and its position.
#[derive(Clone, Copy, Debug, PartialEq, Eq)]
pub struct Refusal(pub u8, pub usize);

impl From<Refusal> for Outcome {
    fn from(Refusal(code, position): Refusal) -> Self {
        Outcome { verdict: Verdict::Refused, code, position: position as u16, count: 0, farthest: 0 }
    }
}
