//! A log that is kept and grows event by event, with marks to return to (request P11).

use super::answers::{Outcome, Refusal};
use super::calls::{judge, judge2};
use super::limits::{MARKS, MAX_TOKENS, NOT_SET};

/// The events as they came, and for each mark the length that it notes.
#[derive(Clone, Debug, Default, PartialEq, Eq)]
pub struct Log {
    pub events: Vec<u8>,
    pub marks: [Option<usize>; MARKS],
}

impl Log {
    fn marked(&mut self, mark: u32) -> Result<&mut Option<usize>, Refusal> {
        self.marks.get_mut(mark as usize).ok_or(Refusal(19, 0))
    }

    pub fn add(&mut self, event: u8) -> Result<(), Refusal> {
        if self.events.len() == MAX_TOKENS {
            return Err(Refusal(21, 0));
        }
        self.events.push(event);
        Ok(())
    }

    pub fn mark(&mut self, mark: u32) -> Result<(), Refusal> {
        let length = self.events.len();
        *self.marked(mark)? = Some(length);
        Ok(())
    }

    pub fn return_to(&mut self, mark: u32) -> Result<(), Refusal> {
        let length = self.marked(mark)?.ok_or(Refusal(20, 0))?;
        self.events.truncate(length);
        for other in &mut self.marks {
            *other = other.filter(|&there| there <= length);
        }
        Ok(())
    }

    pub fn judge(&self, words: &[u32], table: &mut [u32], memo: &mut [u16]) -> Outcome {
        judge(words, &self.events, table, memo)
    }

    pub fn judge2(&self, words: &[u32], table: &mut [u64], memo: &mut [u16]) -> Outcome {
        judge2(words, &self.events, table, memo)
    }

    /// The log of these events and this state, whatever they are: a length over the limit reads as the limit, a mark beyond the length as not
    /// set.
    pub fn read(events: &[u8; MAX_TOKENS], state: &[u16; MARKS + 1]) -> Log {
        let length = MAX_TOKENS.min(state[0].into());
        let mark = |at: usize| Some(state[1 + at] as usize).filter(|&there| there <= length);
        Log { events: events[..length].to_vec(), marks: std::array::from_fn(mark) }
    }

    /// Stores the log; events behind it stay.
    pub fn store(&self, events: &mut [u8; MAX_TOKENS], state: &mut [u16; MARKS + 1]) {
        events[..self.events.len()].copy_from_slice(&self.events);
        state[0] = self.events.len() as u16;
        for (number, mark) in state[1..].iter_mut().zip(self.marks) {
            *number = mark.map_or(NOT_SET, |length| length as u16);
        }
    }
}
