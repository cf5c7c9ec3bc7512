//! A log that is kept between calls and grows event by event, with marks to return to.

use crate::declarations::*;
use crate::{Answer, LOG_EVENTS, LOG_STATE, NOT_SET};

/// Its events, and its length with the length that each mark notes. Any values may stand in it: the header tells how they are read.
#[derive(Clone, Debug, PartialEq, Eq)]
pub struct KeptLog {
    pub events: [u8; LOG_EVENTS],
    pub state: [u16; LOG_STATE],
}

/// The empty log without marks.
impl Default for KeptLog {
    fn default() -> KeptLog {
        let mut state = [NOT_SET; LOG_STATE];
        state[0] = 0;
        KeptLog { events: [0; LOG_EVENTS], state }
    }
}

impl KeptLog {
    #[inline]
    pub fn add(&mut self, event: u8) -> Answer {
        // Sound: the library writes into these two arrays alone, which have the lengths that it is proved for.
        Answer::from_bits(unsafe { vinegarspit_log_add(self.events.as_mut_ptr(), self.state.as_mut_ptr(), event) })
    }

    #[inline]
    pub fn mark(&mut self, mark: u32) -> Answer {
        // Sound: as above.
        Answer::from_bits(unsafe { vinegarspit_log_mark(self.state.as_mut_ptr(), mark) })
    }

    #[inline]
    pub fn return_to(&mut self, mark: u32) -> Answer {
        // Sound: as above.
        Answer::from_bits(unsafe { vinegarspit_log_return(self.state.as_mut_ptr(), mark) })
    }

    #[inline]
    pub fn judge(&self, card: &[u32], table: &mut [u32], memo: &mut [u16]) -> Answer {
        // Sound: the pointers and lengths are those of live slices, and the library proves that it stays within them.
        Answer::from_bits(unsafe {
            vinegarspit_log_judge(
                card.as_ptr(),
                card.len(),
                self.events.as_ptr(),
                self.state.as_ptr(),
                table.as_mut_ptr(),
                table.len(),
                memo.as_mut_ptr(),
                memo.len(),
            )
        })
    }

    /// The same with two events of lookahead.
    #[inline]
    pub fn judge2(&self, card: &[u32], table2: &mut [u64], memo: &mut [u16]) -> Answer {
        // Sound: as above.
        Answer::from_bits(unsafe {
            vinegarspit_log_judge2(
                card.as_ptr(),
                card.len(),
                self.events.as_ptr(),
                self.state.as_ptr(),
                table2.as_mut_ptr(),
                table2.len(),
                memo.as_mut_ptr(),
                memo.len(),
            )
        })
    }
}
