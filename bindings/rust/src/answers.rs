//! What is answered, as results.

use crate::numbers::Refusal;
use crate::structs::Answer;
use core::fmt;

/// Why a region, or the row of a sequence, is refused, and where.
#[derive(Clone, Copy, Debug, PartialEq, Eq, Hash)]
pub struct Refused {
    /// Why.
    pub refusal: Refusal,
    /// Of a region refused with [`Refusal::PageNotHeld`], [`Refusal::PageClaimed`],
    /// [`Refusal::MappingDiffers`], [`Refusal::MappingPresent`] or [`Refusal::StillInUse`]: where
    /// in it, from 0, its lowest failing page is; else 0.
    pub index: u64,
}

impl fmt::Display for Refused {
    fn fmt(&self, out: &mut fmt::Formatter<'_>) -> fmt::Result {
        self.refusal.fmt(out)?;
        match self.index {
            0 => Ok(()),
            index => write!(out, ", at index {index}"),
        }
    }
}

impl core::error::Error for Refused {}

impl From<Refused> for Refusal {
    fn from(refused: Refused) -> Refusal {
        refused.refusal
    }
}

impl Answer {
    /// The answer where it accepts, else why not.
    pub fn accepted(self) -> Result<Answer, Refused> {
        let index = self.index;
        Refusal::accepted(self.number).map(|()| self).map_err(|refusal| Refused { refusal, index })
    }
}
