//! The numbers of the refusals, and the refusals that concern the caller.

use shortest::Outcome;

pub const RECORD_CUT: u32 = 1;
pub const WRONG_KIND: u32 = 2;
pub const WRONG_LENGTH: u32 = 3;
pub const OUTSIDE_LIMIT: u32 = 4;
pub const OUT_OF_RANGE: u32 = 5;
pub const NOT_RISING: u32 = 6;
pub const WRONG_SIGN_OFF: u32 = 7;
pub const WRONG_LEVEL: u32 = 8;
pub const BUFFER_TOO_SHORT: u32 = 21;
pub const NOT_APPLICABLE: u32 = 22;
pub const GOAL_NOT_MET: u32 = 23;
pub const NO_PLAN: u32 = 24;
pub const TOO_MANY_STATES: u32 = 25;
pub const NOT_OF_THE_FORMAT: u32 = 31;
pub const NOT_TAKEN: u32 = 32;
pub const GIVEN_TWICE: u32 = 33;

/// Refusal 21 unless a buffer of `length` elements has room for `needed`.
pub fn long_enough(length: usize, needed: usize) -> Result<(), Outcome> {
    if length < needed {
        return Err(Outcome::refused(BUFFER_TOO_SHORT, needed));
    }
    Ok(())
}

/// Refusal 7 at place 0 for a signer 0 given by the caller.
pub fn signer_given(signer: u32) -> Result<(), Outcome> {
    if signer == 0 {
        return Err(Outcome::refused(WRONG_SIGN_OFF, 0));
    }
    Ok(())
}
