//! Streams from one seed: the generator some draws on, without drawing them, and a host's start.

use crate::calls::{uisnabar_host, uisnabar_jump};
use crate::{outcome, Refusal, ANSWER_BYTES, NEXT_BYTES};

/// Either function of the library, over two numbers: the state that it wrote, or why it did not.
macro_rules! next {
    ($call:ident($state:ident, $number:ident)) => {{
        let (mut answer, mut next) = ([0; ANSWER_BYTES], [0; NEXT_BYTES]);
        // SAFETY: each pointer comes with its array's length, and the two buffers that are written are its own.
        let verdict =
            unsafe { $call($state, $number, next.as_mut_ptr(), next.len(), answer.as_mut_ptr(), answer.len()) };
        outcome(verdict, &answer).map(|()| u64::from_le_bytes(next))
    }};
}

/// The generator's state after so many draws, without drawing them. A seed is a first state, so this is a seed as well.
/// A jump of j and then of k is one of `j.wrapping_add(k)`.
///
/// # Panics
///
/// Where libuisnabar.a is of another version than this crate: no number of draws is refused.
pub fn jump(state: u64, draws: u64) -> u64 {
    next!(uisnabar_jump(state, draws)).expect("libuisnabar.a is of this crate's version")
}

/// The seed with which a host of a campaign begins, host·2^40 draws on from the campaign's; HOST where the host is not
/// below [`HOSTS`](crate::HOSTS). The first 2^40 draws of one host and those of another do not overlap.
pub fn host(seed: u64, host: u64) -> Result<u64, Refusal> {
    next!(uisnabar_host(seed, host))
}
