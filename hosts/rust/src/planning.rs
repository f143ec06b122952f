//! Planning a site: how often a signal would be turned away (docs/PLANNING.md).

use crate::{Refusal, raw};

/// Lists of requests after which one more is refused, and those after which it is accepted.
#[derive(Clone, Copy, Debug, PartialEq, Eq)]
pub struct Counts {
    pub refused: u32,
    pub accepted: u32,
}

/// Of all lists of so many sound requests, of priorities 0 to `priorities` - 1, to a silent box of so many voices under
/// LowestPriorityOldest: after how many a sound request of that priority is refused, and after how many it is accepted. The two add up to
/// `priorities` to the power `requests`. Refused outside 1 to 4 priorities, of more than 8 requests or 16 voices, and of a priority that is
/// not below `priorities`.
pub fn turned_away(
    voices: u8,
    priorities: u8,
    requests: u8,
    priority: u8,
) -> Result<Counts, Refusal> {
    let mut out = [0; 2];
    Refusal::read(unsafe {
        raw::birchjack_turned_away(voices, priorities, requests, priority, &mut out)
    })?;
    let [refused, accepted] = out;
    Ok(Counts { refused, accepted })
}
