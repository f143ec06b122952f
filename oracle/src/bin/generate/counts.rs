//! How often a signal would be turned away: record 86.

use crate::draw::Draw;
use crate::script::{Line, Script, record, u8};

fn count(voices: u8, priorities: u8, requests: u8, priority: u8) -> Line {
    record(0x86, &[voices, priorities, requests, priority].map(u8))
}

/// All that are in range, and then each field just outside, far outside and in range beside the others.
pub fn counts(script: &mut Script) {
    for voices in 0..=16 {
        for priorities in 1..=4 {
            for requests in 0..=8 {
                for priority in 0..priorities {
                    script.add(&count(voices, priorities, requests, priority));
                }
            }
        }
    }
    for voices in [0, 1, 16, 17, 255] {
        for priorities in [0u8, 1, 4, 5, 255] {
            for requests in [0, 8, 9, 255] {
                let (below, above) = (priorities.saturating_sub(1), priorities.saturating_add(1));
                for priority in [0, below, priorities, above, 255] {
                    script.add(&count(voices, priorities, requests, priority));
                }
            }
        }
    }
}

/// Mostly in range; of the others one field may be anything.
pub fn any_count(draw: &mut Draw) -> Line {
    let priorities = 1 + draw.below(4) as u8;
    let mut fields = [
        draw.below(17) as u8,
        priorities,
        draw.below(9) as u8,
        draw.below(priorities as u32) as u8,
    ];
    if draw.one_in(4) {
        fields[draw.below(4) as usize] = draw.u8();
    }
    let [voices, priorities, requests, priority] = fields;
    count(voices, priorities, requests, priority)
}
