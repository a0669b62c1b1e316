//! Requests that break the form: each is answered as such, and the next is read as if nothing had been.
use crate::drills;
use crate::frame::{Case, Sink, exactly, request, send};
use crate::random::Random;
use crate::recording::REPLAY;
use crate::rings::CONVOLVE;
use crate::script::SCRIPT;
use crate::turning::{TO_VERSION_1, TO_VERSION_2};

const NO_SUCH_OPERATION: u8 = 1;
pub const WRONG_LENGTH: u8 = 2;
const TOO_LONG: u8 = 3;
const ENDS_INSIDE: u8 = 4;

/// The operations whose arguments have one length, with that length.
const FIXED: &[(u8, usize)] = &[(1, 4), (2, 8), (3, 8), (4, 8), (5, 8), (10, 24), (11, 24), (12, 8), (13, 17)];

/// The operations whose arguments hold lists, with arguments that are cut or too long for what they say of themselves.
const LISTED: &[(u8, &[&[u8]])] = &[
    (6, &[&[], &[0; 5], &[8, 8, 0x20, 0, 0]]),
    (7, &[&[], &[0; 13], &[0; 15], &[0, 0, 0, 1, 0, 0, 0, 0, 0, 0, 0, 0, 0, 0, 0, 0]]),
    (8, &[&[], &[0; 13], &[0; 15]]),
    (9, &[&[], &[0; 9], &[0; 11], &[0, 1, 0, 0, 0, 0, 0, 0, 0, 1]]),
    (14, &[&[], &[0; 53], &[0; 55]]),
    (15, &[&[], &[0; 18], &[0; 20]]),
    (16, &[&[], &[0; 37], &[0; 39]]),
    (17, &[&[], &[0; 137], &[0; 139]]),
    (18, &[&[], &[0; 33], &[0; 35]]),
    (19, &[&[], &[0; 84], &[0; 86]]),
    (20, &[&[], &[0; 83], &[0; 85]]),
    (SCRIPT, &[&[], &[0; 45], &[0; 47]]),
    (REPLAY, &[&[], &[0; 138], &[0; 152], &[0; 154]]),
    (TO_VERSION_2, &[&[], &[0], &[21]]),
    (TO_VERSION_1, &[&[], &[0], &[19]]),
    (CONVOLVE, &[&[], &[0; 11], &[0; 13]]),
];

/// The operations that take azimuths and elevations and say how many in their first two bytes, with the length without any list.
const ANGLED: &[(u8, usize)] = &[(7, 14), (8, 14), (19, 85), (20, 84)];

const LONGEST: usize = 65536;

pub fn inside(random: &mut Random, count: usize, sink: &mut Sink) {
    for operation in 0..=255u8 {
        if FIXED.iter().all(|(known, _)| *known != operation) && LISTED.iter().all(|(known, _)| *known != operation) {
            let length = random.below(20) as usize;
            sink(exactly(request(operation, &vec![0; length]), 0, vec![NO_SUCH_OPERATION]));
        }
    }
    for (operation, right) in FIXED {
        for length in (0..28).filter(|n| n != right) {
            sink(exactly(request(*operation, &vec![0x3f; length]), 0, vec![WRONG_LENGTH]));
        }
    }
    for (operation, wrong) in LISTED {
        send(sink, wrong.iter().map(|arguments| exactly(request(*operation, arguments), 0, vec![WRONG_LENGTH])));
    }
    // One azimuth or one elevation is said, and none is there, or half of one, or a byte more than one, or two.
    for (operation, head) in ANGLED {
        for counts in [[1, 0], [0, 1]] {
            for length in [0, 1, 3, 4] {
                let arguments = [&counts[..], &vec![0; head - 2 + length]].concat();
                sink(exactly(request(*operation, &arguments), 0, vec![WRONG_LENGTH]));
            }
        }
    }
    send(sink, drills::without_form(count).iter().map(|arguments| exactly(request(SCRIPT, arguments), 0, vec![WRONG_LENGTH])));
    // The longest arguments that are read whole, and longer ones, which are read past.
    sink(exactly(request(1, &vec![0; LONGEST]), 0, vec![WRONG_LENGTH]));
    sink(exactly(request(1, &vec![0; LONGEST + 1]), 0, vec![TOO_LONG]));
    for _ in 0..count / 1000 {
        let length = LONGEST + 2 + random.below(1 << 18) as usize;
        sink(exactly(request(2, &vec![0; length]), 0, vec![TOO_LONG]));
    }
}

pub fn at_the_end() -> Case {
    let mut cut = request(2, &[0; 8]);
    cut.pop();
    exactly(cut, 0, vec![ENDS_INSIDE])
}

#[cfg(test)]
mod tests {
    use super::*;

    #[test]
    fn operations_are_1_to_25_without_a_gap() {
        let mut known: Vec<u8> = FIXED.iter().map(|entry| entry.0).chain(LISTED.iter().map(|entry| entry.0)).collect();
        known.sort();
        assert_eq!(known, (1..=25).collect::<Vec<u8>>());
    }
}
