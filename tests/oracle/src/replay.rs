//! Requests for the replay of a recorded line (document 02, E5), each judged as recording.rs says: the worked example and the
//! boundaries, whose answers are written down; gaps, stamps and small lists in every arrangement; damage; lines that are cut
//! anywhere; every pair of reasons to refuse.
use crate::convolver::{Call, sample};
use crate::frame::{Case, Sink, exactly, request, send};
use crate::malformed::WRONG_LENGTH;
use crate::random::Random;
use crate::recording::{FAULTS, Line, Outcome, REPLAY, SMALL, TURN, read};
use crate::rings::EVERY_KIND;
use crate::rust::Convolver;

/// No more samples or stamps than these can be lent.
const MOST: usize = 8200;

/// The worked example: one channel and one speaker of weight 1.0, L 2, left taps 1.0 and 0.5, right taps 0.0 and 1.0.
fn worked(ear_stride: usize) -> Line {
    let samples = [1.0, f32::NAN, 0.0, 2.0, 9.0, 4.0, 8.0, 1.0];
    let call = Call {
        position: 0,
        to_go: 0,
        channels: 1,
        speakers: 1,
        rows: 1,
        length: 2,
        frames: 8,
        stride: 8,
        row_of: [0; 8],
        inputs: samples.to_vec(),
        weights: vec![1.0],
        taps: vec![1.0, 0.5, 0.0, 1.0],
        rings: vec![0.0; 2],
        ears: vec![3.0; 2 * ear_stride],
    };
    let stamps = vec![4294967294, 4294967295, 0, 3, 2, 4, 5000, 5001];
    Line { call, stamps, ear_stride: ear_stride as u64, expected: (0, 0) }
}

const WORKED_LEFT: [f32; 9] = [1.0, f32::NAN, f32::NAN, 0.0, 0.0, 2.0, 5.0, 8.0, 5.0];
const WORKED_RIGHT: [f32; 9] = [0.0, f32::NAN, f32::NAN, 0.0, 0.0, 0.0, 2.0, 0.0, 8.0];

/// What the example answers, written down: nine frames come out, one is late, two are silent, one reset, two unsettled.
fn worked_answer() -> Outcome {
    Outcome {
        refusal: 0,
        samples: 9,
        unsettled: 2,
        late: 1,
        silent: 2,
        resets: 1,
        position: 0,
        to_go: 0,
        expected: Some(5002),
        rings: vec![8.0, 1.0],
        ears: [WORKED_LEFT, WORKED_RIGHT].concat(),
    }
}

/// The example whole, with ears too short by one, cut after every frame, and cut at every place, or every two.
fn worked_cases(random: &mut Random, count: usize) -> Vec<Case> {
    let (line, short) = (worked(9), worked(8));
    let mut all = vec![line.judged_by(&worked_answer()), short.judged_by(&short.refused(5))];
    let every_frame: Vec<usize> = (1..8).collect();
    all.extend(line.in_parts(random, &every_frame));
    for first in 0..=8 {
        for second in first..=(if count < 1000 { first } else { 8 }) {
            all.extend(line.in_parts(random, &[first, second]));
        }
    }
    all
}

/// Stamps of two frames from the first on, their samples, and what they come to: frames out, unsettled, late, silent, resets.
type Boundary = ([u32; 2], [f32; 2], [u64; 5]);

/// With a NaN first, the silent frame after it is unsettled too.
const BOUNDARIES: [Boundary; 7] = [
    ([0, 4097], [1.0, 2.0], [4098, 0, 0, 4096, 0]),
    ([0, 4098], [1.0, 2.0], [2, 0, 0, 0, 1]),
    ([0, 1 << 31], [1.0, 2.0], [2, 0, 0, 0, 1]),
    ([0, (1 << 31) + 1], [1.0, 2.0], [1, 0, 1, 0, 0]),
    ([7, 7], [1.0, 2.0], [1, 0, 1, 0, 0]),
    ([4294967294, 1], [1.0, 2.0], [4, 0, 0, 2, 0]),
    ([0, 3], [f32::NAN, 2.0], [4, 2, 0, 2, 0]),
];

fn boundary(random: &mut Random, (stamps, samples, _): &Boundary) -> Line {
    let mut line = Line::of(random, SMALL, None, stamps);
    line.call.inputs = samples.to_vec();
    line
}

/// The counts are those that are written down.
fn boundary_case(random: &mut Random, given: &Boundary) -> Case {
    let line = boundary(random, given);
    let mut right = line.outcome(Some(&mut Convolver::new(&line.call.speakers())));
    [right.samples, right.unsettled, right.late, right.silent, right.resets] = given.2;
    line.judged_by(&right)
}

/// Gaps of 4,095 to 4,098 from several stamps, some across zero, after a frame and after a call. Those that are filled take nearly all the ears that
/// can be lent.
fn gaps(random: &mut Random, count: usize) -> Vec<Line> {
    let mut all = Vec::new();
    for (i, expected) in [0, 1, 5, 4294967295, 4294967294, 4294963199, 4294963200, 4294963201, 4294966296, 2147483648, 2147481600].into_iter().enumerate() {
        for gap in 4095..=4098 {
            let stamp = (i64::from(expected) + gap).rem_euclid(TURN) as u32;
            let before = (i64::from(expected) - 1).rem_euclid(TURN) as u32;
            let filled = gap <= 4096;
            // Where few are asked for, one of 4,095 that does not cross zero and one of 4,096 that does.
            if count >= 1000 || !filled || (i, gap) == (2, 4095) || (i, gap) == (8, 4096) {
                all.push(Line::of(random, SMALL, Some(expected), &[stamp]));
            }
            if count >= 1000 || !filled {
                all.push(Line::of(random, SMALL, None, &[before, stamp]));
            }
            // One place too few, and a sum of gaps that no ears have room for.
            if count >= 1000 || gap == 4097 {
                let mut short = Line::of(random, SMALL, Some(expected), &[stamp]);
                FAULTS[10](&mut short);
                all.push(short);
            }
        }
        let stamps: Vec<u32> = (1..=20).map(|k| (i64::from(expected) + 4097 * k - 1).rem_euclid(TURN) as u32).collect();
        let mut many = Line::of(random, SMALL, None, &[]);
        (many.stamps, many.call.frames, many.call.stride) = (stamps, 20, 20);
        many.call.inputs = vec![1.0; 20];
        (many.ear_stride, many.call.ears) = (7, vec![1.0; 14]);
        many.expect(Some(expected));
        all.push(many);
    }
    all
}

/// Stamps around 0, 2^31 and 2^32, in every pair: one expected and one that comes, and one frame after the other.
fn around(random: &mut Random, count: usize) -> Vec<Line> {
    let ends = [0i64, 1 << 31];
    let stamps: Vec<u32> = ends.iter().flat_map(|end| (end - 3..=end + 3).map(|stamp| stamp.rem_euclid(TURN) as u32)).collect();
    let mut all = Vec::new();
    for a in &stamps {
        for b in &stamps {
            all.push(Line::of(random, SMALL, Some(*a), &[*b]));
            if count >= 1000 {
                all.push(Line::of(random, SMALL, None, &[*a, *b]));
            }
        }
    }
    all
}

/// Every list of so many stamps out of a few around an expected one: late by one, next, two missing, a reset, and half a turn off.
fn every_list(random: &mut Random, most: u32, from: i64) -> Vec<Line> {
    let near = [-1, 0, 2, 5000, 1 << 31].map(|off: i64| (from + off).rem_euclid(TURN) as u32);
    let mut all = Vec::new();
    for length in 0..=most {
        for which in 0..5usize.pow(length) {
            let stamps: Vec<u32> = (0..length).map(|k| near[which / 5usize.pow(k) % 5]).collect();
            for expected in [None, Some(near[1])] {
                let mut line = Line::of(random, SMALL, expected, &stamps);
                if length > 0 && random.below(3) == 0 {
                    line.call.inputs[random.below(u64::from(length)) as usize] = f32::NAN;
                }
                all.push(line);
            }
        }
    }
    all
}

/// NaNs and infinities in late frames, which are no damage; before silence and before a reset; several resets; every kind of float
/// before a gap, in a late frame and before a reset; frames that are swapped or repeated; nothing but late frames; and no frames at all.
fn damage(random: &mut Random) -> Vec<Line> {
    let mut all = Vec::new();
    let mut add = |expected: Option<u32>, stamps: &[u32], samples: &[f32]| {
        let i = all.len();
        let mut line = Line::longer(random, (1, 1, 1, 4), expected, stamps, i % 2, i % 3);
        line.call.inputs[..samples.len()].copy_from_slice(samples);
        line.call.to_go = i as u64 % 4;
        all.push(line);
    };
    for bad in [f32::NAN, f32::INFINITY, f32::NEG_INFINITY] {
        add(None, &[10, 9, 11], &[1.0, bad, 2.0]);
        add(Some(10), &[9, 9, 10], &[bad, bad, 2.0]);
        add(None, &[10, 12, 13], &[bad, 2.0, 3.0]);
        add(None, &[10, 16], &[bad, 2.0]);
        add(None, &[10, 13, 15], &[1.0, bad, 3.0]);
        add(None, &[10, 11, 5000, 5001], &[1.0, bad, 2.0, 3.0]);
        add(None, &[10, 5000, 5001, 5002], &[1.0, bad, 2.0, 3.0]);
        add(Some(0), &[2, 2, 3, 8], &[bad, 1.0, 1.0, 1.0]);
    }
    for kind in EVERY_KIND.map(f32::from_bits) {
        add(None, &[4294967295, 2, 3], &[kind, 1.0, -0.0]);
        add(Some(4294967295), &[0, 4294967295, 1], &[-0.0, kind, kind]);
        add(None, &[10, 5000, 5002], &[kind, 1.0, kind]);
    }
    add(None, &[0, 5000, 10000, 15000, 20000], &[1.0, 2.0, 3.0, f32::NAN, 4.0]);
    add(Some(0), &[5000, 4999, 10000, 3, 10001], &[1.0, f32::NAN, 3.0, f32::NAN, 4.0]);
    add(Some(100), &[99, 98, 4294967295, 2147483748], &[f32::NAN; 4]);
    add(None, &[1, 0, 2, 4, 3, 5], &[1.0, 2.0, 3.0, 4.0, 5.0, 6.0]);
    add(None, &[1, 1, 2, 2, 2, 3], &[1.0, 2.0, 3.0, 4.0, 5.0, 6.0]);
    add(Some(1), &[2, 1, 2, 3, 1, 4], &[1.0, 2.0, 3.0, 4.0, 5.0, 6.0]);
    for expected in [None, Some(0), Some(4294967295)] {
        add(expected, &[], &[]);
        add(expected, &[], &[]);
    }
    all
}

/// Lines of about 64, 128 and 192 frames: all of them next, across zero; with so many missing; with a reset behind so many; with late
/// frames about there; and two of several planes, one of as many as there may be.
fn long(random: &mut Random, count: usize) -> Vec<Line> {
    let lengths: &[i64] = if count < 1000 { &[63, 64, 65] } else { &[62, 63, 64, 65, 66, 126, 127, 128, 129, 130, 192, 193] };
    let mut all = Vec::new();
    for n in lengths {
        let next: Vec<i64> = (-20..n - 20).collect();
        let reset = [&next[..], &[90000, 90001, 90003]].concat();
        let mut late = next.clone();
        late.insert(*n as usize - 1, -21);
        late.extend([-20, n - 20, n - 19]);
        for stamps in [next, vec![-20, n - 20, n - 18], reset, late] {
            let stamps: Vec<u32> = stamps.iter().map(|stamp| stamp.rem_euclid(TURN) as u32).collect();
            let mut line = Line::of(random, SMALL, None, &stamps);
            line.call.inputs[0] = f32::INFINITY;
            all.push(line);
        }
    }
    for shape in [(6, 6, 2, 3), (16, 8, 8, 2)] {
        let stamps: Vec<u32> = (0..66).chain([68]).collect();
        all.push(Line::of(random, shape, None, &stamps));
    }
    all
}

/// A small line with one or two of the reasons to refuse, in every pair.
fn pairs(random: &mut Random) -> Vec<Line> {
    let line = Line::longer(random, (1, 2, 2, 2), Some(10), &[10, 12, 11], 1, 1);
    let mut all = Vec::new();
    for (i, first) in FAULTS.iter().enumerate() {
        let mut one = line.clone();
        first(&mut one);
        all.push(one.clone());
        for second in &FAULTS[i + 1..] {
            let mut both = one.clone();
            second(&mut both);
            all.push(both);
        }
    }
    all
}

/// Every number of a request at the ends of what is accepted, and far beyond them, with lists that stay as they are and with none.
fn at_the_ends(random: &mut Random, count: usize) -> Vec<Line> {
    let numbers: &[u64] =
        if count < 1000 { &[0, 2, 4, 9, 17, 513, 1 << 63, u64::MAX] } else { &[0, 1, 2, 3, 4, 5, 8, 9, 16, 17, 511, 512, 513, 1 << 32, 1 << 63, u64::MAX] };
    let changes: [fn(&mut Line, u64); 14] = [
        |line, n| line.call.channels = n,
        |line, n| line.call.speakers = n,
        |line, n| line.call.rows = n,
        |line, n| line.call.length = n,
        |line, n| line.call.frames = n,
        |line, n| line.call.stride = n,
        |line, n| line.ear_stride = n,
        |line, n| line.call.position = n,
        |line, n| line.call.to_go = n,
        |line, n| line.call.row_of[1] = n,
        |line, n| line.call.row_of[2] = n,
        |line, n| (line.call.length, line.call.position) = (n, n),
        |line, n| (line.ear_stride, line.call.ears) = (n, vec![]),
        |line, n| {
            (line.call.stride, line.stamps, line.call.inputs) = (n, vec![], vec![]);
            line.call.frames = line.call.frames.min(n);
        },
    ];
    let mut all = Vec::new();
    for n in numbers {
        for change in changes {
            let mut line = Line::longer(random, (2, 2, 2, 3), Some(7), &[7, 9], 1, 2);
            change(&mut line, *n);
            all.push(line);
        }
    }
    // Twice these strides are 0 and 2 once 2^64 is taken off.
    for (ear_stride, ears) in [(1 << 63, 0), ((1 << 63) + 1, 2), (u64::MAX, 0), (u64::MAX, 2)] {
        for stamps in [&[][..], &[6], &[7]] {
            let mut line = Line::of(random, SMALL, Some(7), stamps);
            (line.ear_stride, line.call.ears) = (ear_stride, vec![1.0; ears]);
            all.push(line);
        }
    }
    all
}

/// Lists that are not as long as is said.
fn misfits(random: &mut Random) -> Vec<Case> {
    let mut all = Vec::new();
    let mut wrong = |arguments: Vec<u8>| all.push(exactly(request(REPLAY, &arguments), 0, vec![WRONG_LENGTH]));
    for stamps in [&[][..], &[5], &[5, 6, 8]] {
        let line = Line::of(random, SMALL, None, stamps);
        let right = line.arguments(stamps.len() as u16);
        wrong(right[..right.len() - 1].to_vec());
        wrong([&right[..], &[0]].concat());
        wrong([&right[..], &[0; 4]].concat());
        for said in [stamps.len() as u16 + 1, 256 + stamps.len() as u16, u16::MAX] {
            wrong(line.arguments(said));
        }
        // One more of each of the five lists is said to be there.
        for list in 0..5 {
            let mut other = right.clone();
            other[2 * list + 1] += 1;
            wrong(other);
        }
    }
    all
}

/// Nearly as many frames as a request has room for, and as many stamps as can be lent: a length above that counts as that.
fn largest(random: &mut Random) -> Vec<Case> {
    let mut stamps: Vec<u32> = (0..3900).map(|k: u32| k.wrapping_sub(1000)).collect();
    stamps[1500..].iter_mut().for_each(|stamp| *stamp += 100_000);
    stamps.swap(2000, 2001);
    let mut all = vec![Line::of(random, (1, 1, 1, 3), None, &stamps).case()];
    let mut line = Line::of(random, SMALL, Some(1), &[]);
    (line.stamps, line.call.frames, line.call.stride) = (vec![1; MOST], 1, MOST as u64);
    let refused = line.refused(5).bytes();
    all.extend([MOST as u16, MOST as u16 + 1, u16::MAX].map(|said| exactly(request(REPLAY, &line.arguments(said)), REPLAY, refused.clone())));
    line.stamps.push(1);
    all.push(exactly(request(REPLAY, &line.arguments(MOST as u16 + 1)), 0, vec![WRONG_LENGTH]));
    all
}

/// Stamps as a recorder may keep them: most are next, some are missing, late, swapped or repeated, or from anywhere.
fn walk(random: &mut Random, expected: Option<u32>, frames: usize) -> Vec<u32> {
    let mut stamps: Vec<u32> = Vec::new();
    while stamps.len() < frames {
        let next = i64::from(read(expected, &stamps).expected.unwrap_or(random.bits() as u32));
        let mut put = |stamp: i64| stamps.push(stamp.rem_euclid(TURN) as u32);
        match random.below(16) {
            0 => put(next + 1 + random.below(4) as i64),
            1 => put(next + 1 + random.below(40) as i64),
            2 => put(next - 1 - random.below(20) as i64),
            3 => put(next - 1),
            4 => [next + 1, next].into_iter().for_each(put),
            5 => put(next + 4097 + random.below(1 << 20) as i64),
            6 => put(random.bits() as i64),
            _ => put(next),
        }
    }
    stamps.truncate(frames);
    stamps
}

/// A line from rest with any number of channels and speakers, six of each as often as not.
fn any(random: &mut Random) -> Line {
    let (channels, speakers, rows) = (1 + random.below(8) as usize, 1 + random.below(8) as usize, 1 + random.below(8) as usize);
    let length = 1 + (random.below(24) >> random.below(5)) as usize;
    let shape = if random.below(2) == 0 { (6, 6, rows, length) } else { (channels, speakers, rows, length) };
    let expected = match random.below(3) {
        0 => None,
        1 => Some(random.bits() as u32),
        _ => Some(0u32.wrapping_sub(random.below(8) as u32)),
    };
    let frames = random.below(14) as usize;
    let stamps = walk(random, expected, frames);
    let (more, more_ears) = (random.below(3) as usize, random.below(3) as usize);
    let mut line = Line::longer(random, shape, expected, &stamps, more, more_ears);
    // Empty rings are at rest wherever the desk is.
    (line.call.position, line.call.to_go) = (random.below(length as u64), random.below(length as u64));
    line
}

pub fn cases(random: &mut Random, count: usize, sink: &mut Sink) {
    send(sink, worked_cases(random, count));
    send(sink, BOUNDARIES.iter().map(|given| boundary_case(random, given)));
    send(sink, gaps(random, count).iter().map(Line::case));
    send(sink, around(random, count).iter().map(Line::case));
    send(sink, every_list(random, if count < 1000 { 3 } else { 4 }, 0).iter().map(Line::case));
    send(sink, every_list(random, if count < 1000 { 1 } else { 4 }, 1 << 31).iter().map(Line::case));
    send(sink, damage(random).iter().map(Line::case));
    send(sink, long(random, count).iter().map(Line::case));
    send(sink, pairs(random).iter().map(Line::case));
    send(sink, at_the_ends(random, count).iter().map(Line::case));
    send(sink, misfits(random));
    if count >= 1000 {
        send(sink, largest(random));
    }
    for _ in 0..(if count < 1000 { count / 40 } else { count / 4 }) {
        let line = any(random);
        let mut cuts: Vec<usize> = (0..random.below(5)).map(|_| random.below(line.call.frames + 1) as usize).collect();
        cuts.sort_unstable();
        send(sink, line.in_parts(random, &cuts));
        let mut short = line.clone();
        FAULTS[10](&mut short);
        sink(short.case());
        // Any rings, any place in them.
        let mut line = any(random);
        line.call.rings = line.call.rings.iter().map(|_| sample(random)).collect();
        sink(line.case());
    }
}

#[cfg(test)]
mod tests {
    use super::*;
    use crate::frame::f32_bytes;
    use crate::recording::{Event, Reading};

    fn bits(list: &[f32]) -> Vec<[u8; 4]> {
        list.iter().map(|x| f32_bytes(*x)).collect()
    }

    #[test]
    fn the_worked_example_is_read_as_its_table() {
        use Event::{Frame, Reset, Silence};
        let read = worked(9).read();
        assert_eq!(read.events, [Frame(0), Frame(1), Frame(2), Silence, Silence, Frame(3), Frame(5), Reset, Frame(6), Frame(7)]);
        assert_eq!((read.out(), read.late, read.silent, read.resets, read.expected), (9, 1, 2, 1, Some(5002)));
        assert_eq!((worked(9).refusal(), worked(8).refusal()), (0, 5));
    }

    /// By the words written here and by the Rust; rings, desk and count too.
    #[test]
    fn the_worked_example_sounds_as_its_table() {
        let line = worked(9);
        let right = worked_answer();
        assert_eq!(line.outcome(None).bytes(), right.bytes());
        let mut convolver = Convolver::new(&line.call.speakers());
        assert_eq!(line.outcome(Some(&mut convolver)).bytes(), right.bytes());
        assert_eq!(right.bytes().len(), 62 + 4 * 2 + 4 * 18);
    }

    #[test]
    fn the_boundaries_come_to_what_is_written_down() {
        for given in &BOUNDARIES {
            let right = boundary(&mut Random::new(1, "boundaries"), given).outcome(None);
            assert_eq!([right.samples, right.unsettled, right.late, right.silent, right.resets], given.2, "{given:?}");
        }
    }

    /// One step each side of what is next, ahead and late, from every end.
    #[test]
    fn a_difference_says_what_a_frame_is() {
        for expected in [0, 1, 5, (1 << 31) - 1, 1 << 31, TURN - 4097, TURN - 1] {
            for (difference, out, late, silent, resets) in [
                (0, 1, 0, 0, 0),
                (1, 2, 0, 1, 0),
                (4095, 4096, 0, 4095, 0),
                (4096, 4097, 0, 4096, 0),
                (4097, 1, 0, 0, 1),
                (4098, 1, 0, 0, 1),
                ((1 << 31) - 1, 1, 0, 0, 1),
                (1 << 31, 0, 1, 0, 0),
                (TURN - 1, 0, 1, 0, 0),
            ] {
                let stamp = (expected + difference) % TURN;
                let read = read(Some(expected as u32), &[stamp as u32]);
                assert_eq!((read.out(), read.late, read.silent, read.resets), (out, late, silent, resets), "{expected} {difference}");
                let then = if late == 1 { expected } else { (stamp + 1) % TURN };
                assert_eq!(read.expected, Some(then as u32));
            }
        }
    }

    /// Document 01's sums as they are written here, and the Rust's with its reset.
    #[test]
    fn the_rust_sounds_as_the_words_say() {
        let mut random = Random::new(7, "replayed");
        for _ in 0..300 {
            let line = any(&mut random);
            let mut convolver = Convolver::new(&line.call.speakers());
            assert_eq!(line.refusal(), 0);
            assert_eq!(bits(&line.outcome(Some(&mut convolver)).ears), bits(&line.outcome(None).ears));
        }
    }

    /// How a recording could be read otherwise, in one way that a person could write.
    #[derive(Clone, Copy, PartialEq, Debug)]
    enum Way {
        GapOf4096Resets,
        GapOf4097Filled,
        HalfTurnAhead,
        LateMovesTheStamp,
        StampExpectedAgain,
        BackwardDifference,
        NothingRollsOver,
        FirstIsZero,
        ResetKeepsTheRings,
        LastFrameHeld,
        LateCountedAsSilent,
    }
    use Way::*;

    const WAYS: [Way; 11] = [
        GapOf4096Resets, GapOf4097Filled, HalfTurnAhead, LateMovesTheStamp, StampExpectedAgain, BackwardDifference, NothingRollsOver, FirstIsZero,
        ResetKeepsTheRings, LastFrameHeld, LateCountedAsSilent,
    ];

    fn read_otherwise(way: Way, expected: Option<u32>, stamps: &[u32]) -> Reading {
        let expected = if way == FirstIsZero { expected.or(Some(0)) } else { expected };
        let mut read = Reading { events: Vec::new(), late: 0, silent: 0, resets: 0, expected };
        let most = 4096 + i64::from(way == GapOf4097Filled) - i64::from(way == GapOf4096Resets);
        let half = TURN / 2 + i64::from(way == HalfTurnAhead);
        let mut silence = Event::Silence;
        for (i, stamp) in stamps.iter().enumerate() {
            let stamp = i64::from(*stamp);
            let difference = match read.expected.map(i64::from) {
                None => 0,
                Some(expected) if way == BackwardDifference => (expected - stamp).rem_euclid(TURN),
                Some(expected) if way == NothingRollsOver && stamp < expected => TURN - 1,
                Some(expected) => (stamp - expected).rem_euclid(TURN),
            };
            let after = Some((stamp + i64::from(way != StampExpectedAgain)).rem_euclid(TURN) as u32);
            if difference >= half {
                *(if way == LateCountedAsSilent { &mut read.silent } else { &mut read.late }) += 1;
                read.expected = if way == LateMovesTheStamp { after } else { read.expected };
                continue;
            }
            if difference > most {
                read.resets += 1;
                read.events.extend((way != ResetKeepsTheRings).then_some(Event::Reset));
            } else {
                read.silent += difference as u64;
                read.events.extend((0..difference).map(|_| silence));
            }
            read.events.push(Event::Frame(i));
            if way == LastFrameHeld {
                silence = Event::Frame(i);
            }
            read.expected = after;
        }
        read
    }

    /// Whether an answer would be another one.
    fn is_told(line: &Line, way: Way) -> bool {
        let stamps = || &line.stamps[..line.call.frames as usize];
        line.refusal() == 0 && line.played(&read_otherwise(way, line.expected(), stamps())).bytes() != line.played(&line.read()).bytes()
    }

    /// Each set of requests, as it is made for the recorded sample, tells every other way of reading but those that it cannot show.
    #[test]
    fn every_other_way_is_told() {
        let random = &mut Random::new(1, "replay");
        let ends = [GapOf4096Resets, GapOf4097Filled];
        let half = [GapOf4096Resets, GapOf4097Filled, HalfTurnAhead];
        let sets: [(&str, Vec<Line>, &[Way]); 8] = [
            ("worked", vec![worked(9)], &[GapOf4096Resets, GapOf4097Filled, HalfTurnAhead, NothingRollsOver, LastFrameHeld]),
            ("boundaries", BOUNDARIES.iter().map(|given| boundary(random, given)).collect(), &[]),
            ("gaps", gaps(random, 400), &[HalfTurnAhead, LateMovesTheStamp, LastFrameHeld, LateCountedAsSilent]),
            ("around", around(random, 400), &[GapOf4096Resets, GapOf4097Filled, FirstIsZero, ResetKeepsTheRings, LastFrameHeld]),
            ("lists", every_list(random, 3, 0), &ends),
            ("damage", damage(random), &ends),
            ("long", long(random, 400), &half),
            ("walks", (0..40).map(|_| any(random)).collect(), &half),
        ];
        for (name, lines, not_shown) in sets {
            let is_missed = |way: &Way| !lines.iter().any(|line| is_told(line, *way));
            let missed: Vec<Way> = WAYS.into_iter().filter(is_missed).collect();
            assert_eq!(missed, not_shown, "{name}");
        }
    }

    /// Every number is given for one reason, and for two the first of the order; what is accepted is not refused.
    #[test]
    fn the_reasons_to_refuse_stand_in_their_order() {
        let random = &mut Random::new(1, "pairs");
        let line = Line::longer(random, (1, 2, 2, 2), Some(10), &[10, 12, 11], 1, 1);
        assert_eq!(line.refusal(), 0);
        let alone: Vec<u8> = FAULTS
            .iter()
            .map(|fault| {
                let mut one = line.clone();
                fault(&mut one);
                one.refusal()
            })
            .collect();
        assert_eq!(alone, [2, 2, 4, 5, 5, 5, 5, 5, 5, 5, 5, 5, 5, 7, 7, 8, 8]);
        let refusals: Vec<u8> = pairs(random).iter().map(Line::refusal).collect();
        let mut first_of_each = Vec::new();
        for (i, one) in alone.iter().enumerate() {
            first_of_each.push(*one);
            first_of_each.extend(alone[i + 1..].iter().map(|other| one.min(other)));
        }
        assert_eq!(refusals, first_of_each);
    }

    /// A cut anywhere leaves what the whole leaves.
    #[test]
    fn a_line_may_be_cut_anywhere() {
        let random = &mut Random::new(2, "cut");
        for _ in 0..60 {
            let line = any(random);
            let whole = line.outcome(None);
            let cut = random.below(line.call.frames + 1) as usize;
            let first = line.part(random, &line, 0..cut);
            let one = first.outcome(None);
            let mut state = first;
            (state.call.position, state.call.to_go, state.call.rings) = (one.position, one.to_go, one.rings);
            state.expect(one.expected);
            let two = line.part(random, &state, cut..line.call.frames as usize).outcome(None);
            let sums = |a: [u64; 5], b: [u64; 5]| [0, 1, 2, 3, 4].map(|i| a[i] + b[i]);
            let counts = |o: &Outcome| [o.samples, o.unsettled, o.late, o.silent, o.resets];
            assert_eq!(sums([one.samples, one.unsettled, one.late, one.silent, one.resets], counts(&two)), counts(&whole));
            assert_eq!((two.position, two.to_go, two.expected, bits(&two.rings)), (whole.position, whole.to_go, whole.expected, bits(&whole.rings)));
        }
    }
}
