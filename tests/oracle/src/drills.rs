//! The drills that are asked for, as requests for script.rs to judge: every reason to refuse alone and with the others, every small
//! list of cues (each that rises against every small stretch), long lists, long stretches, cuts, and two cases that are known bit for bit.
use crate::frame::{Case, Sink, exactly, f32_bytes, request, send};
use crate::random::Random;
use crate::script::{Cue, FAULTS, SCRIPT, Stretch, with_faults};
use std::collections::BTreeSet;
use std::ops::Range;

/// How many cues and samples can be lent.
const MOST_CUES_LENT: usize = 257;
const MOST_INPUTS: usize = 8200;
const MOST_OUTPUTS: usize = 16400;

/// A direction: in eighths of a turn, in whole degrees, or any. The first two are exact in f32.
fn direction(random: &mut Random) -> (f64, f64) {
    let kind = random.below(3);
    let mut of = |steps: u64, end: f64| (random.below(steps + 1) as f64 / steps as f64 * 2.0 - 1.0) * end;
    match kind {
        0 => (of(8, 180.0), of(4, 90.0)),
        1 => (of(360, 180.0).round(), of(180, 90.0).round()),
        _ => (of(1 << 50, 180.0), of(1 << 50, 90.0)),
    }
}

fn cue(random: &mut Random, frame: u64) -> Cue {
    let (azimuth, elevation) = direction(random);
    Cue { frame, azimuth, elevation }
}

/// As many cues, at rising frames, each up to a power of two behind the one before.
fn rising(random: &mut Random, count: usize, from: u64, powers: u64) -> Vec<Cue> {
    let mut frame = from;
    let mut next = || {
        frame += 1 + (random.bits() >> (64 - powers + random.below(powers)));
        cue(random, frame)
    };
    (0..count).map(|_| next()).collect()
}

// ---- what is refused

/// Every set of faults, with a short list, for some frames and for none; and with a list that is too long, and for too many frames.
/// These requests are long themselves: every set only where many requests are asked for.
fn of_faults(random: &mut Random, count: usize, sink: &mut Sink) {
    let short = rising(random, 4, 0, 3);
    let long = rising(random, 257, 0, 3);
    let every = 0..1 << FAULTS.len();
    for (frames, stride) in [(2, 3), (0, 0), (0, 2)] {
        let stretch = Stretch::fitting(random, &short, 1, 1, frames, stride);
        send(sink, every.clone().map(|which| with_faults(&stretch, which).case()));
    }
    let alone = [0].into_iter().chain((0..FAULTS.len()).map(|i| 1 << i));
    let some: Vec<usize> = if count < 1000 { alone.collect() } else { every.clone().collect() };
    let stretch = Stretch::fitting(random, &long, 1, 1, 2, 3);
    send(sink, some.into_iter().map(|which| with_faults(&stretch, which).case()));
    for (cues, few) in [(&short, 0), (&long, 1 << 4)] {
        let stretch = Stretch::fitting(random, cues, 1, 1, 4097, 4097);
        for which in every.clone().filter(|which| count >= 1000 || *which == few) {
            let mut faulty = with_faults(&stretch, which);
            faulty.shown = 4090..4100;
            sink(faulty.case());
        }
    }
}

/// Directions that are none, in every place of a short list of which the stretch reaches one cue, and the ends of what is one.
fn of_directions(random: &mut Random, sink: &mut Sink) {
    let beyond = |x: f64| f64::from_bits(x.to_bits() + 1);
    let within = |x: f64| f64::from_bits(x.to_bits() - 1);
    let ends = [(180.0, 90.0), (-180.0, -90.0)];
    let mut directions: Vec<(f64, f64)> = ends.into_iter().chain(ends.map(|(a, e)| (within(a), within(e)))).chain([(-0.0, -0.0), (5e-324, -5e-324)]).collect();
    for bad in [f64::NAN, f64::INFINITY, f64::NEG_INFINITY, 1e300] {
        directions.extend([(bad, 0.0), (0.0, bad)]);
    }
    directions.extend(ends.into_iter().flat_map(|(a, e)| [(beyond(a), e), (a, beyond(e)), (0.0, a)]));
    for (azimuth, elevation) in directions {
        for place in 0..4 {
            let mut cues = rising(random, 4, 3, 3);
            (cues[place].azimuth, cues[place].elevation) = (azimuth, elevation);
            sink(Stretch::fitting(random, &cues, 1 + place as u64 % 3, cues[0].frame, 1, 1).case());
        }
    }
}

/// Numbers up to the largest, and lists that are a sample too short or too long.
fn of_numbers(random: &mut Random, sink: &mut Sink) {
    let mut with = |change: &dyn Fn(&mut Stretch)| {
        let cues = rising(random, 3, 0, 3);
        let mut stretch = Stretch::fitting(random, &cues, 2, 2, 2, 3);
        change(&mut stretch);
        sink(stretch.case());
    };
    for n in [0, 1, 2, 3, 4, 5, 255, 257, 4096, 4097, 1 << 32, (1 << 32) + 2, 1 << 62, 1 << 63, (1 << 63) + 3, u64::MAX - 1, u64::MAX] {
        with(&|s| s.order = n);
        with(&|s| s.first = n);
        with(&|s| s.frames = n);
        with(&|s| s.stride = n);
        with(&|s| (s.stride, s.frames) = (n, n));
        with(&|s| (s.first, s.frames) = (n, n));
        with(&|s| (s.order, s.cues[0].azimuth) = (n, f64::NAN));
    }
    // Outputs that would fit the order, if it were one.
    for n in 0..6 {
        with(&|s| (s.order, _) = (n, s.lend_outputs((n as usize + 1).pow(2) * 3)));
    }
    for frames in [0, 2] {
        with(&|s| (s.frames, _) = (frames, s.input.pop()));
        with(&|s| (s.frames, _) = (frames, s.input.push(1.0)));
        with(&|s| (s.frames, _) = (frames, s.lend_outputs(s.outputs - 1)));
        with(&|s| (s.frames, _) = (frames, s.lend_outputs(s.outputs + 1)));
        with(&|s| (s.frames, _) = (frames, s.lend_outputs(0)));
    }
}

/// Stretches that end at the largest frame number, before it, or would run past it, with cues up to that number.
fn at_the_last_frame(random: &mut Random, sink: &mut Sink) {
    for back in 0..5 {
        for frames in 0..6 {
            let cues = [7, 3, 1, 0].map(|before| cue(random, u64::MAX - before));
            sink(Stretch::fitting(random, &cues, 1, u64::MAX - back, frames, frames).case());
        }
    }
    let cues = [0, 1, u64::MAX - 1, u64::MAX].map(|frame| cue(random, frame));
    for (first, frames) in [(0, 3), (1, 1), (u64::MAX - 2, 3), (u64::MAX, 1), (1 << 63, 2)] {
        sink(Stretch::fitting(random, &cues, 3, first, frames, frames + 1).case());
    }
}

// ---- every small list

/// The frame numbers of small lists are below this.
const SMALL: u64 = 7;

/// Every list of up to four small numbers, those that rise and the others.
fn small_lists() -> (Vec<Vec<u64>>, Vec<Vec<u64>>) {
    let mut longest: Vec<Vec<u64>> = vec![vec![]];
    let mut all = longest.clone();
    for _ in 0..4 {
        longest = longest.iter().flat_map(|list| (0..SMALL).map(move |frame| [&list[..], &[frame]].concat())).collect();
        all.extend(longest.clone());
    }
    all.into_iter().partition(|list| list.is_sorted_by(|a, b| a < b))
}

/// A stretch of a small list: each cue has a direction of its own, and every frame at which one holds a 1.0, so that the gains
/// of every frame show which it is.
fn small(random: &mut Random, list: &[u64], first: u64, frames: usize) -> Case {
    let directions = [(10.0, 5.0), (-100.0, 20.0), (170.0, -40.0), (60.0, 70.0)];
    let cues: Vec<Cue> = list.iter().zip(directions).map(|(frame, (azimuth, elevation))| Cue { frame: *frame, azimuth, elevation }).collect();
    let mut stretch = Stretch::fitting(random, &cues, 1, first, frames, frames);
    stretch.put_ones(0..frames);
    stretch.case()
}

/// Every rising list against a stretch that holds all its frames. Then every one against every stretch, and every list that does
/// not rise against one; where few requests are asked for, some of them.
fn of_small_lists(random: &mut Random, count: usize, sink: &mut Sink) {
    let (rising, others) = small_lists();
    send(sink, rising.iter().map(|list| small(random, list, 0, SMALL as usize + 1)));
    let stretches = (SMALL + 1).pow(2);
    let stretch = |n: u64| (n / (SMALL + 1), (n % (SMALL + 1)) as usize);
    if count < 1000 {
        for _ in 0..count / 4 {
            let (first, frames) = stretch(random.below(stretches));
            let list = &rising[random.below(rising.len() as u64) as usize];
            sink(small(random, list, first, frames));
        }
        for _ in 0..count / 10 {
            let list = &others[random.below(others.len() as u64) as usize];
            sink(small(random, list, 0, 2));
        }
        return;
    }
    for list in rising {
        send(sink, (0..stretches).map(|n| small(random, &list, stretch(n).0, stretch(n).1)));
    }
    for list in others {
        let (first, frames) = stretch(random.below(stretches));
        sink(small(random, &list, first, frames));
    }
}

// ---- long lists and long stretches

/// Lists of which a stretch crosses every cue, up to 256 of them; stretches about one cue of 256 at any distance; and lists of which
/// two frames are equal or fall, or one direction of 257 is bad, somewhere.
fn of_long_lists(random: &mut Random, count: usize, sink: &mut Sink) {
    let lengths = if count < 1000 { 5..14 } else { 5..80 };
    for length in lengths.chain([256]) {
        let close = rising(random, length, length as u64 % 4, 2);
        let frames = close[length - 1].frame as usize + 2;
        sink(Stretch::fitting(random, &close, 1, 0, frames, frames).case());
    }
    let mut wide = rising(random, 256, 0, 55);
    (wide[0].frame, wide[255].frame) = (0, u64::MAX);
    let few: Vec<usize> = [0, 1, 254, 255].into_iter().chain((0..2).map(|_| random.below(256) as usize)).collect();
    for k in if count < 1000 { few } else { (0..256).collect() } {
        let first = wide[k].frame.saturating_sub(1).min(u64::MAX - 2);
        sink(Stretch::fitting(random, &wide, 1 + k as u64 % 3, first, 3, 3).case());
    }
    for _ in 0..(if count < 1000 { 2 } else { count / 50 }) {
        let k = random.below(255) as usize;
        let mut spoiled = wide.clone();
        spoiled[k + 1].frame = spoiled[k].frame;
        sink(Stretch::fitting(random, &spoiled, 1, wide[k].frame, 2, 2).case());
        let mut spoiled = wide.clone();
        (spoiled[k].frame, spoiled[k + 1].frame) = (spoiled[k + 1].frame, spoiled[k].frame);
        sink(Stretch::fitting(random, &spoiled, 1, 0, 2, 2).case());
        let mut spoiled = rising(random, 257, 0, 55);
        spoiled[random.below(257) as usize].elevation = 90.1;
        sink(Stretch::fitting(random, &spoiled, 1, 0, 2, 2).case());
    }
}

/// The longest stretch, in planes of the most samples that can be lent, window by window, and the longest planes of the third order.
fn of_long_stretches(random: &mut Random, count: usize, sink: &mut Sink) {
    let at = [6, 1000, 2500, 4100];
    let cues: Vec<Cue> = at.into_iter().map(|frame| cue(random, frame)).collect();
    // The last cue begins to hold at the last frame, 5 + 4095.
    let stretch = Stretch::fitting(random, &cues, 1, 5, 4096, 4100);
    let half = MOST_OUTPUTS / 2;
    let windows = if count < 1000 {
        vec![3900..4200, MOST_OUTPUTS - 100..MOST_OUTPUTS]
    } else {
        vec![0..half, half..MOST_OUTPUTS, 4090..4110, 100..101, 0..MOST_OUTPUTS]
    };
    for shown in windows {
        sink(Stretch { shown, ..stretch.clone() }.case());
    }
    let third = Stretch::fitting(random, &cues, 3, 2, 1020, 1025);
    sink(Stretch { shown: MOST_OUTPUTS - 60..MOST_OUTPUTS, ..third }.case());
    if count >= 1000 {
        // A whole that is refused, and its parts, which are not.
        for (first, frames) in [(0, 4100), (0, 4000), (4000, 100)] {
            let mut stretch = Stretch::fitting(random, &cues, 1, first, frames, frames);
            stretch.shown = 0..stretch.outputs.min(half);
            sink(stretch.case());
        }
    }
}

// ---- cuts

/// A few cues, or none, at rising frames about a stretch.
fn about(random: &mut Random, first: u64, frames: u64) -> Vec<Cue> {
    let (low, high) = (first.saturating_sub(6), first.saturating_add(frames + 6));
    let at: BTreeSet<u64> = (0..random.below(7)).map(|_| low + random.below(high - low + 1)).collect();
    at.into_iter().map(|frame| cue(random, frame)).collect()
}

/// A stretch somewhere up to the last frame number, cut at any places, some of its parts empty.
fn cut(random: &mut Random, longest: u64) -> Vec<Case> {
    let frames = random.below(longest + 1);
    let first = match random.below(4) {
        0 => 0,
        1 => u64::MAX - frames.saturating_sub(1),
        _ => random.bits() >> (1 + random.below(62)),
    };
    let mut cuts: Vec<usize> = (0..1 + random.below(4)).map(|_| random.below(frames + 1) as usize).collect();
    cuts.sort();
    let cues = about(random, first, frames);
    let (order, stride) = (1 + random.below(3), frames + random.below(3));
    Stretch::fitting(random, &cues, order, first, frames as usize, stride as usize).in_parts(random, &cuts)
}

// ---- what is known bit for bit

/// A stretch that is accepted, and what its outputs then are.
fn known(stretch: &Stretch, outputs: &[f32]) -> Case {
    let mut answer = vec![0];
    answer.extend(stretch.frames.to_be_bytes());
    answer.extend(outputs.iter().flat_map(|y| f32_bytes(*y)));
    exactly(request(SCRIPT, &stretch.arguments()), SCRIPT, answer)
}

/// The gains of the third order at (30, 20), narrowed.
const THIRD: [u32; 16] = [
    0x3f80_0000, 0x3ef0_8fb2, 0x3eaf_1d44, 0x3f50_550b, 0x3f29_8a4f, 0x3e8e_81f4, 0xbea6_293c, 0x3ef6_d498, 0x3ec3_c4ab, 0x3f27_eefc, 0x3f01_a93b, 0xbdf4_9af1,
    0xbed3_75d4, 0xbe53_d598, 0x3e95_b83e, 0x0000_0000,
];

/// Silence up to frame 2, a voice in front, and from frame 5 on one at the left; whole, and as three frames and five.
fn worked(random: &mut Random) -> Vec<Case> {
    let samples = [f32::NAN, -1.0, 1.0, -2.0, 0.5, 4.0, -0.0, f32::INFINITY];
    let planes = [
        [0.0, 0.0, 1.0, -2.0, 0.5, 4.0, -0.0, f32::INFINITY],
        [0.0, 0.0, 0.0, -0.0, 0.0, 4.0, -0.0, f32::INFINITY],
        [0.0, 0.0, 0.0, -0.0, 0.0, 0.0, -0.0, f32::NAN],
        [0.0, 0.0, 1.0, -2.0, 0.5, 0.0, -0.0, f32::NAN],
    ];
    let cues = [Cue { frame: 2, azimuth: 0.0, elevation: 0.0 }, Cue { frame: 5, azimuth: 90.0, elevation: 0.0 }];
    let of = |span: Range<usize>| {
        let mut part = Stretch::fitting(random, &cues, 1, span.start as u64, span.len(), span.len());
        part.input.copy_from_slice(&samples[span.clone()]);
        known(&part, &planes.map(|plane| plane[span.clone()].to_vec()).concat())
    };
    let mut all: Vec<Case> = [0..8, 0..3, 3..8].map(of).into();
    let mut third = Stretch::fitting(random, &[Cue { frame: 9, azimuth: 30.0, elevation: 20.0 }], 3, 9, 1, 1);
    third.input[0] = 1.0;
    all.push(known(&third, &THIRD.map(f32::from_bits)));
    all
}

pub fn cases(random: &mut Random, count: usize, sink: &mut Sink) {
    send(sink, worked(random));
    of_faults(random, count, sink);
    of_directions(random, sink);
    of_numbers(random, sink);
    at_the_last_frame(random, sink);
    of_small_lists(random, count, sink);
    of_long_lists(random, count, sink);
    of_long_stretches(random, count, sink);
    for n in 0..(if count < 1000 { count / 20 } else { count / 10 }) {
        let longest = if count >= 1000 && n % 50 == 0 { 1000 } else { 10 };
        send(sink, cut(random, longest));
    }
}

/// Arguments that are none: more cues or samples than can be lent, samples to be shown beyond those lent, another length. The
/// longest only where many requests are asked for.
pub fn without_form(count: usize) -> Vec<Vec<u8>> {
    let arguments = |counts: [usize; 5]| {
        let mut bytes: Vec<u8> = counts.iter().flat_map(|n| (*n as u16).to_be_bytes()).collect();
        bytes.resize(46 + 24 * counts[0] + 4 * counts[1], 0);
        bytes
    };
    let mut all: Vec<Vec<u8>> = vec![arguments([MOST_CUES_LENT + 1, 1, 4, 0, 4])];
    for (outputs, at, shown) in [(4, 4, 1), (4, 0, 5), (4, 5, 0), (0, 1, 0), (4, 65535, 1), (4, 65533, 5), (MOST_OUTPUTS, 65535, 65535)] {
        all.push(arguments([4, 1, outputs, at, shown]));
    }
    all.extend([MOST_OUTPUTS + 1, 65535].map(|outputs| arguments([4, 1, outputs, 0, 1])));
    all.extend((count >= 1000).then(|| arguments([4, MOST_INPUTS + 1, 4, 0, 4])));
    let right = arguments([4, 1, 4, 0, 4]);
    all.extend([&right[..right.len() - 1], &right[..right.len() - 4], &[&right[..], &[0]].concat(), &[&right[..], &[0; 24]].concat()].map(<[u8]>::to_vec));
    all
}

/// The judge is tried with a program of the oracle's own, which reads a request as docs/PROBE.md has it: right as it is, and then
/// wrong in one way after another, each of which the requests of the recorded sample have to show.
#[cfg(test)]
mod tests {
    use super::*;
    use crate::frame::Answer;
    use crate::rust;
    use std::collections::HashMap;

    const WRONG: [&str; 44] = [
        "a cue holds a frame late",
        "a cue holds a frame early",
        "the first cue holds before itself",
        "the first cue not after",
        "the cue after the last not after",
        "one cue throughout",
        "frames counted from 0",
        "frames of 32 bits",
        "the last cue is not looked at",
        "halving ends a step early",
        "the lower half loses its end",
        "silence is -0.0",
        "silence is a product",
        "silence is left as held",
        "equal frames rise",
        "falling frames rise",
        "the last pair is not compared",
        "a list of 257",
        "an empty list is refused",
        "12 before 11",
        "11 before 6",
        "11 before 5",
        "12 before 3",
        "6 before 5",
        "5 before 3",
        "3 before 1",
        "the first direction alone",
        "directions in use alone",
        "no direction is bad",
        "order 0",
        "order 4",
        "the last frame is refused",
        "one frame past the last",
        "none at the last frame is refused",
        "8192 frames",
        "4095 frames",
        "more frames than the stride",
        "an output too many",
        "an input too few",
        "silence on refusal",
        "samples counted on refusal",
        "the whole stride is played",
        "outputs shown from the first",
        "a gain a step off",
    ];

    struct Program(&'static str);

    /// The bytes of a number.
    fn number<const N: usize>(bytes: &[u8], at: usize) -> [u8; N] {
        bytes[at..at + N].try_into().unwrap()
    }

    fn counts(arguments: &[u8]) -> [usize; 5] {
        [0, 2, 4, 6, 8].map(|i| usize::from(u16::from_be_bytes(number(arguments, i))))
    }

    /// Whether arguments have the form that the operation takes.
    fn has_form(arguments: &[u8]) -> bool {
        if arguments.len() < 46 {
            return false;
        }
        let [cues, inputs, outputs, at, shown] = counts(arguments);
        cues <= 257 && inputs <= 8200 && arguments.len() == 46 + 24 * cues + 4 * inputs && outputs <= 16400 && at + shown <= outputs
    }

    fn read(request: &[u8]) -> Stretch {
        let bytes = &request[5..];
        let [cues, inputs, outputs, at, shown] = counts(bytes);
        let long = |at: usize| u64::from_be_bytes(number(bytes, at));
        let cue = |at: usize| Cue { frame: long(at), azimuth: f64::from_bits(long(at + 8)), elevation: f64::from_bits(long(at + 16)) };
        let float = |at: usize| f32::from_bits(u32::from_be_bytes(number(bytes, at)));
        Stretch {
            cues: (0..cues).map(|i| cue(46 + 24 * i)).collect(),
            order: long(10),
            first: long(18),
            frames: long(26),
            stride: long(34),
            held: float(42),
            input: (0..inputs).map(|i| float(46 + 24 * cues + 4 * i)).collect(),
            outputs,
            shown: at..at + shown,
        }
    }

    impl Program {
        fn is(&self, way: &str) -> bool {
            self.0 == way
        }

        fn rises(&self, cues: &[Cue]) -> bool {
            let pairs = cues.len().saturating_sub(1 + usize::from(self.is("the last pair is not compared")));
            let is_refused = self.is("an empty list is refused") && cues.is_empty();
            !is_refused
                && (0..pairs).all(|i| match self.0 {
                    "equal frames rise" => cues[i].frame <= cues[i + 1].frame,
                    "falling frames rise" => cues[i].frame != cues[i + 1].frame,
                    _ => cues[i].frame < cues[i + 1].frame,
                })
        }

        fn is_bad(&self, s: &Stretch) -> bool {
            let reached = |cue: &&Cue| u128::from(cue.frame) < u128::from(s.first) + u128::from(s.frames);
            let is_bad = |cue: &Cue| cue.azimuth.is_nan() || cue.azimuth.abs() > 180.0 || cue.elevation.is_nan() || cue.elevation.abs() > 90.0;
            match self.0 {
                "no direction is bad" => false,
                "the first direction alone" => s.cues.first().is_some_and(is_bad),
                "directions in use alone" => s.cues.iter().filter(reached).any(is_bad),
                _ => s.cues.iter().any(is_bad),
            }
        }

        fn misfits(&self, s: &Stretch) -> bool {
            let planes = (u128::from(s.order) + 1).saturating_pow(2);
            let (outputs, inputs) =
                (s.outputs - usize::from(self.is("an output too many")).min(s.outputs), s.input.len() + usize::from(self.is("an input too few")));
            let outputs_fit = [s.outputs, outputs].map(|n| n as u128).contains(&planes.saturating_mul(u128::from(s.stride)));
            let inputs_fit = [s.input.len(), inputs].map(|n| n as u128).contains(&u128::from(s.stride));
            let end = match self.0 {
                "the last frame is refused" => (1 << 64) - 1,
                "one frame past the last" => (1 << 64) + 1,
                _ => 1u128 << 64,
            };
            let runs_past =
                u128::from(s.first) + u128::from(s.frames) > end || (self.is("none at the last frame is refused") && s.first == u64::MAX && s.frames == 0);
            let is_long = s.frames > s.stride && !(self.is("more frames than the stride") && s.frames == s.stride + 1);
            is_long || !inputs_fit || !outputs_fit || runs_past
        }

        fn refusal(&self, s: &Stretch) -> u8 {
            let orders = u64::from(!self.is("order 0"))..4 + u64::from(self.is("order 4"));
            let most = [("8192 frames", 8192), ("4095 frames", 4095)].into_iter().find(|(way, _)| self.is(way)).map_or(4096, |most| most.1);
            let mut checks = vec![
                (1, !orders.contains(&s.order)),
                (3, self.is_bad(s)),
                (5, self.misfits(s)),
                (6, s.frames > most),
                (11, !self.rises(&s.cues)),
                (12, s.cues.len() > 256 + usize::from(self.is("a list of 257"))),
            ];
            match self.0 {
                "12 before 11" => checks.swap(4, 5),
                "11 before 6" => checks.swap(3, 4),
                "11 before 5" => checks[2..5].rotate_right(1),
                "12 before 3" => checks[1..6].rotate_right(1),
                "6 before 5" => checks.swap(2, 3),
                "5 before 3" => checks.swap(1, 2),
                "3 before 1" => checks.swap(0, 1),
                _ => {}
            }
            checks.into_iter().find(|check| check.1).map_or(0, |check| check.0)
        }

        fn is_not_after(&self, cue: &Cue, at: u64) -> bool {
            match self.0 {
                "a cue holds a frame late" => cue.frame < at,
                "a cue holds a frame early" => cue.frame <= at.saturating_add(1),
                "frames of 32 bits" => cue.frame as u32 <= at as u32,
                _ => cue.frame <= at,
            }
        }

        /// How many cues are not after a frame, by halving.
        fn not_after(&self, cues: &[Cue], at: u64) -> usize {
            let (mut low, mut high) = (0, cues.len() - usize::from(self.is("the last cue is not looked at")).min(cues.len()));
            while low + usize::from(self.is("halving ends a step early")) < high {
                let middle = low + (high - low) / 2;
                if self.is_not_after(&cues[middle], at) {
                    low = middle + 1;
                } else {
                    high = middle - usize::from(self.is("the lower half loses its end")).min(middle);
                }
            }
            low
        }

        fn voice<'a>(&self, s: &'a Stretch, n: u64) -> Option<&'a Cue> {
            let at = match self.0 {
                "one cue throughout" => s.first,
                "frames counted from 0" => n,
                _ => s.first.wrapping_add(n),
            };
            let count = self.not_after(&s.cues, at);
            match self.0 {
                "the first cue holds before itself" => s.cues.get(count.saturating_sub(1)),
                "the first cue not after" => s.cues[..count].first(),
                "the cue after the last not after" => s.cues.get(count),
                _ => s.cues[..count].last(),
            }
        }

        fn silence(&self, s: &Stretch, x: f32) -> f32 {
            match self.0 {
                "silence is -0.0" => -0.0,
                "silence is a product" => x * 0.0,
                "silence is left as held" => s.held,
                _ => 0.0,
            }
        }

        /// The Rust's gains, narrowed, but exact where it rounds radians.
        fn gains(&self, s: &Stretch, cue: &Cue) -> Vec<f32> {
            let gains = rust::gains(rust::Command::Ambisonic(s.order as usize, cue.azimuth, cue.elevation));
            let mut narrowed: Vec<f32> = gains.into_iter().map(|g| if g.abs() < 2f64.powi(-50) { 0.0 } else { g as f32 }).collect();
            if self.is("a gain a step off") {
                narrowed[1] = f32::from_bits(narrowed[1].to_bits() ^ 1);
            }
            narrowed
        }

        fn play(&self, s: &Stretch, outputs: &mut [f32]) {
            let mut known: HashMap<u64, Vec<f32>> = HashMap::new();
            let frames = if self.is("the whole stride is played") { s.stride } else { s.frames.min(s.stride) };
            for n in 0..frames {
                let x = s.input.get(n as usize).copied().unwrap_or(0.0);
                let gains = self.voice(s, n).map(|cue| &*known.entry(cue.frame).or_insert_with(|| self.gains(s, cue)));
                for p in 0..(s.order as usize + 1).pow(2) {
                    let y = gains.map_or_else(|| self.silence(s, x), |g| g.get(p).unwrap_or(&0.0) * x);
                    outputs[p * s.stride as usize + n as usize] = y;
                }
            }
        }

        fn answer(&self, request: &[u8]) -> Answer {
            let s = read(request);
            let refusal = self.refusal(&s);
            let mut outputs = vec![s.held; s.outputs];
            if refusal == 0 {
                self.play(&s, &mut outputs);
            } else if self.is("silence on refusal") {
                outputs.fill(0.0);
            }
            let samples = if refusal == 0 || self.is("samples counted on refusal") { s.frames } else { 0 };
            let from = if self.is("outputs shown from the first") { 0 } else { s.shown.start };
            let shown = from..from + s.shown.len().min(16380);
            let bytes = [vec![refusal], samples.to_be_bytes().to_vec(), outputs[shown].iter().flat_map(|y| f32_bytes(*y)).collect()].concat();
            Answer { operation: SCRIPT, bytes }
        }

        /// What is wrong with the answers of the recorded sample.
        fn found(&self) -> Vec<String> {
            let mut found = Vec::new();
            cases(&mut Random::new(1, "script"), 400, &mut |case| found.extend((case.judge)(&self.answer(&case.request)).wrong));
            found
        }
    }

    #[test]
    fn the_right_program_passes() {
        assert_eq!(Program("").found(), Vec::<String>::new());
    }

    #[test]
    fn every_wrong_program_is_found() {
        for way in WRONG {
            assert!(!Program(way).found().is_empty(), "{way}");
        }
    }

    /// A gain that is another f32 and within the bound is right, but not in the whole alone, nor in a part alone.
    #[test]
    fn a_part_is_held_to_the_whole() {
        let mut random = Random::new(9, "parts");
        let cues = [Cue { frame: 0, azimuth: 1e-9, elevation: 0.0 }];
        let whole = Stretch::fitting(&mut random, &cues, 1, 0, 4, 4);
        let passes = |way: &'static str, case: &Case| (case.judge)(&Program(way).answer(&case.request)).wrong.is_none();
        let (right, other) = ("", "a gain a step off");
        for (first, then) in [(right, right), (other, other), (right, other), (other, right)] {
            let all = whole.clone().in_parts(&mut random, &[2]);
            assert!(passes(first, &all[0]));
            for case in &all[1..] {
                let is_refused = read(&case.request).refusal() != 0;
                assert_eq!(passes(then, case), is_refused || first == then, "{first}, {then}");
            }
        }
        // A part, and no answer to the whole.
        let all = whole.in_parts(&mut random, &[2]);
        assert!(!passes(right, all.last().unwrap()));
    }

    #[test]
    fn requests_have_the_form_or_none() {
        for count in [400, 1000] {
            let (mut all, mut long) = (0, 0);
            cases(&mut Random::new(1, "script"), count, &mut |case| {
                let arguments = &case.request[5..];
                assert!(has_form(arguments) && case.request[..5] == request(SCRIPT, arguments)[..5]);
                assert!(arguments.len() <= 65536);
                all += case.request.len() + 5 + 9 + 4 * counts(arguments)[4];
                long += usize::from(arguments.len() > 16384);
            });
            // What is recorded stays short.
            assert!(count > 400 || all < 400_000 && long < 6, "{all} bytes, {long} long");
            assert!(without_form(count).iter().all(|arguments| !has_form(arguments) && arguments.len() <= 65536));
        }
    }

    /// The cases that document 02's words decide, with the refusals written down.
    #[test]
    fn refusals_are_those_of_the_words() {
        let mut random = Random::new(2, "refusals");
        let list = |count: u64, step: u64| -> Vec<Cue> { (0..count).map(|i| Cue { frame: i * step, azimuth: 0.0, elevation: 0.0 }).collect() };
        let mut refusal = |cues: &[Cue], first: u64, frames: usize, stride: usize| Stretch::fitting(&mut random, cues, 1, first, frames, stride).refusal();
        let mut bad = list(257, 0);
        bad[256].azimuth = 181.0;
        let last = u64::MAX - 2;
        let told = [refusal(&list(2, 0), 0, 2, 2), refusal(&list(257, 1), 0, 2, 2), refusal(&list(257, 0), 0, 2, 2), refusal(&bad, 0, 2, 2)];
        assert_eq!(told, [11, 12, 11, 3]);
        assert_eq!([refusal(&[], last, 3, 3), refusal(&[], last, 4, 4), refusal(&[], u64::MAX, 0, 0), refusal(&[], u64::MAX, 1, 1)], [0, 5, 0, 0]);
        assert_eq!([refusal(&[], 0, 4096, 4096), refusal(&[], 0, 4097, 4097), refusal(&[], 0, 4097, 4096)], [0, 6, 5]);
        assert_eq!([refusal(&list(256, 1), 0, 1, 1), refusal(&[], 0, 0, 0), refusal(&[], 0, 0, 3)], [0, 0, 0]);
    }

    #[test]
    fn every_small_list_is_there() {
        let (rising, others) = small_lists();
        assert_eq!((rising.len(), others.len()), (1 + 7 + 21 + 35 + 35, 1 + 7 + 49 + 343 + 2401 - 99));
        assert!(rising.contains(&vec![0, 2, 3, 6]) && others.contains(&vec![2, 2]) && others.contains(&vec![6, 5, 4, 3]));
    }
}
