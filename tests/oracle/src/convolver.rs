//! The convolver, bit for bit with the Rust wherever the rings come from frames that were played, and with document 01's
//! ordered sums, written here, for any rings. Many blocks are made so that another order of summation would change a bit.
use crate::frame::{Case, Sink, exactly, f32_bytes, request, send};
use crate::random::Random;
use crate::rust::{self, Speaker};

pub const PROCESS: u8 = 17;
const RESET: u8 = 18;

/// How the sums are formed: as document 01 says, or otherwise in one way that algebra does not tell from it.
#[derive(Clone, Copy, PartialEq, Debug)]
enum Way {
    Right,
    ChannelsFalling,
    SignalNotNarrowed,
    OldestFirst,
    /// The newest back to the start, and the end back to the oldest, each summed from 0.0, and the two sums added.
    RunsApart,
    SpeakersFalling,
    OneSumForAllSpeakers,
    DividedByTheRoot,
}

const OTHER_WAYS: [Way; 7] =
    [Way::ChannelsFalling, Way::SignalNotNarrowed, Way::OldestFirst, Way::RunsApart, Way::SpeakersFalling, Way::OneSumForAllSpeakers, Way::DividedByTheRoot];

/// A call of `process`, with everything that it is lent.
#[derive(Clone)]
pub struct Call {
    pub position: u64,
    pub to_go: u64,
    pub channels: u64,
    pub speakers: u64,
    pub rows: u64,
    pub length: u64,
    pub frames: u64,
    pub stride: u64,
    pub row_of: [u64; 8],
    pub inputs: Vec<f32>,
    pub weights: Vec<f64>,
    pub taps: Vec<f32>,
    pub rings: Vec<f32>,
    pub ears: Vec<f32>,
}

/// What a call leaves and answers.
pub struct Outcome {
    pub refusal: u8,
    pub samples: u64,
    pub unsettled: u64,
    pub position: u64,
    pub to_go: u64,
    pub rings: Vec<f32>,
    pub ears: Vec<f32>,
}

/// Whether a list has a x b entries. The product may be larger than any length.
pub fn is_product(list: usize, a: u64, b: u64) -> bool {
    u128::from(a) * u128::from(b) == list as u128
}

impl Call {
    /// A call whose lengths fit, from rings at rest, with made samples, weights and taps.
    pub fn fitting(random: &mut Random, channels: usize, speakers: usize, rows: usize, length: usize, frames: usize, stride: usize) -> Self {
        Call {
            position: 0,
            to_go: 0,
            channels: channels as u64,
            speakers: speakers as u64,
            rows: rows as u64,
            length: length as u64,
            frames: frames as u64,
            stride: stride as u64,
            row_of: [0; 8].map(|_| random.below(rows as u64)),
            inputs: (0..channels * stride).map(|_| sample(random)).collect(),
            weights: (0..speakers * channels).map(|_| weight(random)).collect(),
            taps: (0..2 * rows * length).map(|_| tap(random)).collect(),
            rings: vec![0.0; speakers * length],
            ears: (0..2 * stride).map(|_| sample(random)).collect(),
        }
    }

    /// 2: a count that is not one, or a speaker without a row.
    pub fn is_misshapen(&self) -> bool {
        let counts = (1..=16).contains(&self.channels) && (1..=8).contains(&self.speakers) && (1..=8).contains(&self.rows);
        !counts || self.row_of[..self.speakers as usize].iter().any(|row| *row >= self.rows)
    }

    /// 4.
    pub fn is_length_wrong(&self) -> bool {
        !(1..=512).contains(&self.length)
    }

    /// 5, of the lists that are no planes.
    pub fn is_list_unfit(&self) -> bool {
        !is_product(self.rings.len(), self.speakers, self.length)
            || !is_product(self.weights.len(), self.speakers, self.channels)
            || !is_product(self.taps.len(), 2 * self.rows, self.length)
    }

    /// 7.
    pub fn has_nonfinite(&self) -> bool {
        self.weights.iter().any(|w| !w.is_finite()) || self.taps.iter().any(|t| !t.is_finite())
    }

    /// 8.
    pub fn is_desk_wrong(&self) -> bool {
        self.position >= self.length || self.to_go >= self.length
    }

    /// Refusals 2, 4, 5, 7, 8, in this order.
    fn refusal(&self) -> u8 {
        if self.is_misshapen() {
            2
        } else if self.is_length_wrong() {
            4
        } else if self.stride < self.frames
            || !is_product(self.inputs.len(), self.channels, self.stride)
            || !is_product(self.ears.len(), 2, self.stride)
            || self.is_list_unfit()
        {
            5
        } else if self.has_nonfinite() {
            7
        } else if self.is_desk_wrong() {
            8
        } else {
            0
        }
    }

    fn taps_of(&self, speaker: usize, ear: usize) -> &[f32] {
        let length = self.length as usize;
        let at = (2 * self.row_of[speaker] as usize + ear) * length;
        &self.taps[at..at + length]
    }

    /// The speakers of an accepted call, as the Rust takes them.
    pub fn speakers(&self) -> Vec<Speaker> {
        let channels = self.channels as usize;
        let speaker = |s: usize| Speaker {
            weights: self.weights[s * channels..(s + 1) * channels].to_vec(),
            left: self.taps_of(s, 0).to_vec(),
            right: self.taps_of(s, 1).to_vec(),
        };
        (0..self.speakers as usize).map(speaker).collect()
    }

    /// Document 01, 'Sums', or the same with one sum formed in another way.
    fn played(&self, way: Way) -> Outcome {
        let (channels, speakers, length, stride) = (self.channels as usize, self.speakers as usize, self.length as usize, self.stride as usize);
        let mut rings: Vec<f64> = self.rings.iter().map(|x| f64::from(*x)).collect();
        let mut ears = self.ears.clone();
        let (mut position, mut to_go, mut unsettled) = (self.position as usize, self.to_go as usize, 0);
        let root = (speakers as f64).sqrt();
        for n in 0..self.frames as usize {
            let mut damaged = false;
            for s in 0..speakers {
                let mut order: Vec<usize> = (0..channels).collect();
                if way == Way::ChannelsFalling {
                    order.reverse();
                }
                let signal = order.iter().fold(0.0, |sum, c| sum + f64::from(self.inputs[c * stride + n]) * self.weights[s * channels + c]);
                let narrowed = signal as f32;
                damaged |= !narrowed.is_finite();
                rings[s * length + position] = if way == Way::SignalNotNarrowed { signal } else { f64::from(narrowed) };
            }
            for ear in 0..2 {
                let mut order: Vec<usize> = (0..speakers).collect();
                if way == Way::SpeakersFalling {
                    order.reverse();
                }
                let mut total = 0.0;
                for s in order {
                    let term = |k: usize| rings[s * length + (position + length - k) % length] * f64::from(self.taps_of(s, ear)[k]);
                    let start = if way == Way::OneSumForAllSpeakers { total } else { 0.0 };
                    let run = |from: usize, to: usize| (from..to).fold(0.0, |sum, k| sum + term(k));
                    let part = match way {
                        Way::OldestFirst => (0..length).rev().fold(start, |sum, k| sum + term(k)),
                        Way::RunsApart => run(0, position + 1) + run(position + 1, length),
                        _ => (0..length).fold(start, |sum, k| sum + term(k)),
                    };
                    total = if way == Way::OneSumForAllSpeakers { part } else { total + part };
                }
                ears[ear * stride + n] = (if way == Way::DividedByTheRoot { total / root } else { total * (1.0 / root) }) as f32;
            }
            // A damaged frame is unsettled, and so are the L - 1 that follow.
            unsettled += u64::from(damaged || to_go > 0);
            to_go = if damaged { length - 1 } else { to_go.saturating_sub(1) };
            position = (position + 1) % length;
        }
        Outcome {
            refusal: 0,
            samples: self.frames,
            unsettled,
            position: position as u64,
            to_go: to_go as u64,
            rings: rings.iter().map(|x| *x as f32).collect(),
            ears,
        }
    }

    fn outcome(&self) -> Outcome {
        match self.refusal() {
            0 => self.played(Way::Right),
            refusal => {
                Outcome { refusal, samples: 0, unsettled: 0, position: self.position, to_go: self.to_go, rings: self.rings.clone(), ears: self.ears.clone() }
            }
        }
    }

    /// An accepted call, as document 01 says.
    pub fn heard(&self) -> Outcome {
        self.played(Way::Right)
    }

    fn case(&self) -> Case {
        self.judged_by(&self.outcome())
    }

    /// What stands before the lists in a request: their lengths, the desk, the counts, and the speakers' rows.
    pub fn head(&self) -> Vec<u8> {
        let lengths = [self.inputs.len(), self.weights.len(), self.taps.len(), self.rings.len(), self.ears.len()];
        let mut bytes: Vec<u8> = lengths.iter().flat_map(|n| (*n as u16).to_be_bytes()).collect();
        let numbers = [self.position, self.to_go, self.channels, self.speakers, self.rows, self.length, self.frames, self.stride];
        bytes.extend(numbers.iter().chain(&self.row_of).flat_map(|n| n.to_be_bytes()));
        bytes
    }

    pub fn lists(&self) -> Vec<u8> {
        let bits = |list: &[f32]| -> Vec<u8> { list.iter().flat_map(|x| x.to_bits().to_be_bytes()).collect() };
        let mut bytes = bits(&self.inputs);
        bytes.extend(self.weights.iter().flat_map(|w| w.to_bits().to_be_bytes()));
        bytes.extend([&self.taps, &self.rings, &self.ears].iter().flat_map(|list| bits(list)));
        bytes
    }

    fn judged_by(&self, right: &Outcome) -> Case {
        let arguments = [self.head(), self.lists()].concat();
        let mut answer = vec![right.refusal];
        answer.extend([right.samples, right.unsettled, right.position, right.to_go].iter().flat_map(|n| n.to_be_bytes()));
        answer.extend(right.rings.iter().chain(&right.ears).flat_map(|x| f32_bytes(*x)));
        exactly(request(PROCESS, &arguments), PROCESS, answer)
    }

    /// A line from rings at rest, cut into blocks as it comes, with refused calls between. The ears are those of the Rust's own
    /// convolver, which plays the whole line at once; rings, count and desk, which it has not or does not show, are as
    /// document 01 has them, and handed on from call to call.
    fn session(&self, random: &mut Random, blocks: usize) -> Vec<Case> {
        let channels = self.channels as usize;
        let mut calls = vec![self.clone()];
        calls.extend((1..blocks).map(|_| self.next_block(random)));
        let played = |call: &Call, c: usize| call.inputs[c * call.stride as usize..][..call.frames as usize].to_vec();
        let line: Vec<Vec<f32>> = (0..channels).map(|c| calls.iter().flat_map(|call| played(call, c)).collect()).collect();
        let total = line[0].len();
        let heard = rust::Convolver::new(&self.speakers()).process(&line, [vec![0.0; total], vec![0.0; total]]);
        let (mut all, mut at) = (Vec::new(), 0);
        let mut state = (self.position, self.to_go, self.rings.clone());
        for mut call in calls {
            (call.position, call.to_go, call.rings) = state;
            let (frames, stride) = (call.frames as usize, call.stride as usize);
            let mut right = call.outcome();
            right.ears = call.ears.clone();
            for (ear, plane) in heard.iter().enumerate() {
                right.ears[ear * stride..ear * stride + frames].copy_from_slice(&plane[at..at + frames]);
            }
            all.push(call.judged_by(&right));
            at += frames;
            state = (right.position, right.to_go, right.rings);
            (call.position, call.to_go, call.rings) = state.clone();
            if random.below(2) == 0 {
                all.push(call.refused(random).case());
            }
        }
        all
    }

    /// The same set-up with other frames, and another number of them.
    fn next_block(&self, random: &mut Random) -> Call {
        let frames = random.below(6);
        let stride = frames + random.below(2);
        let mut next = self.clone();
        (next.frames, next.stride) = (frames, stride);
        next.inputs = (0..self.channels * stride).map(|_| sample(random)).collect();
        next.ears = (0..2 * stride).map(|_| sample(random)).collect();
        next
    }

    /// The same call with something in it that is refused: 2, 4, 5, 7 or 8.
    fn refused(&self, random: &mut Random) -> Call {
        let mut call = self.clone();
        match random.below(6) {
            0 => call.row_of[0] = call.rows,
            1 => call.length = 513,
            2 => call.rings.push(1.0),
            3 => call.weights[0] = f64::NAN,
            4 => call.taps[0] = f32::INFINITY,
            _ => call.position = call.length,
        }
        assert!(call.refusal() != 0);
        call
    }
}

/// A sample of any pattern now and then, else of a size where sums round.
pub fn sample(random: &mut Random) -> f32 {
    match random.below(40) {
        0 => f32::from_bits(random.bits() as u32),
        1 => f32::from_bits(random.bits() as u32 & 0x8000_0000),
        _ => f32::from_bits(random.bits() as u32 & 0x807f_ffff | (115 + random.below(25) as u32) << 23),
    }
}

fn weight(random: &mut Random) -> f64 {
    match random.below(20) {
        0 => f64::from_bits(random.bits() & 1 << 63),
        1 => 1.0,
        _ => f64::from_bits(random.bits() & 0x800f_ffff_ffff_ffff | (1003 + random.below(40)) << 52),
    }
}

fn tap(random: &mut Random) -> f32 {
    match random.below(20) {
        0 => f32::from_bits(random.bits() as u32 & 0x8000_0000),
        1 => f32::from_bits(random.bits() as u32 & 0xbfff_ffff),
        _ => f32::from_bits(random.bits() as u32 & 0x807f_ffff | (107 + random.below(40) as u32) << 23),
    }
}

/// Factors of terms of which two are large and cancel, and the others are so much smaller that each sum with a large one
/// rounds them, and not so small that it loses them: what is left shows in an f32 in which order they were added.
pub fn cancelling(random: &mut Random, count: usize) -> Vec<(f32, f32)> {
    let mut of_size = |field: u64| f32::from_bits(random.bits() as u32 & 0x807f_ffff | (field as u32) << 23);
    let mut terms: Vec<(f32, f32)> = (0..count).map(|_| (of_size(127 - 18), of_size(127 - 16))).collect();
    let large = (of_size(127), of_size(127));
    let i = random.below(count as u64) as usize;
    let j = (i + 1 + random.below(count as u64 - 1) as usize) % count;
    terms[i] = large;
    terms[j] = (-large.0, large.1);
    terms
}

/// A call whose ears tell document 01's sums from those formed in one other way: the terms that cancel stand in a frame's
/// channels, in a ring, or in the rings of several speakers.
fn telling(random: &mut Random, way: Way) -> Call {
    loop {
        let call = match way {
            Way::Right | Way::SignalNotNarrowed => Call::fitting(random, 2, 2, 2, 2, 1, 1),
            Way::DividedByTheRoot => at_a_tie(random),
            Way::ChannelsFalling => {
                let terms = cancelling(random, 5);
                let mut call = Call::fitting(random, 5, 1, 1, 1, 1, 1);
                call.inputs = terms.iter().map(|t| t.0).collect();
                call.weights = terms.iter().map(|t| f64::from(t.1)).collect();
                call
            }
            Way::OldestFirst => {
                let terms = cancelling(random, 5);
                let mut call = Call::fitting(random, 1, 1, 1, 5, 5, 5);
                call.weights = vec![1.0];
                call.inputs = terms.iter().rev().map(|t| t.0).collect();
                call.taps = terms.iter().chain(&terms).map(|t| t.1).collect();
                call
            }
            Way::RunsApart => {
                // From rest the ring is one run until it is full. Two frames later two cells are the first run, and the
                // other three the second.
                let terms = cancelling(random, 5);
                let mut call = Call::fitting(random, 1, 1, 1, 5, 7, 7);
                call.weights = vec![1.0];
                call.inputs.truncate(2);
                call.inputs.extend(terms.iter().rev().map(|t| t.0));
                call.taps = terms.iter().chain(&terms).map(|t| t.1).collect();
                call
            }
            Way::SpeakersFalling | Way::OneSumForAllSpeakers => {
                // Speaker s has the terms 2 s and 2 s + 1: its own channel's newest sample and the one before.
                let terms = cancelling(random, 8);
                let mut call = Call::fitting(random, 4, 4, 4, 2, 2, 2);
                call.row_of = [0, 1, 2, 3, 0, 0, 0, 0];
                call.weights = (0..16).map(|i| f64::from(u8::from(i % 5 == 0))).collect();
                call.inputs = terms.chunks(2).flat_map(|t| [t[1].0, t[0].0]).collect();
                call.taps = terms.chunks(2).flat_map(|t| [t[0].1, t[1].1, t[0].1, t[1].1]).collect();
                call
            }
        };
        let bits = |ears: &[f32]| ears.iter().map(|x| f32_bytes(*x)).collect::<Vec<_>>();
        if way == Way::Right || bits(&call.played(Way::Right).ears) != bits(&call.played(way).ears) {
            return call;
        }
    }
}

/// A call of three speakers of which one sounds, with three taps of 1.0 over three signals that add up, exactly, to a
/// number whose product with 1.0/root(3.0) lies about the middle between two f32.
fn at_a_tie(random: &mut Random) -> Call {
    let mut call = Call::fitting(random, 1, 3, 1, 3, 3, 3);
    let middle = f64::from_bits(random.below(1 << 23) << 29 | 1 << 28 | 1023 << 52);
    let sum = f64::from_bits((middle * 3f64.sqrt()).to_bits() + random.below(5) - 2);
    let high = f64::from(f32::from_bits((sum as f32).to_bits() - 1));
    let next = f64::from(f32::from_bits(((sum - high) as f32).to_bits().saturating_sub(1)));
    let last = sum - high - next;
    call.inputs = vec![last as f32, next as f32, high as f32];
    call.weights = vec![1.0, 0.0, 0.0];
    call.taps = vec![1.0; 6];
    call
}

/// What the cells of a short ring are made of: two that cancel, one that is lost beside either of them, and a kin of it.
const CELLS: [f32; 4] = [BIG, 1.0, -BIG, 0.5];
const BIG: f32 = (1u64 << 60) as f32;

/// One speaker that hears one channel as it is. Once the frame is in, its ring is `ring`, of which the cell at `newest` is the
/// frame. The left ear adds the cells, the right one has taps of changing signs.
fn short_ring(ring: &[f32], newest: usize) -> Call {
    let mut rings = ring.to_vec();
    // What the frame is put over is in no sum.
    rings[newest] = 3.0;
    let right = (0..ring.len()).map(|k| if k % 2 == 0 { 1.0 } else { -1.0 });
    Call {
        position: newest as u64,
        to_go: 0,
        channels: 1,
        speakers: 1,
        rows: 1,
        length: ring.len() as u64,
        frames: 1,
        stride: 1,
        row_of: [0; 8],
        inputs: vec![ring[newest]],
        weights: vec![1.0],
        taps: ring.iter().map(|_| 1.0).chain(right).collect(),
        rings,
        ears: vec![2.0, 2.0],
    }
}

/// Every ring of so many cells out of a set, at every place of the newest.
fn every_ring(length: usize, cells: &[f32]) -> Vec<Call> {
    let ring = |mut which: usize| -> Vec<f32> {
        let next = |_| {
            let cell = cells[which % cells.len()];
            which /= cells.len();
            cell
        };
        (0..length).map(next).collect()
    };
    let rings = (0..cells.len().pow(length as u32)).map(ring);
    rings.flat_map(|ring| (0..length).map(move |newest| short_ring(&ring, newest))).collect()
}

/// A NaN and both infinities in every cell of a ring, at every place of the newest.
fn every_bad_cell(length: usize) -> Vec<Call> {
    let mut all = Vec::new();
    for bad in [f32::NAN, f32::INFINITY, f32::NEG_INFINITY] {
        for place in 0..length {
            let mut ring = CELLS[..length].to_vec();
            ring[place] = bad;
            all.extend((0..length).map(|newest| short_ring(&ring, newest)));
        }
    }
    all
}

/// Short rings at every split into two runs. Where few are asked for, three cells of three kinds: every run of one cell and of
/// two, and the ring 2^60, 1, -2^60, whose sum from its first cell on is 1.0.
fn at_every_split(count: usize) -> Vec<Call> {
    if count < 1000 {
        return (1..=3).flat_map(|length| every_ring(length, &CELLS[..3])).chain((1..=2).flat_map(every_bad_cell)).collect();
    }
    let rings = (1..=4).flat_map(|length| every_ring(length, &CELLS)).chain(every_ring(5, &CELLS[..3]));
    rings.chain((1..=4).flat_map(every_bad_cell)).collect()
}

/// Calls that are refused, for one reason and for several, and the ends of what is accepted.
fn at_the_ends(random: &mut Random) -> Vec<Case> {
    let mut all = Vec::new();
    let mut with = |change: &dyn Fn(&mut Call)| {
        let mut call = Call::fitting(random, 2, 3, 4, 5, 2, 3);
        change(&mut call);
        all.push(call.case());
    };
    for n in [0, 1, 2, 3, 4, 5, 8, 9, 16, 17, 511, 512, 513, 1 << 32, 1 << 63, u64::MAX] {
        with(&|c| c.channels = n);
        with(&|c| c.speakers = n);
        with(&|c| c.rows = n);
        with(&|c| c.length = n);
        with(&|c| c.frames = n);
        with(&|c| c.stride = n);
        with(&|c| c.position = n);
        with(&|c| c.to_go = n);
        with(&|c| c.row_of[0] = n);
        with(&|c| c.row_of[2] = n);
        with(&|c| c.row_of[3] = n);
        with(&|c| (c.length, c.position) = (n, n));
    }
    let lists: [&dyn Fn(&mut Call); 10] = [
        &|c| _ = c.inputs.pop(),
        &|c| _ = c.weights.pop(),
        &|c| _ = c.taps.pop(),
        &|c| _ = c.rings.pop(),
        &|c| _ = c.ears.pop(),
        &|c| c.inputs.push(1.0),
        &|c| c.weights.push(1.0),
        &|c| c.taps.push(1.0),
        &|c| c.rings.push(1.0),
        &|c| c.ears.push(1.0),
    ];
    for change in lists {
        with(change);
        with(&|c| {
            change(c);
            c.weights[0] = f64::NAN;
        });
        with(&|c| {
            change(c);
            c.length = 0;
        });
    }
    for bad in [f32::NAN, f32::INFINITY, f32::NEG_INFINITY] {
        for place in [0, 4, 5, 39] {
            with(&|c| c.taps[place] = bad);
            with(&|c| (c.taps[place], c.frames) = (bad, 0));
            with(&|c| (c.taps[place], c.position) = (bad, 5));
        }
        for place in [0, 3, 5] {
            with(&|c| c.weights[place] = f64::from(bad));
        }
        with(&|c| c.rings[7] = bad);
        with(&|c| c.inputs[0] = bad);
        with(&|c| c.inputs[5] = bad);
    }
    // Finite samples whose signal is infinite.
    with(&|c| (c.inputs[0], c.weights[0]) = (f32::MAX, 2.0));
    with(&|c| (c.inputs[0], c.weights[0], c.to_go) = (f32::MAX, 1e300, 4));
    all
}

pub fn process(random: &mut Random, count: usize, sink: &mut Sink) {
    send(sink, at_the_ends(random));
    send(sink, at_every_split(count).iter().map(Call::case));
    for (channels, speakers, rows, length, frames, stride) in [
        (1, 1, 1, 1, 1, 1),
        (1, 1, 1, 2, 3, 3),
        (6, 6, 8, 4, 5, 7),
        (8, 8, 8, 3, 4, 4),
        (16, 8, 8, 2, 3, 3),
        (1, 1, 1, 1, 0, 0),
        (2, 2, 2, 3, 0, 4),
        (1, 1, 1, 511, 3, 3),
        (1, 1, 1, 512, 3, 3),
    ] {
        let call = Call::fitting(random, channels, speakers, rows, length, frames, stride);
        send(sink, call.session(random, 2));
    }
    if count >= 1000 {
        for length in [511, 512] {
            let largest = Call::fitting(random, 16, 8, 8, length, 4, 4);
            send(sink, largest.session(random, 4));
        }
    }
    for _ in 0..(if count < 1000 { count / 40 } else { count / 9 }) {
        let (channels, speakers, rows) = (1 + random.below(16) as usize, 1 + random.below(8) as usize, 1 + random.below(8) as usize);
        let length = 1 + (random.below(40) >> random.below(5)) as usize;
        let frames = random.below(5) as usize;
        let stride = frames + random.below(2) as usize;
        let call = Call::fitting(random, channels, speakers, rows, length, frames, stride);
        let blocks = 1 + random.below(5) as usize;
        send(sink, call.session(random, blocks));
        // Any rings, any place in them.
        let mut call = Call::fitting(random, channels.min(3), speakers, rows, length, frames, stride);
        call.rings = call.rings.iter().map(|_| sample(random)).collect();
        (call.position, call.to_go) = (random.below(call.length), random.below(call.length));
        sink(call.case());
        for way in OTHER_WAYS {
            send(sink, telling(random, way).session(random, 1));
        }
    }
}

pub fn reset(random: &mut Random, count: usize, sink: &mut Sink) {
    let mut one = |speakers: u64, length: u64, cells: usize, random: &mut Random| {
        let (position, to_go) = (random.bits() >> random.below(64), random.bits() >> random.below(64));
        let rings: Vec<f32> = (0..cells).map(|_| f32::from_bits(random.bits() as u32)).collect();
        let refusal = if !(1..=8).contains(&speakers) {
            2
        } else if !(1..=512).contains(&length) {
            4
        } else if u128::from(speakers) * u128::from(length) != cells as u128 {
            5
        } else {
            0
        };
        let mut arguments = (cells as u16).to_be_bytes().to_vec();
        arguments.extend([position, to_go, speakers, length].iter().flat_map(|n| n.to_be_bytes()));
        arguments.extend(rings.iter().flat_map(|x| x.to_bits().to_be_bytes()));
        let (position, to_go, rings) = if refusal == 0 { (0, 0, vec![0.0; cells]) } else { (position, to_go, rings) };
        let mut answer = vec![refusal];
        answer.extend([position, to_go].iter().flat_map(|n| n.to_be_bytes()));
        answer.extend(rings.iter().flat_map(|x| f32_bytes(*x)));
        sink(exactly(request(RESET, &arguments), RESET, answer));
    };
    for speakers in [0, 1, 2, 8, 9, 1 << 32, u64::MAX] {
        for length in [0, 1, 3, 512, 513, 1 << 61, u64::MAX] {
            let fits = speakers.saturating_mul(length).min(4100) as usize;
            for cells in [fits, fits.saturating_sub(1), fits + 1] {
                if cells < 100 || (count >= 1000 && cells <= 4100) {
                    one(speakers, length, cells, random);
                }
            }
        }
    }
    for _ in 0..(if count < 1000 { count / 20 } else { count }) {
        let (speakers, length) = (1 + random.below(8), 1 + random.below(30));
        one(speakers, length, (speakers * length) as usize, random);
    }
}

#[cfg(test)]
mod tests {
    use super::*;

    /// Document 01's sums as they are written here, and the Rust's.
    #[test]
    fn the_rust_sums_as_document_01_says() {
        let mut random = Random::new(5, "sums");
        for _ in 0..300 {
            let (channels, speakers, length, way) = (1 + random.below(16), 1 + random.below(8), 1 + random.below(9), random.below(14) as usize);
            let call = match OTHER_WAYS.get(way) {
                Some(way) => telling(&mut random, *way),
                None => Call::fitting(&mut random, channels as usize, speakers as usize, 3, length as usize, 4, 5),
            };
            let mut convolver = rust::Convolver::new(&call.speakers());
            let (frames, stride) = (call.frames as usize, call.stride as usize);
            let inputs: Vec<Vec<f32>> = call.inputs.chunks(stride).map(|p| p[..frames].to_vec()).collect();
            let ears = convolver.process(&inputs, [vec![0.0; frames], vec![0.0; frames]]);
            let mine = call.played(Way::Right).ears;
            for ear in 0..2 {
                let same = ears[ear].iter().zip(&mine[ear * stride..]).all(|(a, b)| f32_bytes(*a) == f32_bytes(*b));
                assert!(same);
            }
        }
    }

    /// The left ear of a ring whose newest cell is the first: 2^60 - 2^60 + 1. The other two ways lose the 1.
    #[test]
    fn a_ring_of_three_tells_the_order_and_the_runs() {
        let ring = [0x5d80_0000, 0x3f80_0000, 0xdd80_0000].map(f32::from_bits);
        let ears = |way: Way| short_ring(&ring, 0).played(way).ears;
        assert_eq!(ears(Way::Right), [1.0, 2f32.powi(61)]);
        assert_eq!(ears(Way::RunsApart)[0], 0.0);
        assert_eq!(ears(Way::OldestFirst)[0], 0.0);
    }

    /// The short rings have that one, and tell each of the two other ways from the right one wherever a ring of that length can:
    /// a second run of one cell is the same alone.
    #[test]
    fn short_rings_tell_the_order_and_the_runs() {
        let told = |calls: &[Call], way: Way| calls.iter().filter(|call| call.played(way).ears != call.played(Way::Right).ears).count();
        for newest in 0..5 {
            for length in newest + 1..=5 {
                let calls: Vec<Call> = every_ring(length, &CELLS[..3]).into_iter().filter(|call| call.position == newest as u64).collect();
                assert_eq!(calls.len(), 3usize.pow(length as u32));
                assert_eq!(told(&calls, Way::RunsApart) > 0, length - newest > 2, "{length} {newest}");
                assert_eq!(told(&calls, Way::OldestFirst) > 0, length > 2, "{length} {newest}");
            }
        }
        for (count, all) in [(400, 102 + 15), (1000, 1252 + 1215 + 90)] {
            let calls = at_every_split(count);
            assert_eq!(calls.len(), all);
            assert!(calls.iter().all(|call| call.refusal() == 0));
            let example = |call: &&Call| (call.position, &call.inputs[..], &call.rings[..]) == (0, &[BIG][..], &[3.0, 1.0, -BIG][..]);
            assert_eq!(calls.iter().filter(example).count(), 1);
        }
    }
}
