//! A recorded line and what its replay answers (document 02, E5). What the stamps say is read here in i64 arithmetic, with nothing
//! that wraps. The ears of a line from rest are those of the Rust's own convolver with its `reset`, bit for bit; the counts, the rings
//! and the desk, and the ears from any other rings, are as documents 01 and 02 have them.
use crate::convolver::{Call, is_product, sample};
use crate::frame::{Case, exactly, f32_bytes, request};
use crate::random::Random;
use crate::rust::Convolver;
use std::ops::Range;

pub const REPLAY: u8 = 22;

/// "a 32-bit stamp that rolls over to zero".
pub const TURN: i64 = 1 << 32;
const HALF: i64 = TURN / 2;

/// What happens: a recorded frame is fed, or silence, or the convolver is reset.
#[derive(Clone, Copy, PartialEq, Debug)]
pub enum Event {
    Frame(usize),
    Silence,
    Reset,
}

/// What a recording comes to.
pub struct Reading {
    pub events: Vec<Event>,
    pub late: u64,
    pub silent: u64,
    pub resets: u64,
    pub expected: Option<u32>,
}

/// "A frame is next, ahead or late by the wrapped difference from the expected stamp: 0 is next, 1 to 2^31 - 1 is ahead, the rest is
/// late. Late frames are dropped and counted. An ahead frame has silence put in for the missing ones, at most 4,096; a larger gap
/// resets the convolver and starts at that stamp. The first frame sets the stamp."
pub fn read(expected: Option<u32>, stamps: &[u32]) -> Reading {
    let mut read = Reading { events: Vec::new(), late: 0, silent: 0, resets: 0, expected };
    for (i, stamp) in stamps.iter().enumerate() {
        match read.expected.map_or(0, |expected| (i64::from(*stamp) - i64::from(expected)).rem_euclid(TURN)) {
            0 => {}
            missing @ 1..=4096 => {
                read.silent += missing as u64;
                read.events.extend((0..missing).map(|_| Event::Silence));
            }
            4097..HALF => {
                read.resets += 1;
                read.events.push(Event::Reset);
            }
            _ => {
                read.late += 1;
                continue;
            }
        }
        read.events.push(Event::Frame(i));
        read.expected = Some((i64::from(*stamp) + 1).rem_euclid(TURN) as u32);
    }
    read
}

impl Reading {
    /// How many frames come out.
    pub fn out(&self) -> usize {
        self.events.iter().filter(|event| **event != Event::Reset).count()
    }
}

/// A call of `replay`, with everything that it is lent. The stride of its call is that of stamps and inputs, its ears are those lent here.
#[derive(Clone)]
pub struct Line {
    pub call: Call,
    pub stamps: Vec<u32>,
    pub ear_stride: u64,
    /// As it stands in a request: 0 where no stamp is expected, any other number where one is, and the stamp.
    pub expected: (u8, u32),
}

/// What a call leaves and answers.
pub struct Outcome {
    pub refusal: u8,
    pub samples: u64,
    pub unsettled: u64,
    pub late: u64,
    pub silent: u64,
    pub resets: u64,
    pub position: u64,
    pub to_go: u64,
    pub expected: Option<u32>,
    pub rings: Vec<f32>,
    pub ears: Vec<f32>,
}

impl Outcome {
    pub fn bytes(&self) -> Vec<u8> {
        let mut bytes = vec![self.refusal];
        let numbers = [self.samples, self.unsettled, self.late, self.silent, self.resets, self.position, self.to_go];
        bytes.extend(numbers.iter().flat_map(|n| n.to_be_bytes()));
        bytes.push(u8::from(self.expected.is_some()));
        bytes.extend(self.expected.unwrap_or(0).to_be_bytes());
        bytes.extend(self.rings.iter().chain(&self.ears).flat_map(|x| f32_bytes(*x)));
        bytes
    }
}

/// Channels, speakers, rows, L.
pub type Shape = (usize, usize, usize, usize);

pub const SMALL: Shape = (1, 1, 1, 2);

impl Line {
    /// A line from rest whose lists are as long as they have to be, with made samples, weights and taps.
    pub fn of(random: &mut Random, shape: Shape, expected: Option<u32>, stamps: &[u32]) -> Self {
        Line::longer(random, shape, expected, stamps, 0, 0)
    }

    /// The same with planes that are longer: stamps and samples beyond the frames are there, and do not count.
    pub fn longer(random: &mut Random, shape: Shape, expected: Option<u32>, stamps: &[u32], more: usize, more_ears: usize) -> Self {
        let (channels, speakers, rows, length) = shape;
        let mut call = Call::fitting(random, channels, speakers, rows, length, stamps.len(), stamps.len() + more);
        let ear_stride = read(expected, stamps).out() + more_ears;
        call.ears = (0..2 * ear_stride).map(|_| sample(random)).collect();
        let expected = match expected {
            None => (0, random.bits() as u32),
            Some(stamp) => (1 + random.below(255) as u8, stamp),
        };
        let beyond: Vec<u32> = (0..more).map(|_| random.bits() as u32).collect();
        Line { call, stamps: [stamps, &beyond].concat(), ear_stride: ear_stride as u64, expected }
    }

    pub fn expected(&self) -> Option<u32> {
        (self.expected.0 != 0).then_some(self.expected.1)
    }

    pub fn expect(&mut self, expected: Option<u32>) {
        self.expected = (u8::from(expected.is_some()), expected.unwrap_or(0));
    }

    /// What the recorded frames come to, as many as there are.
    pub fn read(&self) -> Reading {
        read(self.expected(), &self.stamps[..self.call.frames as usize])
    }

    /// 5, of the planes. What comes out is told by the stamps alone.
    fn is_plane_unfit(&self) -> bool {
        let call = &self.call;
        call.stride < call.frames
            || !is_product(self.stamps.len(), 1, call.stride)
            || !is_product(call.inputs.len(), call.channels, call.stride)
            || !is_product(call.ears.len(), 2, self.ear_stride)
            || self.ear_stride < self.read().out() as u64
    }

    /// Refusals 2, 4, 5, 7, 8, in this order.
    pub fn refusal(&self) -> u8 {
        let call = &self.call;
        if call.is_misshapen() {
            2
        } else if call.is_length_wrong() {
            4
        } else if self.is_plane_unfit() || call.is_list_unfit() {
            5
        } else if call.has_nonfinite() {
            7
        } else if call.is_desk_wrong() {
            8
        } else {
            0
        }
    }

    /// The frames as they are fed between resets, as a block of the convolver.
    fn block(&self, fed: &[Event]) -> Call {
        let (frames, stride) = (fed.len() as u64, self.call.stride as usize);
        let sample = |c: usize, event: &Event| if let Event::Frame(i) = event { self.call.inputs[c * stride + i] } else { 0.0 };
        let inputs = (0..self.call.channels as usize).flat_map(|c| fed.iter().map(move |event| sample(c, event))).collect();
        Call { frames, stride: frames, inputs, ears: vec![0.0; 2 * fed.len()], ..self.call.clone() }
    }

    /// The ears lent, after frames have come out.
    fn with_ears(&self, heard: [Vec<f32>; 2]) -> Vec<f32> {
        let mut ears = self.call.ears.clone();
        for (ear, plane) in heard.iter().enumerate() {
            ears[ear * self.ear_stride as usize..][..plane.len()].copy_from_slice(plane);
        }
        ears
    }

    /// What is played of a reading, by document 01's words. The ears are what comes out, left and then right.
    pub fn played(&self, read: &Reading) -> Outcome {
        let (mut position, mut to_go, mut rings) = (self.call.position, self.call.to_go, self.call.rings.clone());
        let (mut unsettled, mut heard) = (0, [Vec::new(), Vec::new()]);
        for (i, fed) in read.events.split(|event| *event == Event::Reset).enumerate() {
            if i > 0 {
                (position, to_go, rings) = (0, 0, vec![0.0; rings.len()]);
            }
            let block = Call { position, to_go, rings, ..self.block(fed) }.heard();
            (position, to_go, rings) = (block.position, block.to_go, block.rings);
            unsettled += block.unsettled;
            for (ear, plane) in heard.iter_mut().enumerate() {
                plane.extend(&block.ears[ear * fed.len()..][..fed.len()]);
            }
        }
        Outcome {
            refusal: 0,
            samples: read.out() as u64,
            unsettled,
            late: read.late,
            silent: read.silent,
            resets: read.resets,
            position,
            to_go,
            expected: read.expected,
            rings,
            ears: heard.concat(),
        }
    }

    pub fn refused(&self, refusal: u8) -> Outcome {
        Outcome {
            refusal,
            samples: 0,
            unsettled: 0,
            late: 0,
            silent: 0,
            resets: 0,
            position: self.call.position,
            to_go: self.call.to_go,
            expected: self.expected(),
            rings: self.call.rings.clone(),
            ears: self.call.ears.clone(),
        }
    }

    /// What the Rust plays of an accepted line, its convolver having played what came before.
    fn heard(&self, convolver: &mut Convolver) -> [Vec<f32>; 2] {
        let mut heard = [Vec::new(), Vec::new()];
        for (i, fed) in self.read().events.split(|event| *event == Event::Reset).enumerate() {
            if i > 0 {
                convolver.reset();
            }
            let block = self.block(fed);
            let planes: Vec<Vec<f32>> = block.inputs.chunks(fed.len().max(1)).map(<[f32]>::to_vec).collect();
            let ears = convolver.process(&planes, [vec![0.0; fed.len()], vec![0.0; fed.len()]]);
            heard.iter_mut().zip(ears).for_each(|(all, ear)| all.extend(ear));
        }
        heard
    }

    /// What is right, with the ears of the Rust where there is a convolver that has played what came before.
    pub fn outcome(&self, convolver: Option<&mut Convolver>) -> Outcome {
        let refusal = self.refusal();
        if refusal != 0 {
            return self.refused(refusal);
        }
        let right = self.played(&self.read());
        let heard = match convolver {
            Some(convolver) => self.heard(convolver),
            None => [0, 1].map(|ear| right.ears[ear * right.samples as usize..][..right.samples as usize].to_vec()),
        };
        Outcome { ears: self.with_ears(heard), ..right }
    }

    fn is_at_rest(&self) -> bool {
        self.call.rings.iter().all(|x| x.to_bits() == 0)
    }

    /// A call by itself.
    pub fn case(&self) -> Case {
        if self.refusal() == 0 && self.is_at_rest() {
            self.judged_by(&self.outcome(Some(&mut Convolver::new(&self.call.speakers()))))
        } else {
            self.judged_by(&self.outcome(None))
        }
    }

    /// The arguments, so many stamps being said to be lent.
    pub fn arguments(&self, stamps: u16) -> Vec<u8> {
        let mut arguments = self.call.head();
        arguments.extend(stamps.to_be_bytes());
        arguments.extend(self.ear_stride.to_be_bytes());
        arguments.push(self.expected.0);
        arguments.extend(self.expected.1.to_be_bytes());
        arguments.extend(self.call.lists());
        arguments.extend(self.stamps.iter().flat_map(|stamp| stamp.to_be_bytes()));
        arguments
    }

    pub fn judged_by(&self, right: &Outcome) -> Case {
        exactly(request(REPLAY, &self.arguments(self.stamps.len() as u16)), REPLAY, right.bytes())
    }

    /// A line from rest in parts that end at the cuts, desk, rings and what is expected handed on from call to call, with refused calls
    /// between. The ears are those of the Rust's one convolver, which plays on from part to part.
    pub fn in_parts(&self, random: &mut Random, cuts: &[usize]) -> Vec<Case> {
        let mut convolver = Convolver::new(&self.call.speakers());
        let (mut all, mut state) = (Vec::new(), self.clone());
        let ends = cuts.iter().copied().chain([self.call.frames as usize]);
        for (from, to) in [0].into_iter().chain(cuts.iter().copied()).zip(ends) {
            let part = self.part(random, &state, from..to);
            let right = part.outcome(Some(&mut convolver));
            all.push(part.judged_by(&right));
            state = part;
            (state.call.position, state.call.to_go, state.call.rings) = (right.position, right.to_go, right.rings);
            state.expect(right.expected);
            if random.below(2) == 0 {
                all.push(state.with_a_fault(random).case());
            }
        }
        all
    }

    /// The frames of a span, from where the calls before have come to, in planes of any length.
    pub fn part(&self, random: &mut Random, state: &Line, span: Range<usize>) -> Line {
        let call = &self.call;
        let shape = (call.channels as usize, call.speakers as usize, call.rows as usize, call.length as usize);
        let (more, more_ears) = (random.below(3) as usize, random.below(3) as usize);
        let mut part = Line::longer(random, shape, state.expected(), &self.stamps[span.clone()], more, more_ears);
        let (stride, own) = (call.stride as usize, part.call.stride as usize);
        for c in 0..call.channels as usize {
            part.call.inputs[c * own..][..span.len()].copy_from_slice(&call.inputs[c * stride..][span.clone()]);
        }
        let own = part.call;
        part.call = Call { frames: own.frames, stride: own.stride, inputs: own.inputs, ears: own.ears, ..state.call.clone() };
        part
    }

    /// The same with something in it that is refused.
    fn with_a_fault(&self, random: &mut Random) -> Line {
        loop {
            let mut faulty = self.clone();
            FAULTS[random.below(FAULTS.len() as u64) as usize](&mut faulty);
            if faulty.refusal() != 0 {
                return faulty;
            }
        }
    }
}

/// What a line is refused for with 2, 4, 5, 7 and 8.
pub const FAULTS: [fn(&mut Line); 17] = [
    |line| line.call.channels = 0,
    |line| line.call.row_of[0] = line.call.rows,
    |line| line.call.length = 513,
    |line| line.stamps.push(0),
    |line| line.call.inputs.push(1.0),
    |line| line.call.ears.push(1.0),
    |line| line.call.rings.push(1.0),
    |line| line.call.weights.push(1.0),
    |line| line.call.taps.push(1.0),
    |line| line.call.frames = line.call.stride + 1,
    // One place too few for the frames that come out.
    |line| {
        let out = if line.call.frames <= line.stamps.len() as u64 { line.read().out() } else { 1 };
        line.ear_stride = (out as u64).saturating_sub(1);
        line.call.ears.truncate(2 * line.ear_stride as usize);
    },
    |line| line.ear_stride += 1 << 63,
    |line| line.call.stride += 1 << 63,
    |line| line.call.weights[0] = f64::INFINITY,
    |line| line.call.taps[0] = f32::NAN,
    |line| line.call.position = line.call.length,
    |line| line.call.to_go = line.call.length,
];
