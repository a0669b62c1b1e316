//! Drill scripts: a stretch of samples, rendered at the directions that a list of cues gives. Which cue holds at a frame is
//! found by going through the whole list, nothing of halving. The frames at which one holds are judged as a panner block at
//! its direction (panner.rs), the frames before the first are 0.0, and a stretch cut into parts is compared with the whole,
//! byte for byte.
use crate::binaural::ODD;
use crate::frame::{Answer, Case, Verdict, f32_bytes, judged, request};
use crate::gains::is_direction;
use crate::panner::{Block, Shown};
use crate::random::Random;
use std::cell::RefCell;
use std::ops::Range;
use std::rc::Rc;

pub const SCRIPT: u8 = 21;

/// As many samples as an answer has room for: of a longer window these are shown.
const MOST_SHOWN: usize = 16380;

/// Document 01's panner and document 02, E1.
const MOST_FRAMES: u64 = 4096;
const MOST_CUES: usize = 256;

#[derive(Clone, Copy)]
pub struct Cue {
    pub frame: u64,
    pub azimuth: f64,
    pub elevation: f64,
}

fn planes_of(order: u64) -> usize {
    ((order & 3) as usize + 1).pow(2)
}

/// A stretch of a drill, with everything that a request says of it.
#[derive(Clone)]
pub struct Stretch {
    pub cues: Vec<Cue>,
    pub order: u64,
    pub first: u64,
    pub frames: u64,
    pub stride: u64,
    pub held: f32,
    pub input: Vec<f32>,
    pub outputs: usize,
    pub shown: Range<usize>,
}

impl Stretch {
    /// One whose lengths fit, with all its outputs shown, which hold anything but 0.0.
    pub fn fitting(random: &mut Random, cues: &[Cue], order: u64, first: u64, frames: usize, stride: usize) -> Self {
        let outputs = planes_of(order) * stride;
        Stretch {
            cues: cues.to_vec(),
            order,
            first,
            frames: frames as u64,
            stride: stride as u64,
            held: f32::from_bits(random.bits() as u32 | 1),
            input: (0..stride).map(|_| sample(random)).collect(),
            outputs,
            shown: 0..outputs,
        }
    }

    pub fn lend_outputs(&mut self, outputs: usize) {
        (self.outputs, self.shown) = (outputs, 0..outputs);
    }

    /// Refusals 1, 3, 5, 6, 11, 12, in this order. Every cue is looked at, whether the stretch reaches it or not.
    pub fn refusal(&self) -> u8 {
        let is = |list: usize, planes: usize| planes as u128 * u128::from(self.stride) == list as u128;
        let fits = self.frames <= self.stride && is(self.input.len(), 1) && is(self.outputs, planes_of(self.order));
        if !(1..=3).contains(&self.order) {
            1
        } else if self.cues.iter().any(|cue| !is_direction(cue.azimuth, cue.elevation)) {
            3
        } else if !fits || u128::from(self.first) + u128::from(self.frames) > 1 << 64 {
            5
        } else if self.frames > MOST_FRAMES {
            6
        } else if self.cues.windows(2).any(|pair| pair[1].frame <= pair[0].frame) {
            11
        } else if self.cues.len() > MOST_CUES {
            12
        } else {
            0
        }
    }

    /// The last cue of the list that is not after the n-th frame of the stretch.
    fn voice(&self, n: usize) -> Option<usize> {
        self.cues.iter().rposition(|cue| cue.frame <= self.first + n as u64)
    }

    /// The frames of an accepted stretch, cut where another cue begins to hold.
    fn segments(&self) -> Vec<(Option<Cue>, Range<usize>)> {
        let voices: Vec<Option<usize>> = (0..self.frames as usize).map(|n| self.voice(n)).collect();
        let mut at = 0;
        let mut segment = |same: &[Option<usize>]| {
            at += same.len();
            (same[0].map(|i| self.cues[i]), at - same.len()..at)
        };
        voices.chunk_by(|a, b| a == b).map(&mut segment).collect()
    }

    /// Puts 1.0 at these frames where a cue holds: it shows the gains.
    pub fn put_ones(&mut self, frames: impl IntoIterator<Item = usize>) {
        for n in frames {
            if n < self.frames as usize && self.voice(n).is_some() {
                self.input[n] = 1.0;
            }
        }
    }

    /// The same with a 1.0 where a cue begins to hold and where the outputs that are shown begin.
    fn showing_gains(mut self) -> Self {
        if self.refusal() == 0 && self.frames > 0 {
            let begins: Vec<usize> = self.segments().into_iter().map(|(_, span)| span.start).collect();
            self.put_ones(begins);
            self.put_ones([self.shown.start % self.stride as usize]);
        }
        self
    }

    pub fn arguments(&self) -> Vec<u8> {
        let counts = [self.cues.len(), self.input.len(), self.outputs, self.shown.start, self.shown.len()];
        let mut bytes: Vec<u8> = counts.iter().flat_map(|n| (*n as u16).to_be_bytes()).collect();
        bytes.extend([self.order, self.first, self.frames, self.stride].iter().flat_map(|n| n.to_be_bytes()));
        bytes.extend(self.held.to_bits().to_be_bytes());
        bytes.extend(self.cues.iter().flat_map(|cue| [cue.frame, cue.azimuth.to_bits(), cue.elevation.to_bits()]).flat_map(u64::to_be_bytes));
        bytes.extend(self.input.iter().flat_map(|x| x.to_bits().to_be_bytes()));
        bytes
    }

    pub fn case(self) -> Case {
        self.showing_gains().judged_also(|_| Ok(()))
    }

    /// The stretch as a request. What is shown of the outputs is looked at once more, if it is right.
    fn judged_also(self, also: impl Fn(&[Shown]) -> Result<(), String> + 'static) -> Case {
        judged(request(SCRIPT, &self.arguments()), move |answer| {
            let (after, aside) = self.judge(answer)?;
            also(&after)?;
            Ok(Verdict { aside, ..Verdict::default() })
        })
    }

    /// The outputs, as far as they are shown, and how many planes are right and not the Rust's.
    fn judge(&self, answer: &Answer) -> Result<(Vec<Shown>, usize), String> {
        let refusal = self.refusal();
        let shown = self.shown.clone().take(MOST_SHOWN);
        if answer.operation != SCRIPT || answer.bytes.len() != 9 + 4 * shown.len() {
            return Err("no such answer".to_string());
        }
        let samples = if refusal == 0 { self.frames } else { 0 };
        if answer.bytes[0] != refusal || answer.bytes[1..9] != samples.to_be_bytes() {
            return Err(format!("expected refusal {refusal} and {samples} samples"));
        }
        let mut after: Vec<Shown> = vec![None; self.outputs];
        for (place, bytes) in shown.zip(answer.bytes[9..].chunks(4)) {
            after[place] = bytes.try_into().ok();
        }
        let played = |i: usize| samples > 0 && (i as u64) % self.stride < samples;
        if (0..after.len()).any(|i| !played(i) && after[i].is_some_and(|y| y != f32_bytes(self.held))) {
            return Err("a sample that is not played has changed".to_string());
        }
        let aside = if samples > 0 { self.judge_played(&after)? } else { 0 };
        Ok((after, aside))
    }

    /// Segment by segment.
    fn judge_played(&self, after: &[Shown]) -> Result<usize, String> {
        let mut aside = 0;
        for (cue, span) in self.segments() {
            let mut planes = after.chunks(self.stride as usize).map(|plane| &plane[span.clone()]);
            let Some(cue) = cue else {
                if planes.any(|plane| plane.iter().flatten().any(|y| *y != f32_bytes(0.0))) {
                    return Err("not 0.0 before the first cue".to_string());
                }
                continue;
            };
            let block = Block::at_direction(cue.azimuth, cue.elevation, self.order, &self.input[span.clone()]);
            aside += block.judge_planes(planes).map_err(|why| format!("frames {span:?}, cue of frame {}, {why}", cue.frame))?;
        }
        Ok(aside)
    }

    /// The stretch whole, and in parts that end at the cuts, each with a stride of its own, with refused calls between. Each part is
    /// compared with what the whole was answered.
    pub fn in_parts(mut self, random: &mut Random, cuts: &[usize]) -> Vec<Case> {
        self.put_ones(cuts.iter().copied());
        let whole = self.showing_gains();
        let heard: Rc<RefCell<Vec<Shown>>> = Rc::default();
        let (keep, stride, frames) = (heard.clone(), whole.stride as usize, whole.frames as usize);
        let mut all = vec![whole.clone().judged_also(move |after| {
            keep.replace(after.to_vec());
            Ok(())
        })];
        let ends = cuts.iter().copied().chain([frames]);
        for (from, to) in [0].into_iter().chain(cuts.iter().copied()).zip(ends) {
            // Behind the largest frame number there is no part, not even an empty one.
            let Some(part) = whole.part(random, from..to) else { continue };
            if random.below(2) == 0 {
                all.push(part.refused(random).case());
            }
            let (heard, own) = (heard.clone(), part.stride as usize);
            all.push(part.judged_also(move |after| {
                let heard = heard.borrow();
                let is_same = |(p, plane): (usize, &[Shown])| heard.get(p * stride + from..p * stride + to) == Some(&plane[..to - from]);
                let same = to == from || after.chunks(own).enumerate().all(is_same);
                if same { Ok(()) } else { Err(format!("frames {from} to {to} are not those of the whole")) }
            }));
        }
        all
    }

    fn part(&self, random: &mut Random, span: Range<usize>) -> Option<Stretch> {
        let first = self.first.checked_add(span.start as u64)?;
        let stride = span.len() + random.below(3) as usize;
        let mut part = Stretch::fitting(random, &self.cues, self.order, first, span.len(), stride);
        part.input[..span.len()].copy_from_slice(&self.input[span]);
        Some(part)
    }

    /// The same with something in it that is refused: 1, 3, 5 or 11.
    fn refused(&self, random: &mut Random) -> Stretch {
        loop {
            let faulty = with_faults(self, 1 << random.below(FAULTS.len() as u64));
            if faulty.refusal() != 0 {
                return faulty;
            }
        }
    }
}

/// A sample of any pattern now and then, or an odd one, else of a size where products round.
fn sample(random: &mut Random) -> f32 {
    let bits = random.bits() as u32;
    match random.below(6) {
        0 => f32::from_bits(bits),
        1 => f32::from_bits(ODD[random.below(ODD.len() as u64) as usize]),
        _ => f32::from_bits(bits & 0x807f_ffff | (100 + random.below(40) as u32) << 23),
    }
}

/// What a stretch of two frames and two cues or more is refused for with 1, 3, 5, 5 and 11, each without the others.
pub const FAULTS: [fn(&mut Stretch); 5] = [
    |s| s.order = 4,
    |s| s.cues.iter_mut().rev().take(1).for_each(|cue| cue.azimuth = 181.0),
    |s| s.lend_outputs(s.outputs + 1),
    |s| s.first = u64::MAX,
    |s| s.cues.iter_mut().rev().take(2).for_each(|cue| cue.frame = 1 << 63),
];

/// The same stretch with the faults whose bits are set.
pub fn with_faults(stretch: &Stretch, which: usize) -> Stretch {
    let mut faulty = stretch.clone();
    (0..FAULTS.len()).filter(|i| which >> i & 1 == 1).for_each(|i| FAULTS[i](&mut faulty));
    faulty
}
