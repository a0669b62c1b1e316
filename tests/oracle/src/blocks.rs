//! Blocks, bit for bit with the Rust: many of them made so that another order of summation, another start, or narrowing
//! on the way would change a bit.
use crate::frame::{Case, Sink, exactly, f32_bytes, request, send};
use crate::random::Random;
use crate::rust;

pub const DECODE: u8 = 16;

/// A sample of any pattern, or of a size where sums round.
fn sample(random: &mut Random) -> f32 {
    match random.below(8) {
        0 => f32::from_bits(random.bits() as u32),
        1 => f32::from_bits(random.bits() as u32 & 0x8000_0000),
        _ => f32::from_bits(random.bits() as u32 & 0x807f_ffff | (87 + random.below(80) as u32) << 23),
    }
}

/// A finite weight; sizes that let products of very different size meet.
fn weight(random: &mut Random) -> f64 {
    match random.below(12) {
        0 => f64::from_bits(random.bits() & 1 << 63),
        1 => f64::from_bits(random.bits() & 0xbfff_ffff_ffff_ffff),
        _ => f64::from_bits(random.bits() & 0x800f_ffff_ffff_ffff | (1023 - 40 + random.below(80)) << 52),
    }
}

/// The ordered sum that document 01 asks for, and others that algebra does not tell from it.
pub fn rising(samples: &[f32], weights: &[f64]) -> f32 {
    samples.iter().zip(weights).fold(0.0, |sum, (s, w)| sum + f64::from(*s) * w) as f32
}

pub fn falling(samples: &[f32], weights: &[f64]) -> f32 {
    samples.iter().zip(weights).rev().fold(0.0, |sum, (s, w)| sum + f64::from(*s) * w) as f32
}

pub fn narrowed_on_the_way(samples: &[f32], weights: &[f64]) -> f32 {
    samples.iter().zip(weights).fold(0.0f32, |sum, (s, w)| (f64::from(sum) + f64::from(*s) * w) as f32)
}

pub fn in_pairs(samples: &[f32], weights: &[f64]) -> f32 {
    let products: Vec<f64> = samples.iter().zip(weights).map(|(s, w)| f64::from(*s) * w).collect();
    products.chunks(2).fold(0.0, |sum, pair| sum + pair.iter().sum::<f64>()) as f32
}

pub fn fused(samples: &[f32], weights: &[f64]) -> f32 {
    samples.iter().zip(weights).fold(0.0f64, |sum, (s, w)| f64::from(*s).mul_add(*w, sum)) as f32
}

/// One frame and one row of weights whose rising sum is told from each of the other sums by a bit: large terms that
/// cancel, with small ones between them.
pub fn telling(random: &mut Random, channels: usize) -> (Vec<f32>, Vec<f64>) {
    loop {
        let mut samples: Vec<f32> = (0..channels).map(|_| f32::from_bits(random.bits() as u32 & 0x807f_ffff | (120 + random.below(14) as u32) << 23)).collect();
        let of_size = |random: &mut Random, field: u64| f64::from_bits(random.bits() & 0x800f_ffff_ffff_ffff | (field + random.below(10)) << 52);
        let mut weights: Vec<f64> = (0..channels).map(|_| of_size(random, 1000)).collect();
        // Large pairs that cancel, or nearly.
        for _ in 0..1 + channels / 6 {
            let (i, j) = (random.below(channels as u64) as usize, random.below(channels as u64) as usize);
            if i != j {
                samples[j] = -samples[i];
                weights[i] = of_size(random, 1036);
                weights[j] = f64::from_bits((weights[i].to_bits() as i64 + random.below(3) as i64 - 1) as u64);
            }
        }
        let sum = rising(&samples, &weights).to_bits();
        let others = [falling, narrowed_on_the_way, in_pairs, fused];
        if others.iter().all(|other| other(&samples, &weights).to_bits() != sum) {
            return (samples, weights);
        }
    }
}

/// A block for the decoder: planes of `stride` frames, of which `frames` are played.
#[derive(Clone)]
pub struct Block {
    pub outputs: u64,
    pub channels: u64,
    pub frames: u64,
    pub stride: u64,
    pub weights: Vec<f64>,
    pub inputs: Vec<f32>,
    pub planes: Vec<f32>,
}

impl Block {
    /// A block whose lengths fit, filled at random.
    pub fn fitting(random: &mut Random, outputs: usize, channels: usize, frames: usize, stride: usize) -> Self {
        Block {
            outputs: outputs as u64,
            channels: channels as u64,
            frames: frames as u64,
            stride: stride as u64,
            weights: (0..outputs * channels).map(|_| weight(random)).collect(),
            inputs: (0..channels * stride).map(|_| sample(random)).collect(),
            planes: (0..outputs * stride).map(|_| sample(random)).collect(),
        }
    }

    /// Refusals 2, 5, 7, in this order. A product that passes 64 bits does not fit.
    fn refusal(&self) -> u8 {
        let is = |list: usize, planes: u64, stride: u64| u128::from(planes) * u128::from(stride) == list as u128;
        if !(1..=16).contains(&self.outputs) || !(1..=16).contains(&self.channels) {
            2
        } else if self.stride < self.frames
            || !is(self.inputs.len(), self.channels, self.stride)
            || !is(self.planes.len(), self.outputs, self.stride)
            || !is(self.weights.len(), self.outputs, self.channels)
        {
            5
        } else if self.weights.iter().any(|w| !w.is_finite()) {
            7
        } else {
            0
        }
    }

    /// Planes as far as they are played.
    pub fn cut(&self, planes: &[f32]) -> Vec<Vec<f32>> {
        planes.chunks(self.stride as usize).map(|p| p[..self.frames as usize].to_vec()).collect()
    }

    /// The planes after the block has been played by the Rust, which gets the frames that are played and no others.
    fn played(&self, rust: impl Fn(&[Vec<f32>], Vec<Vec<f32>>) -> Vec<Vec<f32>>) -> Vec<f32> {
        let (frames, stride) = (self.frames as usize, self.stride as usize);
        if frames == 0 {
            return self.planes.clone();
        }
        let played = rust(&self.cut(&self.inputs), self.cut(&self.planes));
        let beyond = self.planes.chunks(stride).map(|p| &p[frames..]);
        played.iter().zip(beyond).flat_map(|(plane, beyond)| [plane, beyond].concat()).collect()
    }

    fn case(&self) -> Case {
        self.judged_by(|inputs, before| rust::decode(&self.weights.chunks(self.channels as usize).collect::<Vec<_>>(), inputs, before))
    }

    /// The block as a request has it.
    pub fn arguments(&self) -> Vec<u8> {
        let mut arguments: Vec<u8> = [self.weights.len(), self.inputs.len(), self.planes.len()].iter().flat_map(|n| (*n as u16).to_be_bytes()).collect();
        arguments.extend([self.outputs, self.channels, self.frames, self.stride].iter().flat_map(|n| n.to_be_bytes()));
        arguments.extend(self.weights.iter().flat_map(|w| w.to_bits().to_be_bytes()));
        arguments.extend(self.inputs.iter().chain(&self.planes).flat_map(|s| s.to_bits().to_be_bytes()));
        arguments
    }

    /// The block as a request, and as right what the Rust makes of its input planes.
    pub fn judged_by(&self, rust: impl Fn(&[Vec<f32>], Vec<Vec<f32>>) -> Vec<Vec<f32>>) -> Case {
        let refusal = self.refusal();
        let (samples, planes) = if refusal == 0 { (self.frames, self.played(rust)) } else { (0, self.planes.clone()) };
        let mut answer = vec![refusal];
        answer.extend(samples.to_be_bytes());
        answer.extend(planes.iter().flat_map(|s| f32_bytes(*s)));
        exactly(request(DECODE, &self.arguments()), DECODE, answer)
    }
}

/// Blocks whose counts or lengths do not fit, or whose weights are no numbers, alone and together.
fn refused(random: &mut Random) -> Vec<Case> {
    let mut all = Vec::new();
    let mut with = |change: &dyn Fn(&mut Block)| {
        let mut block = Block::fitting(random, 2, 3, 2, 4);
        change(&mut block);
        all.push(block.case());
    };
    for n in [0, 17, 1 << 32, u64::MAX] {
        with(&|b| b.outputs = n);
        with(&|b| b.channels = n);
        with(&|b| b.frames = n);
        with(&|b| b.stride = n);
        with(&|b| (b.outputs, b.stride) = (n, 0));
    }
    for n in [1, 3, 4, 5, 1 << 62, 1 << 63, (1 << 63) + 4] {
        with(&|b| b.stride = n);
        with(&|b| (b.stride, b.frames) = (n, 0));
        with(&|b| b.frames = n);
    }
    for lists in [
        &|b: &mut Block| _ = b.weights.pop(),
        &|b: &mut Block| _ = b.inputs.pop(),
        &|b: &mut Block| _ = b.planes.pop(),
        &|b: &mut Block| b.weights.push(1.0),
        &|b: &mut Block| b.inputs.push(1.0),
        &|b: &mut Block| b.planes.push(1.0),
    ] as [&dyn Fn(&mut Block); 6]
    {
        with(lists);
        with(&|b| {
            lists(b);
            b.weights[0] = f64::NAN;
        });
    }
    for bad in [f64::NAN, f64::INFINITY, f64::NEG_INFINITY, f64::from_bits(0x7ff0_0000_0000_0001)] {
        for place in [0, 3, 5] {
            with(&|b| b.weights[place] = bad);
            with(&|b| (b.weights[place], b.frames) = (bad, 0));
            with(&|b| (b.weights[place], b.outputs) = (bad, 0));
        }
    }
    all
}

pub fn decode(random: &mut Random, count: usize, sink: &mut Sink) {
    send(sink, refused(random));
    for (outputs, channels, frames, stride) in
        [(1, 1, 1, 1), (1, 1, 0, 0), (16, 16, 1, 1), (16, 16, 3, 5), (2, 16, 4, 4), (1, 4, 0, 3), (16, 1, 2, 2), (1, 16, 7, 7)]
    {
        sink(Block::fitting(random, outputs, channels, frames, stride).case());
    }
    // Only products that are -0.0: the sum starts from 0.0.
    let mut zeros = Block::fitting(random, 1, 4, 1, 1);
    zeros.weights = vec![1.0, 2.0, 3.0, 4.0];
    zeros.inputs = vec![-0.0; 4];
    sink(zeros.case());
    for _ in 0..(if count < 1000 { count / 8 } else { count / 2 }) {
        let (outputs, channels) = (1 + random.below(16) as usize, 1 + random.below(16) as usize);
        let frames = random.below(4) as usize;
        let stride = frames + random.below(3) as usize;
        sink(Block::fitting(random, outputs, channels, frames, stride).case());
        // A frame of which the first output tells the orders of summation apart.
        let channels = 4 + random.below(13) as usize;
        let mut block = Block::fitting(random, 2, channels, 1, 2);
        let (samples, weights) = telling(random, channels);
        block.weights[..channels].copy_from_slice(&weights);
        for (channel, sample) in samples.into_iter().enumerate() {
            block.inputs[2 * channel] = sample;
        }
        sink(block.case());
    }
    // Blocks of many frames, longer than the panner's limit.
    for frames in [100, 4095, 4096, 4097, 6000] {
        if count >= 1000 || frames == 100 {
            sink(Block::fitting(random, 1, 1, frames, frames).case());
        }
    }
}
