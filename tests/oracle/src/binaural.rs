//! Blocks through the binaural rows. Document 01 has them applied like a decoder matrix of two rows; the block that did so
//! was not supplied. The program's decoder block is given the rows that its own must be, and compared, bit for bit, with the
//! Rust's decoder whose matrix they are. Each block is sent a second time with left and right exchanged: then its ears have to be
//! those of the first time, crosswise (document 02, E7).
use crate::blocks::{Block, falling, fused, in_pairs, narrowed_on_the_way, rising};
use crate::frame::{Case, Sink, send};
use crate::random::Random;
use crate::rows::{LATERAL, Rows, channels_of, corrected, in_a_line, rows};
use crate::rust;

/// A sum of a frame and a row of weights.
type Sum = fn(&[f32], &[f64]) -> f32;

const OTHER_SUMS: [Sum; 4] = [falling, narrowed_on_the_way, in_pairs, fused];

/// Samples that are not ordinary: NaNs, one of them signalling, infinities, subnormals, zeros, the ends of the finite ones.
pub const ODD: [u32; 14] = [
    0x7fc0_0000, 0xffc0_0001, 0x7f80_0001, 0x7f80_0000, 0xff80_0000, 0x0000_0001, 0x8000_0001, 0x007f_ffff, 0x807f_ffff, 0, 0x8000_0000, 0x0080_0000,
    0x7f7f_ffff, 0xff7f_ffff,
];

/// A finite sample: of a size where sums round, or subnormal, or any.
fn finite(random: &mut Random) -> f32 {
    let bits = random.bits() as u32;
    match random.below(8) {
        0 => f32::from_bits(bits & 0x807f_ffff),
        1 => f32::from_bits(bits & 0xff7f_ffff),
        _ => f32::from_bits(bits & 0x807f_ffff | (100 + random.below(50) as u32) << 23),
    }
}

/// A block of frames, each a sample a channel, over planes that hold anything.
fn block(random: &mut Random, order: usize, frames: &[Vec<f32>], beyond: usize) -> Block {
    let stride = frames.len() + beyond;
    let mut block = Block::fitting(random, 2, channels_of(order), frames.len(), stride);
    block.weights = in_a_line(&corrected(order), order);
    for (n, frame) in frames.iter().enumerate() {
        for (c, sample) in frame.iter().enumerate() {
            block.inputs[c * stride + n] = *sample;
        }
    }
    block
}

/// The block with left and right exchanged: of six input planes the sign of every sample is the other one.
pub fn mirrored(block: &Block) -> Block {
    let mut mirrored = block.clone();
    for (channel, plane) in mirrored.inputs.chunks_mut(block.stride.max(1) as usize).enumerate() {
        if LATERAL.contains(&channel) {
            plane.iter_mut().for_each(|x| *x = f32::from_bits(x.to_bits() ^ 1 << 31));
        }
    }
    mirrored
}

/// A block over rows of an order, and the same mirrored. What is right for the second is not computed from what is sent, but
/// is what the Rust plays for the first, the ears exchanged.
fn pair(order: usize, rows: &Rows, block: &Block) -> [Case; 2] {
    let crosswise = |_: &[Vec<f32>], before| {
        let mut ears = rust::binaural(order, rows, &block.cut(&block.inputs), before);
        ears.swap(0, 1);
        ears
    };
    [block.judged_by(|inputs, before| rust::binaural(order, rows, inputs, before)), mirrored(block).judged_by(crosswise)]
}

fn cases_of(order: usize, block: &Block) -> [Case; 2] {
    pair(order, &corrected(order), block)
}

/// A frame whose sum with a row is told by a bit from another one. Two terms cancel but for their rounding, since the
/// literals are hundredths, one of them that of `channel`; the others are smaller by so much that rounding shows in them.
fn telling(random: &mut Random, row: &[f64], channel: usize, other: impl Fn(&[f32], &[f64]) -> f32) -> Vec<f32> {
    let hundredths = |c: usize| (row[c] * 2f64.sqrt() * 100.0).round() as f32;
    loop {
        let mut frame: Vec<f32> = row.iter().map(|_| f32::from_bits(random.bits() as u32 & 0x807f_ffff | (107 + random.below(6) as u32) << 23)).collect();
        let against = (channel + 1 + random.below(row.len() as u64 - 1) as usize) % row.len();
        let size = (1 + random.below(1 << 17)) as f32;
        frame[channel] = size * hundredths(against);
        frame[against] = -size * hundredths(channel);
        if other(&frame, row).to_bits() != rising(&frame, row).to_bits() {
            return frame;
        }
    }
}

/// The weights with the last bit of one of them changed.
fn spoiled(weights: &[f64], place: usize) -> Vec<f64> {
    let mut weights = weights.to_vec();
    weights[place] = f64::from_bits(weights[place].to_bits() ^ 1);
    weights
}

/// A frame for each weight of the rows, left then right, that would sound otherwise if its last bit were another.
fn of_each_weight(random: &mut Random, order: usize) -> Block {
    let mut frames = Vec::new();
    for row in in_a_line(&corrected(order), order).chunks(channels_of(order)) {
        frames.extend((0..row.len()).map(|c| telling(random, row, c, |frame, row| rising(frame, &spoiled(row, c)))));
    }
    block(random, order, &frames, 1)
}

pub fn cases(random: &mut Random, count: usize, sink: &mut Sink) {
    for order in 1..=3 {
        let channels = channels_of(order);
        // The program's own rows are these, over a list that holds anything.
        let lent: Vec<f64> = (0..2 * channels).map(|_| f64::from_bits(random.bits())).collect();
        sink(rows(order as u64, &lent));
        send(sink, cases_of(order, &of_each_weight(random, order)));
        // Each odd sample on each channel alone, among finite ones, and then on all of them.
        for odd in ODD.map(f32::from_bits) {
            let mut frames: Vec<Vec<f32>> = (0..channels).map(|n| (0..channels).map(|c| if c == n { odd } else { finite(random) }).collect()).collect();
            frames.push(vec![odd; channels]);
            send(sink, cases_of(order, &block(random, order, &frames, 0)));
        }
    }
    for _ in 0..(if count < 1000 { count / 8 } else { count / 2 }) {
        let order = 1 + random.below(3) as usize;
        let channels = channels_of(order);
        // Finite samples; in half of the blocks odd ones among them.
        let is_odd = random.below(2) == 0;
        let odd = |random: &mut Random| f32::from_bits(ODD[random.below(ODD.len() as u64) as usize]);
        let sample = |random: &mut Random| if is_odd && random.below(16) == 0 { odd(random) } else { finite(random) };
        let frames: Vec<Vec<f32>> = (0..random.below(4)).map(|_| (0..channels).map(|_| sample(random)).collect()).collect();
        let beyond = random.below(3) as usize;
        send(sink, cases_of(order, &block(random, order, &frames, beyond)));
        // A frame for each ear that tells one other sum.
        let (weights, other) = (in_a_line(&corrected(order), order), OTHER_SUMS[random.below(4) as usize]);
        let channel = random.below(channels as u64) as usize;
        let frames: Vec<Vec<f32>> = weights.chunks(channels).map(|row| telling(random, row, channel, other)).collect();
        send(sink, cases_of(order, &block(random, order, &frames, 0)));
    }
}

#[cfg(test)]
mod tests {
    use super::*;
    use crate::frame::{Answer, f32_bytes};
    use crate::rust::Command;
    use bbx_dsp::blocks::effectors::binaural_decoder::matrix::compute_matrix;

    /// What a program answers that forms document 01's sums.
    fn answer(block: &Block) -> Answer {
        let (channels, frames, stride) = (block.channels as usize, block.frames as usize, block.stride as usize);
        let mut planes = block.planes.clone();
        for (ear, row) in block.weights.chunks(channels).enumerate() {
            for n in 0..frames {
                let frame: Vec<f32> = (0..channels).map(|c| block.inputs[c * stride + n]).collect();
                planes[ear * stride + n] = rising(&frame, row);
            }
        }
        Answer { operation: 16, bytes: [vec![0], block.frames.to_be_bytes().to_vec(), planes.iter().flat_map(|x| f32_bytes(*x)).collect()].concat() }
    }

    /// Whether a block and its mirror pass with these rows as the program's, each.
    fn pass(cases: &[Case; 2], block: &Block, program: &Rows, order: usize) -> [bool; 2] {
        let played = |block: Block| answer(&Block { weights: in_a_line(program, order), ..block });
        [(cases[0].judge)(&played(block.clone())).wrong.is_none(), (cases[1].judge)(&played(mirrored(block))).wrong.is_none()]
    }

    /// The corrected rows with the right ear's sign on one channel turned.
    fn with_a_sign_turned(order: usize, channel: usize) -> Rows {
        let mut rows = corrected(order);
        rows[1][channel] = -rows[1][channel];
        rows
    }

    #[test]
    fn the_rows_pass_and_a_spoiled_weight_does_not() {
        for order in 1..=3 {
            let block = of_each_weight(&mut Random::new(11, "weights"), order);
            let cases = cases_of(order, &block);
            assert_eq!(pass(&cases, &block, &corrected(order), order), [true; 2]);
            for place in 0..block.weights.len() {
                let weights = spoiled(&block.weights, place);
                let is_wrong = |case: &Case, block: Block| (case.judge)(&answer(&Block { weights: weights.clone(), ..block })).wrong.is_some();
                assert!(is_wrong(&cases[0], block.clone()) && is_wrong(&cases[1], mirrored(&block)), "order {order}, weight {place}");
            }
        }
    }

    #[test]
    fn six_planes_are_negated_and_the_others_stay() {
        let mut block = Block::fitting(&mut Random::new(1, "planes"), 2, 16, 2, 3);
        block.inputs[3..6].copy_from_slice(&[0.0, f32::NAN, -1.0]);
        let twice = mirrored(&mirrored(&block));
        let bits = |block: &Block| -> Vec<u32> { block.inputs.iter().map(|x| x.to_bits()).collect() };
        assert_eq!(bits(&twice), bits(&block));
        let negated = |c: usize| (0..3).all(|n| bits(&mirrored(&block))[3 * c + n] == bits(&block)[3 * c + n] ^ 1 << 31);
        assert_eq!((0..16).filter(|c| negated(*c)).collect::<Vec<_>>(), LATERAL);
        assert!((0..48).filter(|i| !LATERAL.contains(&(i / 3))).all(|i| bits(&mirrored(&block))[i] == bits(&block)[i]));
    }

    /// One frame through the rows of an order.
    fn ears(rows: &Rows, order: usize, frame: &[f32]) -> [u32; 2] {
        let planes: Vec<Vec<f32>> = frame.iter().map(|x| vec![*x]).collect();
        let ears = rust::binaural(order, rows, &planes, vec![vec![9.0]; 2]);
        [ears[0][0].to_bits(), ears[1][0].to_bits()]
    }

    /// A frame of a source of 1.0: the Rust's gains at S = f64, each narrowed.
    fn source(order: usize, azimuth: f64, elevation: f64) -> Vec<f32> {
        rust::gains(Command::Ambisonic(order, azimuth, elevation)).iter().map(|g| *g as f32).collect()
    }

    #[test]
    fn worked_frames() {
        let channel_5: Vec<f32> = (0..9).map(|c| f32::from(u8::from(c == 5))).collect();
        assert_eq!(ears(&corrected(2), 2, &channel_5), [0x3d67_b46a, 0xbd67_b46a]);
        assert_eq!(ears(&compute_matrix(2), 2, &channel_5), [0x3d67_b46a; 2]);
        assert_eq!(ears(&corrected(1), 1, &[1.0, 2.0, 0.5, -1.0]), [0x3f59_3924, 0xbf10_d0c3]);
        assert_eq!(ears(&corrected(3), 3, &source(3, 30.0, 20.0)), [0x3f66_a1d0, 0x3e3e_59e8]);
        assert_eq!(ears(&corrected(3), 3, &source(3, -30.0, 20.0)), [0x3e3e_59e8, 0x3f66_a1d0]);
        assert_eq!(ears(&compute_matrix(3), 3, &source(3, 30.0, 20.0)), [0x3f66_a1d0, 0x3e27_922f]);
        assert_eq!(ears(&compute_matrix(3), 3, &source(3, -30.0, 20.0)), [0x3e3e_59e8, 0x3f57_2750]);
    }

    /// A program that plays the rows it is given, and given rows that are not mirror images: the first block of a pair passes, and
    /// the mirrored one does not.
    #[test]
    fn rows_that_are_no_mirror_images_fail_crosswise() {
        for order in 1..=3 {
            let mut wrong: Vec<Rows> = (0..channels_of(order)).map(|c| with_a_sign_turned(order, c)).collect();
            wrong.extend((order > 1).then(|| compute_matrix(order)));
            let block = of_each_weight(&mut Random::new(1, "crosswise"), order);
            assert_eq!(pass(&pair(order, &corrected(order), &block), &block, &corrected(order), order), [true; 2]);
            for rows in wrong {
                assert_eq!(pass(&pair(order, &rows, &block), &block, &rows, order), [true, false], "order {order}, {rows:?}");
            }
        }
    }

    /// How many of the requests that are made tell a program that plays these rows of an order.
    fn told(order: usize, program: &Rows) -> usize {
        let mut told = 0;
        cases(&mut Random::new(1, "binaural block"), 400, &mut |case| {
            if let Some(block) = block_in(&case.request).filter(|block| block.channels as usize == channels_of(order)) {
                let weights = in_a_line(program, order);
                told += usize::from((case.judge)(&answer(&Block { weights, ..block })).wrong.is_some());
            }
        });
        told
    }

    /// The block of a request, read off as docs/PROBE.md has it.
    fn block_in(request: &[u8]) -> Option<Block> {
        let arguments = &request[5..];
        let number = |at: usize, count: usize| arguments[at..at + count].iter().fold(0, |n, b| n << 8 | u64::from(*b));
        let [w, i, o] = [0, 2, 4].map(|at| number(at, 2) as usize);
        let samples = |at: usize, count: usize| (0..count).map(|k| f32::from_bits(number(at + 4 * k, 4) as u32)).collect();
        (request[0] == 16).then(|| Block {
            outputs: number(6, 8),
            channels: number(14, 8),
            frames: number(22, 8),
            stride: number(30, 8),
            weights: (0..w).map(|k| f64::from_bits(number(38 + 8 * k, 8))).collect(),
            inputs: samples(38 + 8 * w, i),
            planes: samples(38 + 8 * w + 4 * i, o),
        })
    }

    /// Each sign of the right row: the four that the Rust has wrong, one on 13 of order 3, and every other.
    #[test]
    fn every_wrong_sign_is_told_by_the_requests_that_are_made() {
        for order in 1..=3 {
            assert_eq!(told(order, &corrected(order)), 0);
            assert_eq!(told(order, &compute_matrix(order)) > 0, order > 1);
            for channel in 0..channels_of(order) {
                assert!(told(order, &with_a_sign_turned(order, channel)) > 20, "order {order}, channel {channel}");
            }
        }
    }
}
