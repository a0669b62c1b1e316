//! Binaural rows, against the Rust's `compute_matrix` with four signs turned, bit for bit. Document 02, E7: "the right ear
//! misses a sign on channels 5 and 11, and has one on 14 that doesn't belong".
use crate::frame::{Case, Sink, exactly, f64_bytes, request, send};
use crate::random::Random;
use bbx_dsp::blocks::effectors::binaural_decoder::matrix;

pub const ROWS: u8 = 9;

/// The left ear's row and the right ear's. Beyond the channels of the order stands 0.0.
pub type Rows = [[f64; 16]; 2];

/// The orders and channels at which the Rust's right row has the wrong sign.
pub const WRONG_SIGNS: [(usize, usize); 4] = [(2, 5), (3, 5), (3, 11), (3, 14)];

/// The channels that a scene has negated when left and right are exchanged.
pub const LATERAL: [usize; 6] = [1, 4, 5, 9, 10, 11];

/// The rows of an order: the Rust's, with those signs turned and nothing else.
pub fn corrected(order: usize) -> Rows {
    let mut rows = matrix::compute_matrix(order);
    for (_, channel) in WRONG_SIGNS.iter().filter(|(of, _)| *of == order) {
        rows[1][*channel] = -rows[1][*channel];
    }
    rows
}

pub fn channels_of(order: usize) -> usize {
    (order + 1).pow(2)
}

/// Rows as the program is lent and lends them: as many weights for each ear as the order has channels.
pub fn in_a_line(rows: &Rows, order: usize) -> Vec<f64> {
    rows.iter().flat_map(|row| row[..channels_of(order)].to_vec()).collect()
}

/// Asks for the rows of an order over lent weights. The Rust panics at an order that is not 1, 2 or 3, and has no lent
/// list: there document 01 gives 1 and 5, in this order, and the list stays.
pub fn rows(order: u64, weights: &[f64]) -> Case {
    let mut arguments = (weights.len() as u16).to_be_bytes().to_vec();
    arguments.extend(order.to_be_bytes());
    arguments.extend(weights.iter().flat_map(|w| w.to_bits().to_be_bytes()));
    let (refusal, after) = if !(1..=3).contains(&order) {
        (1, weights.to_vec())
    } else if weights.len() != 2 * channels_of(order as usize) {
        (5, weights.to_vec())
    } else {
        (0, in_a_line(&corrected(order as usize), order as usize))
    };
    let mut answer = vec![refusal];
    answer.extend(after.iter().flat_map(|w| f64_bytes(*w)));
    exactly(request(ROWS, &arguments), ROWS, answer)
}

pub fn cases(random: &mut Random, count: usize, sink: &mut Sink) {
    let mut lent = |n: usize| -> Vec<f64> { (0..n).map(|_| f64::from_bits(random.bits())).collect() };
    send(sink, [(1, 8), (2, 18), (3, 32)].map(|(order, n)| rows(order, &lent(n))));
    for order in [0, 1, 2, 3, 4, 5, 255, 256, 257, 1 << 32, (1 << 32) + 1, u64::MAX] {
        for n in [0, 1, 4, 7, 8, 9, 16, 17, 18, 19, 31, 32, 33, 50, 64, 300] {
            if n < 60 || count >= 1000 {
                sink(rows(order, &lent(n)));
            }
        }
    }
}

#[cfg(test)]
mod tests {
    use super::*;
    use crate::frame::Answer;

    /// The places at which two orders' rows differ: the ear and the channel.
    fn differing(ours: &Rows, theirs: &Rows) -> Vec<(usize, usize)> {
        let places = (0..2).flat_map(|ear| (0..16).map(move |c| (ear, c)));
        places.filter(|(ear, c)| ours[*ear][*c].to_bits() != theirs[*ear][*c].to_bits()).collect()
    }

    #[test]
    fn the_rows_are_the_rust_s_but_for_four_signs() {
        for (order, right) in [(1, &[][..]), (2, &[(1, 5)]), (3, &[(1, 5), (1, 11), (1, 14)])] {
            let (ours, theirs) = (corrected(order), matrix::compute_matrix(order));
            assert_eq!(differing(&ours, &theirs), right);
            assert!(right.iter().all(|(ear, c)| ours[*ear][*c] == -theirs[*ear][*c]));
        }
    }

    #[test]
    fn the_right_row_is_the_left_one_with_the_lateral_channels_negated() {
        for order in 1..=3 {
            let [left, right] = corrected(order);
            for c in 0..channels_of(order) {
                let mirrored = if LATERAL.contains(&c) { -left[c] } else { left[c] };
                assert_eq!(right[c].to_bits(), mirrored.to_bits(), "order {order}, channel {c}");
            }
            assert!([left, right].iter().all(|row| row[channels_of(order)..].iter().all(|w| w.to_bits() == 0)));
        }
    }

    #[test]
    fn worked_weights() {
        assert_eq!((1.0 / 2f64.sqrt()).to_bits(), 0x3fe6_a09e_667f_3bcc);
        for (order, channel, bits) in
            [(2, 5, 0xbfac_f68d_4fff_04dc), (3, 5, 0xbfa9_57bb_a5ff_2441), (3, 11, 0xbfa2_1a18_51ff_630a), (3, 14, 0x3fb2_1a18_51ff_630au64)]
        {
            assert_eq!(corrected(order)[1][channel].to_bits(), bits, "order {order}, channel {channel}");
        }
    }

    /// A program that has the Rust's rows, or one sign more or less, gives a wrong answer.
    #[test]
    fn a_sign_is_told() {
        let wrong = WRONG_SIGNS.iter().copied().chain([(1, 1), (2, 7), (3, 13), (3, 15)]);
        for (order, channel) in wrong {
            let mut row = corrected(order);
            row[1][channel] = -row[1][channel];
            for (rows_there, is_right) in [(row, false), (corrected(order), true)] {
                let weights = in_a_line(&rows_there, order);
                let bytes = [vec![0], weights.iter().flat_map(|w| f64_bytes(*w)).collect()].concat();
                let verdict = (rows(order as u64, &weights).judge)(&Answer { operation: ROWS, bytes });
                assert_eq!(verdict.wrong.is_none(), is_right, "order {order}, channel {channel}");
            }
        }
    }
}
