//! Sine and cosine, against the defined sums.
use crate::exact::{self, Exact};
use crate::frame::{Answer, Case, Sink, Verdict, hex, request};
use crate::random::Random;

const SINE: u8 = 4;
const COSINE: u8 = 5;

/// Document 01: within 2^-40 of the defined value.
const ANGLE_BITS: usize = 40;

/// Refusal 3: no number from -1080 to 1080.
fn is_refused(d: f64) -> bool {
    !(-1080.0..=1080.0).contains(&d)
}

fn angles(random: &mut Random, count: usize) -> Vec<f64> {
    // Every tenth of a degree from -1080 to 1080, or as many of them as are asked for.
    let tenths = 21601;
    let mut all: Vec<f64> = if count >= tenths {
        (0..tenths as i64).map(|i| (i - 10800) as f64 / 10.0).collect()
    } else {
        (0..count).map(|_| (random.below(tenths as u64) as i64 - 10800) as f64 / 10.0).collect()
    };
    // Anywhere in the range, and tiny angles.
    all.extend((0..count).map(|_| (random.bits() >> 11) as f64 / (1u64 << 53) as f64 * 2160.0 - 1080.0));
    all.extend((0..count / 4).map(|_| f64::from_bits(random.bits() & 0x800f_ffff_ffff_ffff | random.below(1024) << 52)));
    // Multiples of 90 and their neighbours.
    for k in -12..=12i64 {
        let d = (90 * k) as f64;
        let near =
            |off: i64| if d == 0.0 { f64::from_bits(off.unsigned_abs()) * off.signum() as f64 } else { f64::from_bits((d.to_bits() as i64 + off) as u64) };
        all.extend((-3..=3).map(near));
    }
    // Outside, and what is no number.
    all.extend([f64::NAN, f64::INFINITY, f64::NEG_INFINITY, 1e300, -1e300, 1080.0001, -1080.0001, -0.0]);
    all
}

/// The answer to an angle: a refusal and 0.0, or 0 and a value near the defined one; at a multiple of 90 the exact value.
fn judge(d: f64, defined: Option<Exact>, operation: u8, answer: &Answer) -> Verdict {
    let wrong = |why: String| Verdict { wrong: Some(format!("{why}, at {d:e}: {} {}", answer.operation, hex(&answer.bytes))), ..Verdict::default() };
    if answer.operation != operation || answer.bytes.len() != 9 {
        return wrong("no such answer".to_string());
    }
    let value = f64::from_bits(u64::from_be_bytes(answer.bytes[1..].try_into().unwrap()));
    let Some(defined) = defined else {
        return if answer.bytes[0] == 3 && value.to_bits() == 0 { Verdict::default() } else { wrong("not refused".to_string()) };
    };
    if answer.bytes[0] != 0 || !value.is_finite() {
        return wrong("refused".to_string());
    }
    let error = Exact::float(value) - defined;
    if d % 90.0 == 0.0 && (error.log2() > f64::NEG_INFINITY || value.to_bits() == 1 << 63) {
        return wrong("not exact".to_string());
    }
    if !error.within(ANGLE_BITS) {
        return wrong(format!("off by 2^{:.2}", error.log2()));
    }
    Verdict { error: Some(error.log2()), ..Verdict::default() }
}

fn cases(random: &mut Random, count: usize, sink: &mut Sink, operation: u8, defined: fn(&Exact) -> Exact) {
    for d in angles(random, count) {
        let exact = move || (!is_refused(d)).then(|| defined(&Exact::float(d)));
        sink(Case { request: request(operation, &d.to_bits().to_be_bytes()), judge: Box::new(move |a| judge(d, exact(), operation, a)) });
    }
}

pub fn sine(random: &mut Random, count: usize, sink: &mut Sink) {
    cases(random, count, sink, SINE, exact::sine);
}

pub fn cosine(random: &mut Random, count: usize, sink: &mut Sink) {
    cases(random, count, sink, COSINE, exact::cosine);
}

#[cfg(test)]
mod tests {
    use super::*;

    fn passes(d: f64, refusal: u8, value: f64) -> bool {
        let defined = (!is_refused(d)).then(|| exact::sine(&Exact::float(d)));
        let bytes = [vec![refusal], value.to_bits().to_be_bytes().to_vec()].concat();
        judge(d, defined, SINE, &Answer { operation: SINE, bytes }).wrong.is_none()
    }

    #[test]
    fn a_sine_is_judged_by_its_bound() {
        let right = 20f64.to_radians().sin();
        for (off, is_right) in [(0.0, true), (2f64.powi(-41), true), (2f64.powi(-39), false)] {
            assert_eq!(passes(20.0, 0, right + off), is_right);
            assert_eq!(passes(20.0, 0, right - off), is_right);
        }
        assert!(!passes(20.0, 0, -right) && !passes(20.0, 3, right) && !passes(20.0, 0, f64::NAN) && !passes(20.0, 0, f64::INFINITY));
    }

    #[test]
    fn a_multiple_of_90_is_judged_to_the_last_bit() {
        for (d, right) in [(90.0, 1.0), (-90.0, -1.0), (1080.0, 0.0), (-0.0, 0.0)] {
            assert!(passes(d, 0, right) && !passes(d, 0, f64::from_bits(right.to_bits() + 1)));
        }
        assert!(!passes(180.0, 0, -0.0) && !passes(90.0, 0, 1.0 - f64::EPSILON / 2.0));
    }

    #[test]
    fn a_refused_angle_is_3_and_zero() {
        for d in [f64::NAN, f64::INFINITY, f64::NEG_INFINITY, 1080.0001, -1080.0001] {
            assert!(passes(d, 3, 0.0) && !passes(d, 3, -0.0) && !passes(d, 0, 0.0) && !passes(d, 3, 1.0));
        }
    }
}
