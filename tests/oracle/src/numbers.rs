//! Conversions and roots, against the processor's own.
use crate::frame::{Sink, exactly, f32_bytes, f64_bytes, request, send};
use crate::random::Random;

const WIDEN: u8 = 1;
const NARROW: u8 = 2;
const ROOT: u8 = 3;

/// Patterns of every kind of f32: each exponent's field with digits at both ends, and both signs.
fn corners32() -> Vec<u32> {
    let mut all = Vec::new();
    for sign in [0u32, 0x8000_0000] {
        for field in 0..256u32 {
            for digits in [0, 1, 2, 0x3f_ffff, 0x40_0000, 0x40_0001, 0x7f_fffe, 0x7f_ffff] {
                all.push(sign | field << 23 | digits);
            }
        }
    }
    all
}

pub fn widen(random: &mut Random, count: usize, sink: &mut Sink) {
    let mut patterns: Vec<u32> = (0..count).map(|_| random.bits() as u32).collect();
    let corners = corners32();
    if count < corners.len() {
        patterns.extend((0..count).map(|_| corners[random.below(corners.len() as u64) as usize]));
    } else {
        patterns.extend(corners);
    }
    send(sink, patterns.into_iter().map(|bits| exactly(request(WIDEN, &bits.to_be_bytes()), WIDEN, f64_bytes(f64::from(f32::from_bits(bits))).to_vec())));
}

/// An f64 near the middle between two neighbouring f32: the middle itself, or off it by a few of its last digits.
fn near_a_tie(random: &mut Random) -> u64 {
    let low = random.bits() as u32 & 0x7fff_ffff;
    let low = f32::from_bits(if low < 0x7f80_0000 { low } else { low & 0x7f7f_ffff });
    let high = f32::from_bits(low.to_bits() + 1);
    // Past the largest f32 the next would be 2^128.
    let high = if high.is_infinite() { 2f64.powi(128) } else { f64::from(high) };
    let middle = f64::from(low) / 2.0 + high / 2.0;
    let off = random.below(5) as i64 - 2;
    let bits = (middle.to_bits() as i64 + off).max(0) as u64;
    bits | random.bits() & 1 << 63
}

fn narrow_patterns(random: &mut Random, count: usize) -> Vec<u64> {
    let mut all: Vec<u64> = (0..count).map(|_| random.bits()).collect();
    // In the range of f32, where random patterns hardly ever fall.
    all.extend((0..count).map(|_| random.bits() & 0x800f_ffff_ffff_ffff | (860 + random.below(300)) << 52));
    all.extend((0..count).map(|_| near_a_tie(random)));
    // Around the end, 2^128 - 2^103 and 2^128, and around half of the smallest value.
    for around in [0x47ef_ffff_f000_0000u64, 0x47f0_0000_0000_0000, 0x3690_0000_0000_0000, 0x36a0_0000_0000_0000] {
        all.extend((0..9).flat_map(|i| [around + i - 4, (around + i - 4) | 1 << 63]));
    }
    // Zeros, subnormals, the largest, infinities and NaNs of both kinds.
    for bits in [
        0, 1, 0xf_ffff_ffff_ffff, 0x10_0000_0000_0000, 0x7fef_ffff_ffff_ffff, 0x7ff0_0000_0000_0000, 0x7ff0_0000_0000_0001, 0x7ff8_0000_0000_0000,
        0x7fff_ffff_ffff_ffff,
    ] {
        all.extend([bits, bits | 1 << 63]);
    }
    all
}

pub fn narrow(random: &mut Random, count: usize, sink: &mut Sink) {
    send(
        sink,
        narrow_patterns(random, count)
            .into_iter()
            .map(|bits| exactly(request(NARROW, &bits.to_be_bytes()), NARROW, f32_bytes(f64::from_bits(bits) as f32).to_vec())),
    );
}

fn root_patterns(random: &mut Random, count: usize) -> Vec<u64> {
    let mut all: Vec<u64> = (0..count).map(|_| random.bits()).collect();
    // Squares of numbers of 26 digits, which are exact, and their neighbours.
    all.extend((0..count).map(|_| {
        let root = (1 + random.below(1 << 26)) as f64 * 2f64.powi(random.below(400) as i32 - 200);
        ((root * root).to_bits() as i64 + random.below(5) as i64 - 2) as u64
    }));
    // Squares of numbers of 53 digits, rounded: their roots lie near those numbers.
    all.extend((0..count).map(|_| {
        let root = f64::from_bits(random.below(1 << 52) | (600 + random.below(800)) << 52);
        ((root * root).to_bits() as i64 + random.below(5) as i64 - 2) as u64
    }));
    all.extend((0..count).map(|_| random.below(1 << 52) >> random.below(52)));
    for bits in [
        0, 1, 2, 3, 4, 0xf_ffff_ffff_ffff, 0x10_0000_0000_0000, 0x10_0000_0000_0001, 0x3ff0_0000_0000_0000, 0x4000_0000_0000_0000, 0x4010_0000_0000_0000,
        0x7fef_ffff_ffff_fffe, 0x7fef_ffff_ffff_ffff, 0x7ff0_0000_0000_0000, 0x7ff0_0000_0000_0001, 0x7fff_ffff_ffff_ffff,
    ] {
        all.extend([bits, bits | 1 << 63]);
    }
    all
}

/// Document 01: refused with 10 and 0.0 are a NaN, an infinity and a number below zero.
fn root_answer(x: f64) -> Vec<u8> {
    let refused = x.is_nan() || x.is_infinite() || x < 0.0;
    let mut bytes = vec![if refused { 10 } else { 0 }];
    bytes.extend(f64_bytes(if refused { 0.0 } else { x.sqrt() }));
    bytes
}

pub fn root(random: &mut Random, count: usize, sink: &mut Sink) {
    send(sink, root_patterns(random, count).into_iter().map(|bits| exactly(request(ROOT, &bits.to_be_bytes()), ROOT, root_answer(f64::from_bits(bits)))));
}
