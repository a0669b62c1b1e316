//! Plays frames by the Rust's own convolver: tests/speed counts the instructions.
use crate::rust::{Convolver, Speaker};

const SPEAKERS: usize = 6;
/// The line is always that long. How many of its frames are played is set by the ears' lists, which nothing fills.
const MOST: usize = 4096;

/// Plays the first frames of a line to six speakers, each with a channel of its own and filters of so many taps, and
/// answers the last sample of either ear.
pub fn play(length: usize, frames: usize) -> Option<[f32; 2]> {
    let made = |i: usize, count: usize| -> Vec<f32> { (0..count).map(|k| ((i * 31 + k * 17) % 29) as f32 / 29.0 - 0.5).collect() };
    let one_at = |s: usize| -> Vec<f64> { (0..SPEAKERS).map(|c| f64::from(u8::from(c == s))).collect() };
    let speakers: Vec<Speaker> = (0..SPEAKERS).map(|s| Speaker { weights: one_at(s), left: made(s, length), right: made(s + 7, length) }).collect();
    let line: Vec<Vec<f32>> = (0..SPEAKERS).map(|c| made(c, MOST)).collect();
    let [left, right] = Convolver::new(&speakers).process(&line, [vec![0.0; frames], vec![0.0; frames]]);
    Some([*left.last()?, *right.last()?])
}
