// Copied byte for byte, but for what is added at the end of the first: neither the formatter nor the linter has a say in it.
#[rustfmt::skip]
#[allow(clippy::all)]
pub mod ambisonic_decoder;
#[rustfmt::skip]
#[allow(clippy::all)]
pub mod panner;
// panner.rs but for one line, the rule of document 02, E3; tests/copied holds it to that.
#[rustfmt::skip]
#[allow(clippy::all)]
pub mod panner_corrected;

pub mod binaural_decoder;
