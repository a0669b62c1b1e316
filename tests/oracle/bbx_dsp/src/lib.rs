//! The Rust that is ported, for comparing: the five files of bbx_audio (and its channel.rs), commit b21605215e, as
//! they stand, but for two functions that are added at the end of ambisonic_decoder.rs and of hrtf.rs, so that
//! weights, taps and speaker count come from the test, which document 01 allows. Each addition stands under the
//! line `// Added for the tests.`; nothing above it is changed. The licence is in NOTICE.
//!
//! panner_corrected.rs is panner.rs again with one line changed: the raw gain of a surround speaker, as document 02, E3,
//! has it.
//!
//! What the files name and was not supplied is stood in for, in a small file each: `block`, `context`, `math`,
//! `parameter`, `sample`, `smoothing` and `blocks::effectors::binaural_decoder::hrir_data`. docs/DIFFERENCES.md
//! says which conclusions rest on them.

pub mod block;
pub mod blocks;
// Copied byte for byte, so neither the formatter nor the linter has a say in it. tests/copied holds every copied file to
// its checksum.
#[rustfmt::skip]
#[allow(clippy::all)]
pub mod channel;
pub mod context;
pub mod math;
pub mod parameter;
pub mod sample;
pub mod smoothing;
