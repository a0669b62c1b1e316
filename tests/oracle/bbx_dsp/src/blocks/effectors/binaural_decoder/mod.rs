pub mod hrir_data;

// Copied byte for byte, but for what is added at the end of the first: neither the formatter nor the linter has a say in it.
#[rustfmt::skip]
#[allow(clippy::all)]
pub mod hrtf;
#[rustfmt::skip]
#[allow(clippy::all)]
pub mod matrix;
#[rustfmt::skip]
#[allow(clippy::all)]
pub mod virtual_speaker;
