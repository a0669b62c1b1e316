//! A stand-in: nothing of it reaches a sample.
pub struct DspContext {
    pub sample_rate: f64,
}
