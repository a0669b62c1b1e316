//! A stand-in: the value is at its target at once, since the port takes a fixed command and has no smoother.
use crate::sample::Sample;

pub struct LinearSmoothedValue<S: Sample>(S);

impl<S: Sample> LinearSmoothedValue<S> {
    pub fn new(value: S) -> Self {
        LinearSmoothedValue(value)
    }

    pub fn target(&self) -> S {
        self.0
    }

    pub fn set_target_value(&mut self, value: S) {
        self.0 = value;
    }

    pub fn get_next_value(&mut self) -> S {
        self.0
    }

    pub fn reset(&mut self, _sample_rate: f64, _ramp_time_ms: f64) {}
}
