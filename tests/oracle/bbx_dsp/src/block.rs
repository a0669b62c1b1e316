//! A stand-in. The limits are those that the arrays of the five files ask for, and that document 01 gives: sixteen
//! channels. The trait has what the five files implement.
use crate::{
    channel::ChannelConfig,
    context::DspContext,
    parameter::{ModulationOutput, ModulationValues, Parameter},
    sample::Sample,
};

pub const MAX_BLOCK_INPUTS: usize = 16;
pub const MAX_BLOCK_OUTPUTS: usize = 16;

pub trait Block<S: Sample> {
    fn process(&mut self, inputs: &[&[S]], outputs: &mut [&mut [S]], modulation_values: &ModulationValues<S>, context: &DspContext);
    fn parameter_names(&self) -> &'static [&'static str] {
        &[]
    }
    fn parameter(&self, _name: &str) -> Option<&Parameter<S>> {
        None
    }
    fn parameter_mut(&mut self, _name: &str) -> Option<&mut Parameter<S>> {
        None
    }
    fn input_count(&self) -> usize;
    fn output_count(&self) -> usize;
    fn modulation_outputs(&self) -> &[ModulationOutput];
    fn channel_config(&self) -> ChannelConfig;
    fn set_smoothing(&mut self, _sample_rate: f64, _ramp_time_ms: f64) {}
    fn prepare(&mut self, _context: &DspContext) {}
}
