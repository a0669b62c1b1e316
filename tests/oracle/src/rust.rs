//! The Rust that is ported, run through its public entries: what it gives for a command, a matrix, a block.
use bbx_dsp::block::Block;
use bbx_dsp::blocks::effectors::ambisonic_decoder::AmbisonicDecoderBlock;
use bbx_dsp::blocks::effectors::binaural_decoder::hrir_data::HRIR_LENGTH;
use bbx_dsp::blocks::effectors::binaural_decoder::hrtf::HrtfConvolver;
use bbx_dsp::blocks::effectors::binaural_decoder::virtual_speaker::VirtualSpeaker;
use bbx_dsp::blocks::effectors::{panner, panner_corrected};
use bbx_dsp::channel::ChannelLayout;
use bbx_dsp::context::DspContext;
use bbx_dsp::parameter::{ModulationValues, Parameter};
use bbx_dsp::sample::Sample;

const CHANNELS: usize = 16;

/// Which raw gain a surround speaker has: that of panner.rs, or cos d, as document 02, E3, has it (panner_corrected.rs).
#[derive(Clone, Copy, Debug)]
pub enum Rule {
    Published,
    Corrected,
}

/// A panner command of the Rust's.
#[derive(Clone, Copy, Debug)]
pub enum Command {
    Stereo(f64),
    Surround(Rule, ChannelLayout, f64),
    Ambisonic(usize, f64, f64),
}

/// Runs a block over input planes, into output planes that hold `before`.
fn run<S: Sample>(block: &mut dyn Block<S>, inputs: &[Vec<S>], before: Vec<Vec<S>>) -> Vec<Vec<S>> {
    let mut outputs = before;
    let inputs: Vec<&[S]> = inputs.iter().map(Vec::as_slice).collect();
    let mut planes: Vec<&mut [S]> = outputs.iter_mut().map(Vec::as_mut_slice).collect();
    block.process(&inputs, &mut planes, &ModulationValues::default(), &DspContext { sample_rate: 48000.0 });
    outputs
}

/// Plays mono samples at a command, into planes that hold `before`.
pub fn pan<S: Sample>(command: Command, input: &[S], before: Vec<Vec<S>>) -> Vec<Vec<S>> {
    pan_planes(command, &[input.to_vec()], before)
}

/// The same with any number of input planes, as the block takes them.
pub fn pan_planes<S: Sample>(command: Command, inputs: &[Vec<S>], before: Vec<Vec<S>>) -> Vec<Vec<S>> {
    let mut block: Box<dyn Block<S>> = match command {
        Command::Stereo(position) => Box::new(panner::PannerBlock::new_stereo(position)),
        Command::Surround(Rule::Published, layout, _) => Box::new(panner::PannerBlock::new_surround(layout)),
        Command::Surround(Rule::Corrected, layout, _) => Box::new(panner_corrected::PannerBlock::new_surround(layout)),
        Command::Ambisonic(order, _, _) => Box::new(panner::PannerBlock::new_ambisonic(order)),
    };
    let mut set = |name: &str, angle: f64| *block.parameter_mut(name).unwrap() = Parameter::constant(S::from_f64(angle));
    if let Command::Surround(_, _, azimuth) | Command::Ambisonic(_, azimuth, _) = command {
        set("azimuth", azimuth);
    }
    if let Command::Ambisonic(_, _, elevation) = command {
        set("elevation", elevation);
    }
    run(&mut *block, inputs, before)
}

/// The gains of a command: what one sample of 1.0 becomes at S = f64, where a product with 1.0 is exact.
pub fn gains(command: Command) -> Vec<f64> {
    let outputs = match command {
        Command::Stereo(_) => 2,
        Command::Surround(_, layout, _) => layout.channel_count(),
        Command::Ambisonic(order, _, _) => ChannelLayout::from_ambisonic_order(order).map_or(4, |l| l.channel_count()),
    };
    pan(command, &[1.0f64], vec![vec![0.0]; outputs]).concat()
}

/// A decoder's matrix, row by row: what a 1.0 on each channel alone becomes at S = f64. The zeros that are added on the
/// way lose the sign of a weight that is zero, and nothing else.
pub fn decoder_matrix(order: usize, layout: ChannelLayout) -> Vec<Vec<f64>> {
    let channels = (order + 1) * (order + 1);
    let units: Vec<Vec<f64>> = (0..channels).map(|c| (0..channels).map(|i| f64::from(u8::from(i == c))).collect()).collect();
    let mut block = AmbisonicDecoderBlock::new(order, layout);
    run(&mut block, &units, vec![vec![0.0; channels]; layout.channel_count()])
}

/// Plays planes through a matrix of the test's. Of the 16 channels that it has there, as many count as there are planes.
pub fn decode(weights: &[&[f64]], inputs: &[Vec<f32>], before: Vec<Vec<f32>>) -> Vec<Vec<f32>> {
    decode_order(3, weights, inputs, before)
}

/// The same with no more channels than an order has.
pub fn decode_order(order: usize, weights: &[&[f64]], inputs: &[Vec<f32>], before: Vec<Vec<f32>>) -> Vec<Vec<f32>> {
    let mut block = AmbisonicDecoderBlock::with_weights(order, ChannelLayout::Custom(weights.len()), weights);
    run(&mut block, inputs, before)
}

/// Plays planes through binaural rows of an order: the Rust's own decoder of that order, with them as its matrix.
pub fn binaural(order: usize, [left, right]: &[[f64; CHANNELS]; 2], inputs: &[Vec<f32>], before: Vec<Vec<f32>>) -> Vec<Vec<f32>> {
    let mut block = AmbisonicDecoderBlock::with_weights(order, ChannelLayout::Stereo, &[left, right]);
    run(&mut block, inputs, before)
}

/// The weighted coefficients of a direction.
pub fn weighted(order: usize, azimuth: f64, elevation: f64) -> [f64; CHANNELS] {
    VirtualSpeaker::new(azimuth, elevation, order, &[], &[]).sh_weights
}

/// What a convolver plays when an impulse comes in on each channel alone, times the root of the speakers: for each channel
/// and each direction, in steps of five degrees, the sum of the weights of the speakers that take their filters from there.
pub struct Impulses(Vec<Vec<f64>>);

impl Impulses {
    pub fn silent(channels: usize) -> Self {
        Impulses(vec![vec![0.0; HRIR_LENGTH]; channels])
    }

    fn of(mut convolver: HrtfConvolver, channels: usize, speakers: usize) -> Self {
        let mut all = Impulses::silent(channels);
        for (channel, heard) in all.0.iter_mut().enumerate() {
            let mut inputs = vec![vec![0.0f64; HRIR_LENGTH]; channels];
            inputs[channel][0] = 1.0;
            let planes: Vec<&[f64]> = inputs.iter().map(Vec::as_slice).collect();
            let mut right = vec![0.0; HRIR_LENGTH];
            convolver.reset();
            convolver.process(&planes, heard, &mut right, channels);
            assert_eq!(*heard, right);
            heard.iter_mut().for_each(|x| *x *= (speakers as f64).sqrt());
        }
        all
    }

    /// A speaker's weight for a channel, at the place of its direction.
    pub fn add(&mut self, channel: usize, azimuth: f64, weight: f64) {
        self.0[channel][(azimuth.rem_euclid(360.0) / 5.0) as usize] += weight;
    }

    pub fn is_near(&self, other: &Impulses, bound: f64) -> bool {
        let both = self.0.concat().into_iter().zip(other.0.concat());
        self.0.len() == other.0.len() && both.into_iter().all(|(a, b)| (a - b).abs() <= bound)
    }

    /// The direction in degrees, from -175 to 180, that alone is heard of a channel.
    pub fn only_direction(&self, channel: usize) -> f64 {
        let heard: Vec<usize> = (0..HRIR_LENGTH).filter(|i| self.0[channel][*i] != 0.0).collect();
        assert_eq!(heard.len(), 1);
        let degrees = heard[0] as f64 * 5.0;
        if degrees > 180.0 { degrees - 360.0 } else { degrees }
    }
}

pub fn surround_impulses(channels: usize) -> Impulses {
    Impulses::of(HrtfConvolver::new_surround(channels), channels, channels)
}

pub fn ambisonic_impulses(order: usize) -> Impulses {
    Impulses::of(HrtfConvolver::new_ambisonic(order), (order + 1) * (order + 1), 8)
}

/// A speaker of a convolver: its weights, and its taps for either ear.
#[derive(Clone)]
pub struct Speaker {
    pub weights: Vec<f64>,
    pub left: Vec<f32>,
    pub right: Vec<f32>,
}

/// The Rust's convolver with speakers of the test's. Its filters are borrowed for ever, so they are handed out and
/// taken back.
pub struct Convolver {
    convolver: HrtfConvolver,
    filters: Vec<*mut [f32]>,
}

impl Convolver {
    pub fn new(speakers: &[Speaker]) -> Self {
        let mut filters = Vec::new();
        let mut lend = |taps: &[f32]| -> &'static [f32] {
            let lent = Box::into_raw(taps.to_vec().into_boxed_slice());
            filters.push(lent);
            // SAFETY: the box is freed only when the convolver that holds it is dropped with it.
            unsafe { &*lent }
        };
        let given: Vec<_> = speakers
            .iter()
            .map(|s| {
                let mut weights = [0.0; CHANNELS];
                weights[..s.weights.len()].copy_from_slice(&s.weights);
                (weights, lend(&s.left), lend(&s.right))
            })
            .collect();
        Convolver { convolver: HrtfConvolver::with_speakers(&given), filters }
    }

    /// Leaves every signal at 0.0.
    pub fn reset(&mut self) {
        self.convolver.reset();
    }

    /// Plays planes into ears that hold `before`, left and right.
    pub fn process(&mut self, inputs: &[Vec<f32>], before: [Vec<f32>; 2]) -> [Vec<f32>; 2] {
        self.process_channels(inputs.len(), inputs, before)
    }

    /// The same with a count of channels that need not be that of the planes.
    pub fn process_channels(&mut self, channels: usize, inputs: &[Vec<f32>], before: [Vec<f32>; 2]) -> [Vec<f32>; 2] {
        let [mut left, mut right] = before;
        let planes: Vec<&[f32]> = inputs.iter().map(Vec::as_slice).collect();
        self.convolver.process(&planes, &mut left, &mut right, channels);
        [left, right]
    }
}

impl Drop for Convolver {
    fn drop(&mut self) {
        for filter in self.filters.drain(..) {
            // SAFETY: made by `Box::into_raw` above, freed once, and read by nothing after this.
            drop(unsafe { Box::from_raw(filter) });
        }
    }
}

#[cfg(test)]
mod tests {
    use super::*;

    const AS_PUBLISHED: &str = include_str!("../bbx_dsp/src/blocks/effectors/panner.rs");
    const AS_CORRECTED: &str = include_str!("../bbx_dsp/src/blocks/effectors/panner_corrected.rs");

    #[test]
    fn the_corrected_panner_differs_in_one_line() {
        let (published, corrected) = (AS_PUBLISHED.split('\n'), AS_CORRECTED.split('\n'));
        assert_eq!(published.clone().count(), corrected.clone().count());
        let differing: Vec<_> = published.zip(corrected).filter(|(was, is)| was != is).collect();
        let was = "                *gain = math::cos((spread - angle_diff) / spread * core::f64::consts::FRAC_PI_2);";
        assert_eq!(differing, [(was, "                *gain = math::cos(angle_diff);")]);
    }

    /// A voice at a speaker: by the published rule that speaker is silent, by the corrected one it is the loudest.
    #[test]
    fn the_two_rules_are_told_apart() {
        for layout in [ChannelLayout::Surround51, ChannelLayout::Surround71] {
            for (channel, azimuth) in [30.0, -30.0, 0.0].into_iter().enumerate() {
                assert!(gains(Command::Surround(Rule::Published, layout, azimuth))[channel] < 1e-15, "{layout:?} at {azimuth}");
                let corrected = gains(Command::Surround(Rule::Corrected, layout, azimuth));
                assert!(corrected.iter().enumerate().all(|(i, gain)| i == channel || *gain < corrected[channel]), "{layout:?} at {azimuth}");
            }
        }
    }
}
