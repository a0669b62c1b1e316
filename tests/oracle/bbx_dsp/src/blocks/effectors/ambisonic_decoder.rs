//! Ambisonic decoder block for converting B-format to speaker layouts.

use core::marker::PhantomData;

use crate::{
    block::{Block, MAX_BLOCK_INPUTS, MAX_BLOCK_OUTPUTS},
    channel::{ChannelConfig, ChannelLayout},
    context::DspContext,
    math,
    parameter::{ModulationOutput, ModulationValues},
    sample::Sample,
};

/// Decodes ambisonics B-format to a speaker layout.
///
/// Converts SN3D normalized, ACN ordered ambisonic signals to
/// discrete speaker feeds using a mode-matching decoder.
///
/// # Supported Configurations
/// - Input: 1st order (4 ch), 2nd order (9 ch), or 3rd order (16 ch)
/// - Output: Stereo, 5.1, 7.1, or custom layouts
///
/// # Example
/// Decode first-order ambisonics to stereo using virtual speakers
/// at ±30 degrees azimuth.
pub struct AmbisonicDecoderBlock<S: Sample> {
    input_order: usize,
    output_layout: ChannelLayout,
    decoder_matrix: Box<[[f64; MAX_BLOCK_INPUTS]; MAX_BLOCK_OUTPUTS]>,
    _phantom: PhantomData<S>,
}

impl<S: Sample> AmbisonicDecoderBlock<S> {
    /// Create a new ambisonic decoder.
    ///
    /// # Arguments
    /// * `order` - Ambisonic order (1, 2, or 3)
    /// * `output_layout` - Target speaker layout
    ///
    /// # Panics
    /// Panics if order is not 1, 2, or 3.
    pub fn new(order: usize, output_layout: ChannelLayout) -> Self {
        assert!((1..=3).contains(&order), "Ambisonic order must be 1, 2, or 3");

        let mut decoder = Self {
            input_order: order,
            output_layout,
            decoder_matrix: Box::new([[0.0; MAX_BLOCK_INPUTS]; MAX_BLOCK_OUTPUTS]),
            _phantom: PhantomData,
        };
        decoder.compute_decoder_matrix();
        decoder
    }

    /// Returns the ambisonic order.
    pub fn order(&self) -> usize {
        self.input_order
    }

    /// Returns the output layout.
    pub fn output_layout(&self) -> ChannelLayout {
        self.output_layout
    }

    fn compute_decoder_matrix(&mut self) {
        let speaker_positions = self.get_speaker_positions();
        let num_speakers = self.output_layout.channel_count();
        let num_channels = self.input_channel_count();

        for (spk, &(azimuth, elevation)) in speaker_positions.iter().enumerate().take(num_speakers) {
            let coeffs = self.compute_sh_coefficients(azimuth, elevation);
            self.decoder_matrix[spk][..num_channels].copy_from_slice(&coeffs[..num_channels]);
        }

        self.normalize_decoder_matrix();
    }

    fn get_speaker_positions(&self) -> [(f64, f64); MAX_BLOCK_OUTPUTS] {
        let mut positions = [(0.0, 0.0); MAX_BLOCK_OUTPUTS];

        match self.output_layout {
            ChannelLayout::Mono => {
                positions[0] = (0.0, 0.0);
            }
            ChannelLayout::Stereo => {
                positions[0] = (30.0, 0.0); // Left
                positions[1] = (-30.0, 0.0); // Right
            }
            ChannelLayout::Surround51 => {
                positions[0] = (30.0, 0.0); // L
                positions[1] = (-30.0, 0.0); // R
                positions[2] = (0.0, 0.0); // C
                positions[3] = (0.0, 0.0); // LFE (not directional)
                positions[4] = (110.0, 0.0); // Ls
                positions[5] = (-110.0, 0.0); // Rs
            }
            ChannelLayout::Surround71 => {
                positions[0] = (30.0, 0.0); // L
                positions[1] = (-30.0, 0.0); // R
                positions[2] = (0.0, 0.0); // C
                positions[3] = (0.0, 0.0); // LFE (not directional)
                positions[4] = (90.0, 0.0); // Ls
                positions[5] = (-90.0, 0.0); // Rs
                positions[6] = (150.0, 0.0); // Lrs
                positions[7] = (-150.0, 0.0); // Rrs
            }
            ChannelLayout::Custom(n) => {
                let angle_step = 360.0 / n as f64;
                for (i, pos) in positions.iter_mut().enumerate().take(n) {
                    *pos = (i as f64 * angle_step - 90.0, 0.0);
                }
            }
            _ => {}
        }

        positions
    }

    fn compute_sh_coefficients(&self, azimuth_deg: f64, elevation_deg: f64) -> [f64; MAX_BLOCK_INPUTS] {
        let mut coeffs = [0.0; MAX_BLOCK_INPUTS];

        let az = math::radians(azimuth_deg);
        let el = math::radians(elevation_deg);

        let cos_el = math::cos(el);
        let sin_el = math::sin(el);
        let cos_az = math::cos(az);
        let sin_az = math::sin(az);

        // Order 0 (W channel)
        coeffs[0] = 1.0;

        if self.input_order >= 1 {
            // Order 1: Y, Z, X (ACN 1, 2, 3)
            coeffs[1] = cos_el * sin_az; // Y
            coeffs[2] = sin_el; // Z
            coeffs[3] = cos_el * cos_az; // X
        }

        if self.input_order >= 2 {
            // Order 2: ACN 4-8
            let cos_2az = math::cos(2.0 * az);
            let sin_2az = math::sin(2.0 * az);
            let sin_2el = math::sin(2.0 * el);
            let cos_el_sq = cos_el * cos_el;

            coeffs[4] = 0.8660254037844386 * cos_el_sq * sin_2az; // V
            coeffs[5] = 0.8660254037844386 * sin_2el * sin_az; // T
            coeffs[6] = 0.5 * (3.0 * sin_el * sin_el - 1.0); // R
            coeffs[7] = 0.8660254037844386 * sin_2el * cos_az; // S
            coeffs[8] = 0.8660254037844386 * cos_el_sq * cos_2az; // U
        }

        if self.input_order >= 3 {
            // Order 3: ACN 9-15
            let cos_3az = math::cos(3.0 * az);
            let sin_3az = math::sin(3.0 * az);
            let cos_el_sq = cos_el * cos_el;
            let cos_el_cu = cos_el_sq * cos_el;
            let sin_el_sq = sin_el * sin_el;

            coeffs[9] = 0.7905694150420949 * cos_el_cu * sin_3az; // Q
            coeffs[10] = 1.9364916731037085 * cos_el_sq * sin_el * math::sin(2.0 * az); // O
            coeffs[11] = 0.6123724356957945 * cos_el * (5.0 * sin_el_sq - 1.0) * sin_az; // M
            coeffs[12] = 0.5 * sin_el * (5.0 * sin_el_sq - 3.0); // K
            coeffs[13] = 0.6123724356957945 * cos_el * (5.0 * sin_el_sq - 1.0) * cos_az; // L
            coeffs[14] = 1.9364916731037085 * cos_el_sq * sin_el * math::cos(2.0 * az); // N
            coeffs[15] = 0.7905694150420949 * cos_el_cu * cos_3az; // P
        }

        coeffs
    }

    fn normalize_decoder_matrix(&mut self) {
        let num_speakers = self.output_layout.channel_count();
        let num_channels = self.input_channel_count();

        if num_speakers == 0 {
            return;
        }

        let energy_scale = 1.0 / math::sqrt(num_speakers as f64);

        for spk in 0..num_speakers {
            for ch in 0..num_channels {
                self.decoder_matrix[spk][ch] *= energy_scale;
            }
        }
    }

    fn input_channel_count(&self) -> usize {
        (self.input_order + 1) * (self.input_order + 1)
    }
}

impl<S: Sample> Block<S> for AmbisonicDecoderBlock<S> {
    fn process(
        &mut self,
        inputs: &[&[S]],
        outputs: &mut [&mut [S]],
        _modulation_values: &ModulationValues<S>,
        _context: &DspContext,
    ) {
        let num_inputs = self.input_channel_count().min(inputs.len());
        let num_outputs = self.output_layout.channel_count().min(outputs.len());

        if num_inputs == 0 || num_outputs == 0 || inputs[0].is_empty() {
            return;
        }

        let num_samples = inputs[0].len().min(outputs[0].len());

        for (out_ch, output) in outputs.iter_mut().enumerate().take(num_outputs) {
            for i in 0..num_samples {
                let mut sum = 0.0f64;
                for (in_ch, input) in inputs.iter().enumerate().take(num_inputs) {
                    sum += input[i].to_f64() * self.decoder_matrix[out_ch][in_ch];
                }
                output[i] = S::from_f64(sum);
            }
        }
    }

    #[inline]
    fn input_count(&self) -> usize {
        self.input_channel_count()
    }

    #[inline]
    fn output_count(&self) -> usize {
        self.output_layout.channel_count()
    }

    #[inline]
    fn modulation_outputs(&self) -> &[ModulationOutput] {
        &[]
    }

    #[inline]
    fn channel_config(&self) -> ChannelConfig {
        ChannelConfig::Explicit
    }
}


// Added for the tests.
impl<S: Sample> AmbisonicDecoderBlock<S> {
    /// A decoder whose matrix is the test's: row by row, as many channels a row as the order has.
    pub fn with_weights(order: usize, output_layout: ChannelLayout, weights: &[&[f64]]) -> Self {
        let mut decoder = Self::new(order, output_layout);
        for (row, given) in decoder.decoder_matrix.iter_mut().zip(weights) {
            row[..given.len()].copy_from_slice(given);
        }
        decoder
    }
}
