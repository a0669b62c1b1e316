//! A stand-in: the filters were not supplied, and the port reads them from a file. Here the filter of a direction is a
//! single 1.0 for both ears, one frame later for every five degrees, so that an impulse shows which direction a speaker
//! asked for. Tests of the sums hand in their own filters (`HrtfConvolver::with_speakers`).
pub const HRIR_LENGTH: usize = 72;

/// Of which each filter is a part.
static ONE: [f32; 2 * HRIR_LENGTH - 1] = {
    let mut taps = [0.0; 2 * HRIR_LENGTH - 1];
    taps[HRIR_LENGTH - 1] = 1.0;
    taps
};

pub struct Hrir {
    pub left: &'static [f32],
    pub right: &'static [f32],
}

pub fn get_hrir_for_azimuth(azimuth_deg: f64) -> Hrir {
    let late = (azimuth_deg.rem_euclid(360.0) / 5.0) as usize;
    let taps = &ONE[HRIR_LENGTH - 1 - late..2 * HRIR_LENGTH - 1 - late];
    Hrir { left: taps, right: taps }
}
