//! Gains and matrices, against document 01's formulas over the defined sums, within its bounds, and against the Rust at
//! S = f64, within 2^-29. The raw gain of a surround speaker is that of document 02, E3, here and in the Rust.
use crate::exact::{self, Exact};
use crate::frame::{Answer, Case, Sink, Verdict, f64_bytes, hex, request, send};
use crate::random::Random;
use crate::rust::{self, Command, Rule};
use bbx_dsp::channel::ChannelLayout;
use std::sync::LazyLock;

pub const HARMONICS: u8 = 10;
pub const WEIGHTED: u8 = 11;
pub const STEREO: u8 = 12;
pub const SURROUND: u8 = 13;
pub const DECODER_MATRIX: u8 = 15;

/// Document 01, 'Gains' and 'Differential runs'.
const HARMONICS_BITS: usize = 34;
const WEIGHTED_BITS: usize = 34;
const STEREO_BITS: usize = 36;
const SURROUND_BITS: usize = 30;
const MATRIX_BITS: usize = 33;
const RUST_BITS: i32 = 29;

/// What is asked of one gain: how far it is from what it should be, or why it is wrong.
pub type Check = Box<dyn Fn(f64) -> Result<f64, String>>;

/// What is right: a refusal with zeros, or as it was given; or a check for each gain.
enum Right {
    Refused(u8, Vec<u8>),
    Gains(Vec<Check>),
}

fn judge(operation: u8, right: Right, answer: &Answer) -> Verdict {
    let wrong = |why: String| Verdict { wrong: Some(format!("{why}: {} {}", answer.operation, hex(&answer.bytes))), ..Verdict::default() };
    if answer.operation != operation || answer.bytes.is_empty() {
        return wrong("no such answer".to_string());
    }
    let checks = match right {
        Right::Refused(refusal, values) => {
            let right = answer.bytes[0] == refusal && answer.bytes[1..] == values;
            return if right { Verdict::default() } else { wrong(format!("not refused with {refusal}")) };
        }
        Right::Gains(checks) => checks,
    };
    if answer.bytes[0] != 0 || answer.bytes.len() != 1 + 8 * checks.len() {
        return wrong("refused, or another count of gains".to_string());
    }
    match check_all(&answer.bytes[1..], checks) {
        Ok(worst) => Verdict { error: (worst > f64::NEG_INFINITY).then_some(worst), ..Verdict::default() },
        Err(why) => wrong(why),
    }
}

/// Asks of each gain what is asked of it: how far the farthest is off, or why one is wrong.
pub fn check_all(gains: &[u8], checks: Vec<Check>) -> Result<f64, String> {
    let mut worst = f64::NEG_INFINITY;
    for (i, (bytes, check)) in gains.chunks(8).zip(checks).enumerate() {
        let gain = f64::from_bits(u64::from_be_bytes(bytes.try_into().unwrap()));
        let error = if gain.is_finite() { check(gain) } else { Err("no number".to_string()) };
        worst = worst.max(error.map_err(|why| format!("gain {i} is {gain:e}, {why}"))?);
    }
    Ok(worst)
}

fn case(operation: u8, arguments: Vec<u8>, right: impl Fn() -> Right + 'static) -> Case {
    Case { request: request(operation, &arguments), judge: Box::new(move |answer| judge(operation, right(), answer)) }
}

/// Exactly +0.0, and the Rust's within 2^-29 of it.
fn silent_as(rust: Option<f64>) -> Check {
    Box::new(move |gain| {
        if gain.to_bits() != 0 {
            return Err("not 0.0".to_string());
        }
        as_the_rust(gain, rust)?;
        Ok(f64::NEG_INFINITY)
    })
}

/// Exactly +0.0, where the Rust has nothing.
fn silent() -> Check {
    silent_as(None)
}

/// Within 2^-bits of the exact number, and within 2^-29 of the Rust's.
fn near(exact: Exact, bits: usize, rust: Option<f64>) -> Check {
    Box::new(move |gain| {
        let error = Exact::float(gain) - exact.clone();
        if !error.within(bits) {
            return Err(format!("off by 2^{:.2}", error.log2()));
        }
        as_the_rust(gain, rust)?;
        Ok(error.log2())
    })
}

fn as_the_rust(gain: f64, rust: Option<f64>) -> Result<(), String> {
    // One that is NaN is not near.
    let is_near = |rust: f64| (gain - rust).abs() <= 2f64.powi(-RUST_BITS);
    match rust {
        Some(rust) if !is_near(rust) => Err(format!("and the Rust's is {rust:e}")),
        _ => Ok(()),
    }
}

pub fn square(x: Exact) -> Exact {
    x.clone() * x
}

/// By squares: the exact magnitude is the root of `over` / `under`, and the magnitude of the gain is within 2^-bits.
fn near_by_squares(over: Exact, under: Exact, bits: usize, rust: Option<f64>) -> Check {
    Box::new(move |gain| {
        let size = Exact::float(gain.abs());
        let bound = Exact::float(2f64.powi(-(bits as i32)));
        let low = if bound.at_most(&size) { size.clone() - bound.clone() } else { Exact::whole(0) };
        if !(square(low) * under.clone()).at_most(&over) || !over.at_most(&(square(size.clone() + bound) * under.clone())) {
            return Err("off by squares".to_string());
        }
        as_the_rust(gain, rust)?;
        // The difference of the squares over twice the gain, where the gain is not tiny.
        let apart = (square(size) * under.clone() - over.clone()).log2() - under.log2();
        Ok(if gain.abs() > 1e-3 { apart - (2.0 * gain.abs()).log2() } else { f64::NEG_INFINITY })
    })
}

// ---- harmonics and weighted coefficients

/// Document 01's h, q, o, m.
static CONSTANTS: LazyLock<[Exact; 4]> =
    LazyLock::new(|| ["0.8660254037844386", "0.7905694150420949", "1.9364916731037085", "0.6123724356957945"].map(Exact::decimal));

/// Document 01's sixteen formulas, with 2a, 3a and 2e formed exactly.
pub fn harmonics(azimuth: f64, elevation: f64) -> Vec<Exact> {
    let (a, e) = (Exact::float(azimuth), Exact::float(elevation));
    let times = |k: i64, x: &Exact| Exact::whole(k) * x.clone();
    let [sin_a, cos_a] = [exact::sine(&a), exact::cosine(&a)];
    let [sin_2a, cos_2a] = [exact::sine(&times(2, &a)), exact::cosine(&times(2, &a))];
    let [sin_3a, cos_3a] = [exact::sine(&times(3, &a)), exact::cosine(&times(3, &a))];
    let [sin_e, cos_e, sin_2e] = [exact::sine(&e), exact::cosine(&e), exact::sine(&times(2, &e))];
    let [h, q, o, m] = CONSTANTS.clone();
    let cos_e2 = square(cos_e.clone());
    let cos_e3 = cos_e2.clone() * cos_e.clone();
    let sin_e2 = square(sin_e.clone());
    let five = |less: i64| times(5, &sin_e2) - Exact::whole(less);
    vec![
        Exact::whole(1),
        cos_e.clone() * sin_a.clone(),
        sin_e.clone(),
        cos_e.clone() * cos_a.clone(),
        h.clone() * cos_e2.clone() * sin_2a.clone(),
        h.clone() * sin_2e.clone() * sin_a.clone(),
        (times(3, &sin_e2) - Exact::whole(1)).over(2),
        h.clone() * sin_2e * cos_a.clone(),
        h * cos_e2.clone() * cos_2a.clone(),
        q.clone() * cos_e3.clone() * sin_3a,
        o.clone() * cos_e2.clone() * sin_e.clone() * sin_2a,
        m.clone() * cos_e.clone() * five(1) * sin_a,
        (sin_e.clone() * five(3)).over(2),
        m * cos_e * five(1) * cos_a,
        o * cos_e2 * sin_e * cos_2a,
        q * cos_e3 * cos_3a,
    ]
}

/// c^l, c = cos(A/(2(N+1))), for l from 0 to 3 and each order N of 1, 2, 3.
static POWERS: LazyLock<[[Exact; 4]; 3]> = LazyLock::new(|| {
    [1, 2, 3].map(|order| {
        let c = exact::cosine_sum(&Exact::decimal("2.406184877014388").over(2 * (order + 1)));
        [0, 1, 2, 3].map(|degree| (0..degree).fold(Exact::whole(1), |power, _| power * c.clone()))
    })
});

/// The power that the degree of a channel has.
fn max_re(order: usize, channel: usize) -> Exact {
    let degree = (0..4).find(|l| channel < (l + 1) * (l + 1)).unwrap();
    POWERS[order - 1][degree].clone()
}

pub fn is_direction(azimuth: f64, elevation: f64) -> bool {
    (-180.0..=180.0).contains(&azimuth) && (-90.0..=90.0).contains(&elevation)
}

fn refused_direction(order: u64, azimuth: f64, elevation: f64) -> Option<u8> {
    if !(1..=3).contains(&order) { Some(1) } else { (!is_direction(azimuth, elevation)).then_some(3) }
}

/// The directions and orders that are tried: accepted ones, multiples of 90 and their neighbours, and refused ones.
fn directions(random: &mut Random, count: usize) -> Vec<(u64, f64, f64)> {
    let mut all = Vec::new();
    let next =
        |x: f64, off: i64| if x == 0.0 { f64::from_bits(off.unsigned_abs()) * off.signum() as f64 } else { f64::from_bits((x.to_bits() as i64 + off) as u64) };
    for order in 1..=3 {
        for azimuth in [-180.0, -135.0, -90.0, -60.0, -45.0, -30.0, -0.0, 0.0, 30.0, 45.0, 60.0, 90.0, 135.0, 180.0] {
            for elevation in [-90.0, -45.0, -30.0, -0.0, 0.0, 30.0, 45.0, 90.0] {
                if order == 3 || count >= 1000 || azimuth == 90.0 {
                    all.push((order, azimuth, elevation));
                }
            }
        }
    }
    for azimuth in [-180.0, -90.0, 0.0, 90.0, 180.0] {
        for off in [-2, -1, 1, 2] {
            all.push((3, next(azimuth, off), 0.0));
            all.push((3, 30.0, next(azimuth / 2.0, off)));
        }
    }
    for _ in 0..count / 2 {
        all.push((1 + random.below(3), (random.below(3601) as f64 - 1800.0) / 10.0, (random.below(1801) as f64 - 900.0) / 10.0));
        let part = |random: &mut Random| (random.bits() >> 11) as f64 / (1u64 << 53) as f64;
        all.push((1 + random.below(3), part(random) * 360.0 - 180.0, part(random) * 180.0 - 90.0));
    }
    for _ in 0..count / 20 {
        all.push((
            3,
            f64::from_bits(random.bits() & 0x800f_ffff_ffff_ffff | random.below(1030) << 52),
            f64::from_bits(random.bits() & 0x800f_ffff_ffff_ffff | random.below(1028) << 52),
        ));
    }
    let bad = [f64::NAN, f64::INFINITY, f64::NEG_INFINITY, 1e300, next(180.0, 1), next(-180.0, 1)];
    all.extend(bad.map(|azimuth| (2, azimuth, 0.0)));
    all.extend(bad.map(|elevation| (2, 0.0, elevation)));
    all.extend([(1, 0.0, next(90.0, 1)), (1, 0.0, next(-90.0, 1)), (1, f64::NAN, f64::NAN)]);
    all.extend([0, 4, 5, 255, 257, (1 << 32) + 1, u64::MAX].map(|order| (order, 10.0, 10.0)));
    all.extend([(0, f64::NAN, 0.0), (4, 0.0, 91.0)]);
    all
}

pub fn direction_bytes(order: u64, azimuth: f64, elevation: f64) -> Vec<u8> {
    [order.to_be_bytes(), azimuth.to_bits().to_be_bytes(), elevation.to_bits().to_be_bytes()].concat()
}

/// The Rust says the harmonics three times, in the panner, the decoder and the virtual speaker; the panner's are compared
/// here, the others' with the decoder's matrix and the weighted coefficients.
pub fn coefficients(random: &mut Random, count: usize, sink: &mut Sink) {
    let right = |order: u64, azimuth: f64, elevation: f64| {
        if let Some(refusal) = refused_direction(order, azimuth, elevation) {
            return Right::Refused(refusal, vec![0; 128]);
        }
        // As many as the order has; beyond them stands 0.0.
        let rust = rust::gains(Command::Ambisonic(order as usize, azimuth, elevation));
        let mut checks: Vec<Check> = harmonics(azimuth, elevation).into_iter().zip(rust).map(|(x, r)| near(x, HARMONICS_BITS, Some(r))).collect();
        checks.resize_with(16, silent);
        Right::Gains(checks)
    };
    send(sink, directions(random, count).into_iter().map(|(order, a, e)| case(HARMONICS, direction_bytes(order, a, e), move || right(order, a, e))));
}

/// What is asked of the weighted coefficients of a direction that an order has.
pub fn weighted_checks(order: u64, azimuth: f64, elevation: f64) -> Vec<Check> {
    let channels = ((order + 1) * (order + 1)) as usize;
    let rust = rust::weighted(order as usize, azimuth, elevation);
    let weight = |(channel, x): (usize, Exact)| near(x * max_re(order as usize, channel), WEIGHTED_BITS, Some(rust[channel]));
    harmonics(azimuth, elevation).into_iter().take(channels).enumerate().map(weight).collect()
}

pub fn weighted(random: &mut Random, count: usize, sink: &mut Sink) {
    let right = |order: u64, azimuth: f64, elevation: f64| {
        if let Some(refusal) = refused_direction(order, azimuth, elevation) {
            return Right::Refused(refusal, vec![0; 128]);
        }
        let mut checks = weighted_checks(order, azimuth, elevation);
        checks.resize_with(16, silent);
        Right::Gains(checks)
    };
    send(sink, directions(random, count).into_iter().map(|(order, a, e)| case(WEIGHTED, direction_bytes(order, a, e), move || right(order, a, e))));
}

// ---- stereo

pub fn stereo(random: &mut Random, count: usize, sink: &mut Sink) {
    let mut positions: Vec<f64> = (0..count).map(|_| (random.below(2601) as f64 - 1300.0) / 10.0).collect();
    positions.extend((0..count).map(|_| (random.bits() >> 11) as f64 / (1u64 << 53) as f64 * 220.0 - 110.0));
    positions.extend((0..count / 20).map(|_| f64::from_bits(random.bits() & 0x800f_ffff_ffff_ffff | random.below(2046) << 52)));
    for end in [-100.0f64, 100.0, 50.0, -50.0] {
        positions.extend([-1i64, 0, 1].map(|off| f64::from_bits((end.to_bits() as i64 + off) as u64)));
    }
    positions.extend([0.0, -0.0, 250.0, -250.0, 5e-324, -5e-324, f64::MAX, f64::MIN, f64::NAN, f64::INFINITY, f64::NEG_INFINITY]);
    let right = |position: f64| {
        if !position.is_finite() {
            return Right::Refused(3, vec![0; 16]);
        }
        let angle = (Exact::float(position.clamp(-100.0, 100.0)) + Exact::whole(100)) * Exact::whole(90);
        let angle = angle.over(200);
        let rust = rust::gains(Command::Stereo(position));
        Right::Gains(vec![near(exact::cosine(&angle), STEREO_BITS, Some(rust[0])), near(exact::sine(&angle), STEREO_BITS, Some(rust[1]))])
    };
    send(sink, positions.into_iter().map(|p| case(STEREO, p.to_bits().to_be_bytes().to_vec(), move || right(p))));
}

// ---- layouts

/// A layout as a request says it: its number, and n.
#[derive(Clone, Copy)]
pub struct Layout(pub u8, pub u64);

impl Layout {
    pub fn bytes(self) -> Vec<u8> {
        [vec![self.0], self.1.to_be_bytes().to_vec()].concat()
    }

    pub fn rust(self) -> ChannelLayout {
        match self.0 {
            0 => ChannelLayout::Mono,
            1 => ChannelLayout::Stereo,
            2 => ChannelLayout::Surround51,
            3 => ChannelLayout::Surround71,
            _ => ChannelLayout::Custom(self.1 as usize),
        }
    }

    /// How many channels, if the layout is one: Custom n with n 1..16.
    pub fn channels(self) -> Option<usize> {
        let n = [1, 2, 6, 8].get(usize::from(self.0)).copied().unwrap_or(self.1);
        (1..=16).contains(&n).then_some(n as usize)
    }

    /// Where its speakers stand, the LFE at 0. Document 01: "Custom speaker i sits at i x (360/n) - 90, each operation
    /// rounded once".
    pub fn speakers(self) -> Vec<f64> {
        match self.0 {
            0 => vec![0.0],
            1 => vec![30.0, -30.0],
            2 => vec![30.0, -30.0, 0.0, 0.0, 110.0, -110.0],
            3 => vec![30.0, -30.0, 0.0, 0.0, 90.0, -90.0, 150.0, -150.0],
            _ => (0..self.1).map(|i| i as f64 * (360.0 / self.1 as f64) - 90.0).collect(),
        }
    }
}

// ---- surround

/// The raw gain of each speaker, cos d, or none where it is 90 degrees away or more, or the LFE.
pub fn raw_gains(layout: Layout, azimuth: f64) -> Vec<Option<Exact>> {
    let raw = |(channel, speaker): (usize, f64)| {
        let mut d = Exact::float(azimuth) - Exact::float(speaker);
        if d.is_negative() {
            d = -d;
        }
        if !d.at_most(&Exact::whole(180)) {
            d = Exact::whole(360) - d;
        }
        let near = channel != 3 && !Exact::whole(90).at_most(&d);
        near.then(|| exact::cosine(&d))
    };
    layout.speakers().into_iter().enumerate().map(raw).collect()
}

pub fn sum_of_squares(raw: &[Option<Exact>]) -> Exact {
    raw.iter().flatten().fold(Exact::whole(0), |sum, g| sum + square(g.clone()))
}

/// The azimuths that are tried on a layout: accepted ones, every place at which a speaker begins or ends or the way round
/// turns, with its neighbours, and refused ones.
fn azimuths(random: &mut Random, count: usize) -> Vec<f64> {
    let few = count < 1000;
    let count = if few { count / 5 } else { count };
    let mut all: Vec<f64> = (0..count).map(|_| (random.below(3601) as f64 - 1800.0) / 10.0).collect();
    all.extend((0..count).map(|_| (random.bits() >> 11) as f64 / (1u64 << 53) as f64 * 360.0 - 180.0));
    all.extend((0..count / 20).map(|_| f64::from_bits(random.bits() & 0x800f_ffff_ffff_ffff | random.below(1030) << 52)));
    for end in (-18..=18).map(|t| f64::from(t) * 10.0) {
        let near = |off: i64| if end == 0.0 { off as f64 * 5e-324 } else { f64::from_bits((end.to_bits() as i64 + off) as u64) };
        all.extend((-3..=3i64).filter(|off| !few || off.abs() < 2).map(near));
    }
    all.extend([-0.0, f64::NAN, f64::INFINITY, f64::NEG_INFINITY, 180.1, -180.1, 1e300]);
    all
}

fn surround_right(layout: Layout, azimuth: f64) -> Right {
    if layout.0 != 2 && layout.0 != 3 {
        return Right::Refused(2, vec![0; 128]);
    }
    if !(-180.0..=180.0).contains(&azimuth) {
        return Right::Refused(3, vec![0; 128]);
    }
    let raw = raw_gains(layout, azimuth);
    let sum = sum_of_squares(&raw);
    // What the promise says of every azimuth, at this one: the Rust's limit of 1e-10 is never near.
    assert!(Exact::whole(3).over(100).at_most(&sum), "the sum of squares at {azimuth:e} is below 3/100");
    let rust = rust::gains(Command::Surround(Rule::Corrected, layout.rust(), azimuth));
    let gain = |(raw, rust): (Option<Exact>, f64)| match raw {
        None => silent_as(Some(rust)),
        Some(raw) => {
            let squares = near_by_squares(square(raw), sum.clone(), SURROUND_BITS, Some(rust));
            Box::new(move |g: f64| if g.is_sign_negative() { Err("below zero".to_string()) } else { squares(g) }) as Check
        }
    };
    let mut checks: Vec<Check> = raw.into_iter().zip(rust).map(gain).collect();
    checks.resize_with(16, silent);
    Right::Gains(checks)
}

pub fn surround(random: &mut Random, count: usize, sink: &mut Sink) {
    let mut all = Vec::new();
    for layout in [Layout(2, 0), Layout(3, 0)] {
        all.extend(azimuths(random, count).into_iter().map(|a| (layout, a)));
    }
    for layout in [Layout(0, 0), Layout(1, 0), Layout(4, 0), Layout(4, 1), Layout(4, 6), Layout(4, 8), Layout(4, 16), Layout(4, 17), Layout(4, u64::MAX)] {
        all.extend([0.0, 30.0, f64::NAN].map(|a| (layout, a)));
    }
    send(
        sink,
        all.into_iter().map(|(layout, azimuth)| {
            let arguments = [layout.bytes(), azimuth.to_bits().to_be_bytes().to_vec()].concat();
            case(SURROUND, arguments, move || surround_right(layout, azimuth))
        }),
    );
}

// ---- decoder matrix

/// Refusals 1, 2, 5, in this order; on a refusal the lent weights stay.
fn matrix_right(order: u64, layout: Layout, lent: &[f64]) -> Right {
    let channels = ((order & 3) + 1).pow(2) as usize;
    let refusal = match layout.channels() {
        _ if !(1..=3).contains(&order) => 1,
        None => 2,
        Some(n) if lent.len() != n * channels => 5,
        Some(_) => 0,
    };
    if refusal != 0 {
        return Right::Refused(refusal, lent.iter().flat_map(|w| f64_bytes(*w)).collect());
    }
    let speakers = layout.speakers();
    let n = Exact::whole(speakers.len() as i64);
    let rust = rust::decoder_matrix(order as usize, layout.rust());
    let mut checks: Vec<Check> = Vec::new();
    for (speaker, azimuth) in speakers.into_iter().enumerate() {
        for (channel, x) in harmonics(azimuth, 0.0).into_iter().take(channels).enumerate() {
            let squares = near_by_squares(square(x.clone()), n.clone(), MATRIX_BITS, Some(rust[speaker][channel]));
            // The sign of the formula wherever the formula exceeds the bound in magnitude.
            let bound = square(Exact::float(2f64.powi(-(MATRIX_BITS as i32)))) * n.clone();
            let has_sign = !square(x.clone()).at_most(&bound);
            checks.push(Box::new(move |w| if has_sign && w.is_sign_negative() != x.is_negative() { Err("of the other sign".to_string()) } else { squares(w) }));
        }
    }
    Right::Gains(checks)
}

pub fn decoder_matrix(random: &mut Random, count: usize, sink: &mut Sink) {
    let mut layouts: Vec<Layout> = (0..4).map(|l| Layout(l, 0)).collect();
    layouts.extend((0..=17).filter(|n| count >= 1000 || [0, 1, 2, 3, 7, 16, 17].contains(n)).map(|n| Layout(4, n)));
    layouts.extend([Layout(4, 1 << 32), Layout(4, u64::MAX)]);
    let mut all: Vec<(u64, Layout, usize)> = Vec::new();
    for order in [0, 1, 2, 3, 4, 257, u64::MAX] {
        for layout in &layouts {
            let fits = layout.channels().unwrap_or(2) * ((order & 3) as usize + 1).pow(2);
            all.push((order, *layout, fits));
            if count >= 1000 || layout.0 == 1 {
                all.extend([(order, *layout, fits - 1), (order, *layout, fits + 1), (order, *layout, 0)]);
            }
        }
    }
    send(
        sink,
        all.into_iter().map(|(order, layout, weights)| {
            let lent: Vec<f64> = (0..weights).map(|_| f64::from_bits(random.bits())).collect();
            let mut arguments = (lent.len() as u16).to_be_bytes().to_vec();
            arguments.extend(order.to_be_bytes());
            arguments.extend(layout.bytes());
            arguments.extend(lent.iter().flat_map(|w| w.to_bits().to_be_bytes()));
            case(DECODER_MATRIX, arguments, move || matrix_right(order, layout, &lent))
        }),
    );
}

/// The formulas here and the Rust's are written apart from each other; that they agree is tried before the port is held
/// to either.
#[cfg(test)]
mod tests {
    use super::*;
    use crate::frame::Answer;
    use crate::panner::UNNARROWED_BITS;

    fn answer(operation: u8, values: Vec<f64>) -> Answer {
        Answer { operation, bytes: [vec![0], values.iter().flat_map(|v| v.to_bits().to_be_bytes()).collect()].concat() }
    }

    fn passes(verdict: Verdict) -> bool {
        if let Some(wrong) = &verdict.wrong {
            println!("{wrong}");
        }
        verdict.wrong.is_none()
    }

    #[test]
    fn the_rust_passes_as_harmonics() {
        for (azimuth, elevation) in [(0.0, 0.0), (30.0, 20.0), (-101.5, -44.0), (179.0, 89.0)] {
            let checks = || Right::Gains(harmonics(azimuth, elevation).into_iter().map(|x| near(x, HARMONICS_BITS, None)).collect());
            assert!(passes(judge(1, checks(), &answer(1, rust::gains(Command::Ambisonic(3, azimuth, elevation))))));
            let weights =
                || Right::Gains(harmonics(azimuth, elevation).into_iter().enumerate().map(|(i, x)| near(x * max_re(3, i), WEIGHTED_BITS, None)).collect());
            assert!(passes(judge(1, weights(), &answer(1, rust::weighted(3, azimuth, elevation).to_vec()))));
            assert!(judge(1, weights(), &answer(1, rust::weighted(2, azimuth, elevation).to_vec())).wrong.is_some());
        }
    }

    /// Each check lets its bound and nothing more, on both sides, and hears when the Rust is elsewhere.
    #[test]
    fn a_gain_is_judged_by_its_bound() {
        let half = || Exact::whole(1).over(2);
        let root = 0.5f64.sqrt();
        for (off, is_right) in [(0.0, true), (2f64.powi(-31), true), (2f64.powi(-30), true), (2f64.powi(-30) * 1.001, false), (2f64.powi(-29), false)] {
            for gain in [0.5 + off, 0.5 - off] {
                assert_eq!(near(half(), 30, None)(gain).is_ok(), is_right, "{off:e}");
                assert_eq!(near_by_squares(Exact::whole(1), Exact::whole(4), 30, None)(gain).is_ok(), is_right, "{off:e}");
            }
        }
        for (off, is_right) in [(0.0, true), (2f64.powi(-31), true), (2f64.powi(-29), false)] {
            for gain in [root + off, root - off, -root - off, -root + off] {
                assert_eq!(near_by_squares(Exact::whole(1), Exact::whole(2), 30, None)(gain).is_ok(), is_right, "{off:e}");
            }
        }
        assert!(near(half(), 30, None)(-0.5).is_err());
        // A gain that is smaller than the bound, of an exact one that is 0.
        let silent_by_squares = near_by_squares(Exact::whole(0), Exact::whole(2), 30, None);
        assert!(silent_by_squares(0.0).is_ok() && silent_by_squares(2f64.powi(-31)).is_ok() && silent_by_squares(2f64.powi(-29)).is_err());
        for (rust, is_right) in [(0.5, true), (0.5 + 2f64.powi(-30), true), (0.5 - 2f64.powi(-28), false), (f64::NAN, false)] {
            assert_eq!(near(half(), 30, Some(rust))(0.5).is_ok(), is_right, "{rust}");
            assert_eq!(near_by_squares(Exact::whole(1), Exact::whole(4), 30, Some(rust))(0.5).is_ok(), is_right, "{rust}");
        }
        assert!(silent()(0.0).is_ok() && silent()(-0.0).is_err() && silent()(5e-324).is_err());
        assert!(silent_as(Some(1e-17))(0.0).is_ok() && silent_as(Some(1e-8))(0.0).is_err());
    }

    /// Surround gains that are known beforehand, by their bits: a layout, an azimuth, and the gains of its speakers.
    const WORKED: [(u8, f64, &[u64]); 8] = [
        (2, 0.0, &[0x3fe1_86f1_74f8_8472, 0x3fe1_86f1_74f8_8472, 0x3fe4_3d13_6248_490e, 0, 0, 0]),
        (2, 30.0, &[0x3fe6_7570_6f09_02de, 0x3fd6_7570_6f09_02de, 0x3fe3_7329_0ff5_2ce7, 0, 0x3fbf_3309_8002_8168, 0]),
        (2, 120.0, &[0, 0, 0, 0, 0x3ff0_0000_0000_0000, 0]),
        (2, 180.0, &[0, 0, 0, 0, 0x3fe6_a09e_667f_3bcd, 0x3fe6_a09e_667f_3bcd]),
        (2, -180.0, &[0, 0, 0, 0, 0x3fe6_a09e_667f_3bcd, 0x3fe6_a09e_667f_3bcd]),
        (2, 119.99999999999999, &[0x3cc0_3f2f_f998_9906, 0, 0, 0, 0x3ff0_0000_0000_0000, 0]),
        (3, 30.0, &[0x3fe5_5555_5555_5554, 0x3fd5_5555_5555_5554, 0x3fe2_79a7_4590_331d, 0, 0x3fd5_5555_5555_5554, 0, 0, 0]),
        (3, 120.0, &[0, 0, 0, 0, 0x3fe6_a09e_667f_3bcc, 0, 0x3fe6_a09e_667f_3bcc, 0]),
    ];

    /// Why the judge finds gains of a layout's speakers wrong at an azimuth, if it does.
    fn fault(layout: Layout, azimuth: f64, gains: &[f64]) -> Option<String> {
        let mut all = gains.to_vec();
        all.resize(16, 0.0);
        judge(SURROUND, surround_right(layout, azimuth), &answer(SURROUND, all)).wrong
    }

    #[test]
    fn worked_surround_gains_are_those_of_the_formula() {
        let asked = azimuths(&mut Random::new(1, "surround gains"), 400);
        for (layout, azimuth, bits) in WORKED {
            let layout = Layout(layout, 0);
            let worked: Vec<f64> = bits.iter().copied().map(f64::from_bits).collect();
            let raw = raw_gains(layout, azimuth);
            let sum = sum_of_squares(&raw);
            assert_eq!(raw.len(), worked.len());
            for (channel, (raw, gain)) in raw.into_iter().zip(&worked).enumerate() {
                let check = raw.map_or_else(silent, |raw| near_by_squares(square(raw), sum.clone(), 50, None));
                assert!(check(*gain).is_ok(), "{:?} at {azimuth}, gain {channel}", layout.rust());
            }
            assert_eq!(fault(layout, azimuth, &worked), None);
            assert!(asked.contains(&azimuth), "{azimuth} is not asked for");
        }
    }

    /// Before document 02, E3, a speaker was the fainter the nearer the voice was: what was right then is wrong now.
    #[test]
    fn gains_of_the_published_rule_are_wrong() {
        let (five_one, seven_one) = (Layout(2, 0), Layout(3, 0));
        let is_wrong = |layout: Layout, azimuth: f64, gains: &[f64], first: usize| {
            let why = fault(layout, azimuth, gains).unwrap_or_default();
            assert!(why.starts_with(&format!("gain {first} is ")), "{:?} at {azimuth}, {gains:?}: {why}", layout.rust());
        };
        for layout in [five_one, seven_one] {
            let [published, corrected] = [Rule::Published, Rule::Corrected].map(|rule| rust::gains(Command::Surround(rule, layout.rust(), 30.0)));
            is_wrong(layout, 30.0, &published, 0);
            assert_eq!(fault(layout, 30.0, &corrected), None);
        }
        let [half, third] = [2.0, 3.0].map(|n: f64| (1.0 / n).sqrt());
        is_wrong(five_one, 0.0, &[half, half, 0.0], 0);
        is_wrong(five_one, 0.0, &[third, third, third], 0);
        // With the right gains of L and R, C alone is wrong.
        let side = f64::from_bits(WORKED[0].2[0]);
        is_wrong(five_one, 0.0, &[side, side, 0.0], 2);
        is_wrong(five_one, 0.0, &[side, side, third], 2);
    }

    /// Within what the judge of panner blocks takes for the work of rounded radians. Next to 90 from a speaker too: where the Rust takes it for
    /// the other side, its gain is tiny.
    #[test]
    fn the_corrected_rust_is_near_the_formula_at_every_azimuth() {
        let asked = azimuths(&mut Random::new(1, "surround gains"), 1000);
        for layout in [Layout(2, 0), Layout(3, 0)] {
            for azimuth in asked.iter().copied().filter(|a| (-180.0..=180.0).contains(a)) {
                let raw = raw_gains(layout, azimuth);
                let sum = sum_of_squares(&raw);
                let rust = rust::gains(Command::Surround(Rule::Corrected, layout.rust(), azimuth));
                for (channel, (raw, gain)) in raw.into_iter().zip(rust).enumerate() {
                    let over = square(raw.unwrap_or(Exact::whole(0)));
                    let near = near_by_squares(over, sum.clone(), UNNARROWED_BITS as usize, None)(gain);
                    assert!(near.is_ok(), "{:?} at {azimuth:e}, gain {channel} is {gain:e}", layout.rust());
                }
            }
        }
    }

    #[test]
    fn the_rust_passes_as_a_matrix() {
        for (order, layout) in [(1, Layout(0, 0)), (2, Layout(1, 0)), (3, Layout(2, 0)), (3, Layout(3, 0)), (3, Layout(4, 7)), (2, Layout(4, 16))] {
            let matrix = rust::decoder_matrix(order as usize, layout.rust()).concat();
            assert!(passes(judge(1, matrix_right(order, layout, &matrix), &answer(1, matrix.clone()))));
            let mut turned = matrix.clone();
            turned[0] = -turned[0];
            assert!(judge(1, matrix_right(order, layout, &matrix), &answer(1, turned)).wrong.is_some());
        }
    }
}
