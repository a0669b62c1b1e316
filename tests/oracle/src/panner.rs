//! Panner blocks. A plane's gain is read off its first sample, since the first input sample is 1.0: it is held to the
//! documents' formula, narrowed, and every other sample to the f32 product with it. At commands that are exact in f32 the Rust's
//! own block at S = f32 is compared too, plane by plane. Planes whose gain it narrows to another f32 are counted, and each
//! has to have a listed cause: nothing but its gain differs, and that by no more than the cause allows.
use crate::exact::{self, Exact};
use crate::frame::{Answer, Case, Sink, Verdict, f32_bytes, judged, request, send};
use crate::gains::{Layout, harmonics, is_direction, raw_gains, square, sum_of_squares};
use crate::random::Random;
use crate::rust::{self, Rule};

pub const PAN: u8 = 14;

/// Document 01, 'Gains', for a position, an azimuth, a direction.
const BITS: [i32; 3] = [36, 30, 34];

/// By how much a narrowed gain of the Rust's may be another: in stereo for its quarter turn in f32, elsewhere for rounded
/// radians.
const QUARTER_TURN_BITS: i32 = 23;
const RADIANS_BITS: i32 = 50;

/// How far rounded radians put a gain off before it is narrowed: the most that was seen is 2^-49.2. Below 2^-23, where two
/// neighbouring f32 are no farther apart than twice that, it allows either. `RADIANS_BITS` is tighter, for a whole step of the
/// f32 is seen there and not what is left of it.
pub const UNNARROWED_BITS: i32 = 48;

/// A command as a request says it.
#[derive(Clone, Copy)]
enum Command {
    Stereo(f64),
    Surround(f64),
    Direction(f64, f64, u64),
}

/// The square of the exact gain of a plane, as a fraction, and its sign; or silence.
struct Gain {
    over: Exact,
    under: Exact,
    negative: bool,
    silent: bool,
}

impl Gain {
    /// Whether its magnitude is within a bound of that of a number; by squares.
    fn is_within(&self, bound: f64, number: f64) -> bool {
        let (bound, size) = (Exact::float(bound), Exact::float(number.abs()));
        let low = if bound.at_most(&size) { size.clone() - bound.clone() } else { Exact::whole(0) };
        (square(low) * self.under.clone()).at_most(&self.over) && self.over.at_most(&(square(size + bound) * self.under.clone()))
    }

    /// Whether rounded radians decide to which of two f32 it is narrowed: they are neighbours, and it is in their middle.
    fn is_between(&self, one: f32, other: f32) -> bool {
        let middle = (f64::from(one) + f64::from(other)) / 2.0;
        (one.next_up() == other || other.next_up() == one) && self.is_within(2f64.powi(-UNNARROWED_BITS), middle)
    }
}

fn gain(x: Exact) -> Gain {
    Gain { negative: x.is_negative(), over: square(x), under: Exact::whole(1), silent: false }
}

pub struct Block {
    command: Command,
    layout: Layout,
    frames: u64,
    stride: u64,
    input: Vec<f32>,
    planes: Vec<f32>,
}

/// A sample of an answer, where the answer shows it.
pub type Shown = Option<[u8; 4]>;

impl Block {
    /// Samples that are played at a direction, for `judge_planes` alone.
    pub fn at_direction(azimuth: f64, elevation: f64, order: u64, samples: &[f32]) -> Self {
        let count = samples.len() as u64;
        let command = Command::Direction(azimuth, elevation, order);
        Block { command, layout: Layout(0, 0), frames: count, stride: count, input: samples.to_vec(), planes: Vec::new() }
    }

    /// Refusals 1, 2, 3, of which the first that the command has.
    fn refused_command(&self) -> Option<u8> {
        let bad_layout = self.layout.channels().is_none();
        match self.command {
            Command::Stereo(_) if bad_layout => Some(2),
            Command::Stereo(p) => (!p.is_finite()).then_some(3),
            Command::Surround(_) if self.layout.0 != 2 && self.layout.0 != 3 => Some(2),
            Command::Surround(a) => (!(-180.0..=180.0).contains(&a)).then_some(3),
            Command::Direction(_, _, order) if !(1..=3).contains(&order) => Some(1),
            Command::Direction(..) if bad_layout => Some(2),
            Command::Direction(a, e, _) => (!is_direction(a, e)).then_some(3),
        }
    }

    fn plane_count(&self) -> usize {
        match self.command {
            Command::Stereo(_) => 2,
            Command::Surround(_) => self.layout.channels().unwrap_or(0),
            Command::Direction(_, _, order) => ((order & 3) as usize + 1).pow(2),
        }
    }

    /// And 5, 6.
    fn refusal(&self) -> u8 {
        let is = |list: usize, planes: usize| planes as u128 * u128::from(self.stride) == list as u128;
        if let Some(refusal) = self.refused_command() {
            refusal
        } else if self.stride < self.frames || !is(self.input.len(), 1) || !is(self.planes.len(), self.plane_count()) {
            5
        } else if self.frames > 4096 {
            6
        } else {
            0
        }
    }

    /// The exact gains of the planes of an accepted command.
    fn gains(&self) -> Vec<Gain> {
        match self.command {
            Command::Stereo(p) => {
                let angle = ((Exact::float(p.clamp(-100.0, 100.0)) + Exact::whole(100)) * Exact::whole(90)).over(200);
                vec![gain(exact::cosine(&angle)), gain(exact::sine(&angle))]
            }
            Command::Surround(a) => {
                let raw = raw_gains(self.layout, a);
                let sum = sum_of_squares(&raw);
                raw.into_iter().map(|g| Gain { silent: g.is_none(), negative: false, over: square(g.unwrap_or(Exact::whole(0))), under: sum.clone() }).collect()
            }
            Command::Direction(a, e, _) => harmonics(a, e).into_iter().take(self.plane_count()).map(gain).collect(),
        }
    }

    /// What the Rust's own block gives, at a command that is exact in f32.
    fn by_the_rust(&self) -> Option<Vec<Vec<f32>>> {
        let is_exact = |x: f64| f64::from(x as f32) == x;
        let command = match self.command {
            Command::Stereo(p) => is_exact(p).then_some(rust::Command::Stereo(p)),
            Command::Surround(a) => is_exact(a).then_some(rust::Command::Surround(Rule::Corrected, self.layout.rust(), a)),
            Command::Direction(a, e, order) => (is_exact(a) && is_exact(e)).then_some(rust::Command::Ambisonic(order as usize, a, e)),
        }?;
        let frames = self.frames as usize;
        Some(rust::pan(command, &self.input[..frames], vec![vec![0.0; frames]; self.plane_count()]))
    }

    fn arguments(&self) -> Vec<u8> {
        let mut bytes: Vec<u8> = [self.input.len(), self.planes.len()].iter().flat_map(|n| (*n as u16).to_be_bytes()).collect();
        let (which, angle, elevation, order) = match self.command {
            Command::Stereo(p) => (0u8, p, 0.0f64, 0u64),
            Command::Surround(a) => (1, a, 0.0, 0),
            Command::Direction(a, e, order) => (2, a, e, order),
        };
        bytes.push(which);
        bytes.extend([angle.to_bits(), elevation.to_bits(), order].iter().flat_map(|n| n.to_be_bytes()));
        bytes.extend(self.layout.bytes());
        bytes.extend([self.frames, self.stride].iter().flat_map(|n| n.to_be_bytes()));
        bytes.extend(self.input.iter().chain(&self.planes).flat_map(|x| x.to_bits().to_be_bytes()));
        bytes
    }

    fn case(self) -> Case {
        judged(request(PAN, &self.arguments()), move |answer| self.judge(answer))
    }

    fn judge(&self, answer: &Answer) -> Result<Verdict, String> {
        let refusal = self.refusal();
        if answer.operation != PAN || answer.bytes.len() != 9 + 4 * self.planes.len() {
            return Err("no such answer".to_string());
        }
        let samples = if refusal == 0 { self.frames } else { 0 };
        if answer.bytes[0] != refusal || answer.bytes[1..9] != samples.to_be_bytes() {
            return Err(format!("expected refusal {refusal} and {samples} samples"));
        }
        let after: Vec<Shown> = answer.bytes[9..].chunks(4).map(|b| b.try_into().ok()).collect();
        let (frames, stride) = (samples as usize, self.stride as usize);
        let played = |i: usize| frames > 0 && i % stride < frames;
        if (0..after.len()).any(|i| !played(i) && after[i] != Some(f32_bytes(self.planes[i]))) {
            return Err("a sample that is not played has changed".to_string());
        }
        if frames == 0 {
            return Ok(Verdict::default());
        }
        let aside = self.judge_planes(after.chunks(stride).map(|plane| &plane[..frames]))?;
        Ok(Verdict { aside, ..Verdict::default() })
    }

    /// Holds every plane, as far as it is shown, to its gain, read off a sample that was 1.0, to the products with it and to the
    /// Rust's. How many are right and not the Rust's.
    pub fn judge_planes<'a>(&self, planes: impl Iterator<Item = &'a [Shown]>) -> Result<usize, String> {
        let rust = self.by_the_rust();
        let mut aside = 0;
        for (p, (exact, plane)) in self.gains().into_iter().zip(planes).enumerate() {
            if plane.iter().all(Option::is_none) {
                continue;
            }
            let Some((one, sample)) = plane.iter().enumerate().find_map(|(n, y)| y.filter(|_| self.input[n] == 1.0).map(|y| (n, y))) else {
                return Err(format!("no 1.0 shows the gain of plane {p}"));
            };
            let narrowed = f32::from_bits(u32::from_be_bytes(sample));
            self.judge_gain(narrowed, &exact).map_err(|why| format!("plane {p}, gain {narrowed:e}, {why}"))?;
            let differs = |from: &dyn Fn(usize) -> f32| plane.iter().enumerate().any(|(n, y)| y.is_some_and(|y| y != f32_bytes(from(n))));
            if differs(&|n| self.input[n] * narrowed) {
                return Err(format!("plane {p} is not the product with its gain"));
            }
            let Some(theirs) = rust.as_ref().map(|r| &r[p]) else { continue };
            if differs(&|n| theirs[n]) {
                self.judge_difference(narrowed, &exact, theirs, theirs[one])
                    .map_err(|why| format!("plane {p}, gain {narrowed:e}, the Rust's {:e}, {why}", theirs[one]))?;
                aside += 1;
            }
        }
        Ok(aside)
    }

    /// A plane of the Rust's that is not ours: it is the product with its own gain, and this gain is off by what its stereo
    /// quarter turn in f32 makes, or by what rounded radians make. Those show in a gain that is tiny, where the f32 lie close,
    /// and, seen in surround alone, in one that is in the middle between two f32.
    fn judge_difference(&self, ours: f32, exact: &Gain, theirs: &[f32], gain: f32) -> Result<(), String> {
        if theirs.iter().zip(&self.input).any(|(y, x)| f32_bytes(*y) != f32_bytes(x * gain)) {
            return Err("differs in more than its gain".to_string());
        }
        let off = (f64::from(ours) - f64::from(gain)).abs();
        let bits = if matches!(self.command, Command::Stereo(_)) { QUARTER_TURN_BITS } else { RADIANS_BITS };
        let in_the_middle = matches!(self.command, Command::Surround(_)) && exact.is_between(ours, gain);
        if off <= 2f64.powi(-bits) || in_the_middle { Ok(()) } else { Err("for no listed cause".to_string()) }
    }

    /// A narrowed gain: within the bound and half a step of the exact one.
    fn judge_gain(&self, narrowed: f32, exact: &Gain) -> Result<(), String> {
        if exact.silent {
            return if narrowed.to_bits() == 0 { Ok(()) } else { Err("not silent".to_string()) };
        }
        let bits = match self.command {
            Command::Stereo(_) => BITS[0],
            Command::Surround(_) => BITS[1],
            Command::Direction(..) => BITS[2],
        };
        if !narrowed.is_finite() {
            return Err("no number".to_string());
        }
        let bound = 2f64.powi(-bits) + f64::from(narrowed.abs()) * 2f64.powi(-24) + 2f64.powi(-149);
        let near = exact.is_within(bound, f64::from(narrowed));
        let has_sign = !exact.is_within(bound, 0.0);
        if near && (!has_sign || narrowed.is_sign_negative() == exact.negative) { Ok(()) } else { Err("off".to_string()) }
    }
}

/// A block whose lengths fit. Its first input sample is 1.0.
fn fitting(random: &mut Random, command: Command, layout: Layout, frames: usize, stride: usize) -> Block {
    let mut block = Block { command, layout, frames: frames as u64, stride: stride as u64, input: Vec::new(), planes: Vec::new() };
    let mut sample = || {
        if random.below(4) == 0 {
            f32::from_bits(random.bits() as u32)
        } else {
            f32::from_bits(random.bits() as u32 & 0x807f_ffff | (100 + random.below(40) as u32) << 23)
        }
    };
    block.input = (0..stride).map(|_| sample()).collect();
    if stride > 0 {
        block.input[0] = 1.0;
    }
    block.planes = (0..block.plane_count() * stride).map(|_| sample()).collect();
    block
}

/// A command of one kind; every second one exact in f32.
fn command(random: &mut Random, kind: u64) -> (Command, Layout) {
    let part = (random.bits() >> 11) as f64 / (1u64 << 53) as f64;
    let other = (random.bits() >> 11) as f64 / (1u64 << 53) as f64;
    let cut = random.below(2) == 0;
    let exact = |x: f64| if cut { f64::from(x as f32) } else { x };
    let any = Layout(random.below(4) as u8, 0);
    match kind {
        0 => (Command::Stereo(exact(part * 220.0 - 110.0)), any),
        1 => (Command::Surround(exact(part * 360.0 - 180.0)), Layout(2 + random.below(2) as u8, 0)),
        _ => (Command::Direction(exact(part * 360.0 - 180.0), exact(other * 180.0 - 90.0), 1 + random.below(3)), any),
    }
}

/// The azimuths that are 90 degrees from a speaker of a layout.
fn ninety_from_a_speaker(layout: Layout) -> Vec<f64> {
    let both = layout.speakers().into_iter().flat_map(|speaker| [speaker - 90.0, speaker + 90.0]);
    let mut all: Vec<f64> = both.map(|a| if a.abs() > 180.0 { a - 360.0f64.copysign(a) } else { a }).collect();
    all.sort_by(f64::total_cmp);
    all.dedup();
    all
}

/// An azimuth and its neighbours: first among the f32, then among the f64. For 0 the Rust at S = f32 takes all up to 2^-23,
/// so that next to 0 the first two are farther.
fn with_neighbours(azimuth: f64) -> [f64; 5] {
    let narrowed = azimuth as f32;
    let [below, above] = if azimuth == 0.0 { [-2f32.powi(-22), 2f32.powi(-22)] } else { [narrowed.next_down(), narrowed.next_up()] };
    [azimuth, f64::from(below), f64::from(above), azimuth.next_down(), azimuth.next_up()]
}

fn refused(random: &mut Random) -> Vec<Case> {
    let mut all = Vec::new();
    let commands = [
        Command::Stereo(10.0),
        Command::Stereo(f64::NAN),
        Command::Stereo(f64::INFINITY),
        Command::Surround(20.0),
        Command::Surround(181.0),
        Command::Surround(f64::NAN),
        Command::Direction(1.0, 2.0, 1),
        Command::Direction(1.0, 2.0, 0),
        Command::Direction(1.0, 2.0, 4),
        Command::Direction(181.0, 0.0, 1),
        Command::Direction(0.0, 91.0, 4),
        Command::Direction(0.0, f64::NAN, 2),
    ];
    for command in commands {
        for layout in [Layout(0, 0), Layout(1, 0), Layout(2, 0), Layout(3, 0), Layout(4, 0), Layout(4, 6), Layout(4, 17)] {
            all.push(fitting(random, command, layout, 1, 2).case());
        }
    }
    let changes: [&dyn Fn(&mut Block); 9] = [
        &|b| b.stride = 1,
        &|b| b.frames = 4,
        &|b| b.frames = u64::MAX,
        &|b| b.stride = 1 << 62,
        &|b| b.stride = (1 << 63) + 3,
        &|b| _ = b.input.pop(),
        &|b| _ = b.planes.pop(),
        &|b| b.input.push(1.0),
        &|b| b.planes.push(1.0),
    ];
    for change in changes {
        for kind in 0..3 {
            let (command, layout) = command(random, kind);
            let mut block = fitting(random, command, layout, 2, 3);
            change(&mut block);
            all.push(block.case());
        }
    }
    all
}

pub fn cases(random: &mut Random, count: usize, sink: &mut Sink) {
    send(sink, refused(random));
    // The longest block, one frame less and one frame more; with a length that does not fit, 5 comes before 6.
    for frames in [4095, 4096, 4097] {
        let layout = Layout(1, 0);
        if count >= 1000 || frames == 4097 {
            sink(fitting(random, Command::Stereo(-30.0), layout, frames, frames).case());
        }
    }
    let mut unfit = fitting(random, Command::Stereo(0.0), Layout(1, 0), 2, 3);
    unfit.frames = 4097;
    sink(unfit.case());
    for position in [-100.0, 0.0, 100.0, 250.0, -250.0, f64::MAX] {
        sink(fitting(random, Command::Stereo(position), Layout(1, 0), 2, 2).case());
    }
    for azimuth in [-180.0, -120.0, -90.0, 0.0, 60.0, 90.0, 120.0, 119.99999999999999, 180.0] {
        send(sink, [Layout(2, 0), Layout(3, 0)].map(|layout| fitting(random, Command::Surround(azimuth), layout, 2, 2).case()));
        sink(fitting(random, Command::Direction(azimuth, azimuth / 2.0, 3), Layout(0, 0), 2, 2).case());
    }
    for layout in [Layout(2, 0), Layout(3, 0)] {
        let azimuths = ninety_from_a_speaker(layout).into_iter().flat_map(with_neighbours);
        send(sink, azimuths.map(|azimuth| fitting(random, Command::Surround(azimuth), layout, 2, 2).case()));
    }
    for kind in 0..3 {
        for _ in 0..(if count < 1000 { count / 20 } else { count / 2 }) {
            let (command, layout) = command(random, kind);
            let frames = random.below(5) as usize;
            let stride = frames + random.below(3) as usize;
            sink(fitting(random, command, layout, frames, stride).case());
        }
    }
}

#[cfg(test)]
mod tests {
    use super::*;

    /// The f32 nearest the magnitude of an exact gain.
    fn nearest(exact: &Gain) -> f32 {
        let is_at_most = |x: f64| (square(Exact::float(x)) * exact.under.clone()).at_most(&exact.over);
        let (mut low, mut high) = (0, 2f32.to_bits());
        while high - low > 1 {
            let middle = (low + high) / 2;
            if is_at_most(f64::from(f32::from_bits(middle))) { low = middle } else { high = middle }
        }
        let (low, high) = (f32::from_bits(low), f32::from_bits(high));
        if is_at_most((f64::from(low) + f64::from(high)) / 2.0) { high } else { low }
    }

    fn at(layout: Layout, azimuth: f64) -> Block {
        fitting(&mut Random::new(7, "azimuths"), Command::Surround(azimuth), layout, 2, 2)
    }

    /// The gains of a block's formula, narrowed.
    fn narrowed(block: &Block) -> Vec<f32> {
        block.gains().iter().map(|exact| if exact.silent { 0.0 } else { nearest(exact) }).collect()
    }

    /// What the judge says of planes that are the products with these gains.
    fn verdict(block: &Block, gains: &[f32]) -> Result<usize, String> {
        let plane = |gain: &f32| -> Vec<Shown> { block.input.iter().map(|x| Some(f32_bytes(x * gain))).collect() };
        let planes: Vec<Vec<Shown>> = gains.iter().map(plane).collect();
        block.judge_planes(planes.iter().map(Vec::as_slice))
    }

    #[test]
    fn ninety_from_a_speaker_is_compared_with_the_rust() {
        let from_51 = [-160.0, -120.0, -90.0, -60.0, -20.0, 20.0, 60.0, 90.0, 120.0, 160.0];
        let from_71 = [-180.0, -120.0, -90.0, -60.0, 0.0, 60.0, 90.0, 120.0, 180.0];
        for (layout, right) in [(Layout(2, 0), &from_51[..]), (Layout(3, 0), &from_71)] {
            assert_eq!(ninety_from_a_speaker(layout), right);
            for block in right.iter().flat_map(|a| with_neighbours(*a)).map(|a| at(layout, a)).filter(|block| block.refusal() == 0) {
                let Command::Surround(azimuth) = block.command else { unreachable!() };
                let is_exact = f64::from(azimuth as f32) == azimuth;
                assert_eq!(block.by_the_rust().is_some(), is_exact, "{:?} at {azimuth:e}", layout.rust());
                assert_eq!(verdict(&block, &narrowed(&block)).err(), None, "{:?} at {azimuth:e}", layout.rust());
            }
        }
    }

    /// Next to 90 from L two steps of its gain are far below document 01's bound: it is the Rust that tells.
    #[test]
    fn a_tiny_gain_is_held_to_the_rust() {
        let [_, below, above, ..] = with_neighbours(120.0);
        let (sounding, silent) = (at(Layout(2, 0), below), at(Layout(2, 0), above));
        let mut gains = narrowed(&sounding);
        assert!((1e-7..2e-7).contains(&gains[0]));
        gains[0] = gains[0].next_up().next_up();
        assert!(verdict(&sounding, &gains).unwrap_err().ends_with("for no listed cause"));
        let mut gains = narrowed(&silent);
        gains[0] = 1e-17;
        assert!(verdict(&silent, &gains).unwrap_err().ends_with("not silent"));
    }

    #[test]
    fn blocks_of_the_published_rule_are_wrong() {
        for layout in [Layout(2, 0), Layout(3, 0)] {
            let gains = |rule: Rule| -> Vec<f32> { rust::gains(rust::Command::Surround(rule, layout.rust(), 30.0)).iter().map(|g| *g as f32).collect() };
            assert!(verdict(&at(layout, 30.0), &gains(Rule::Published)).unwrap_err().ends_with("off"));
            assert_eq!(verdict(&at(layout, 30.0), &gains(Rule::Corrected)), Ok(0));
        }
    }

    #[test]
    fn rounded_radians_decide_in_the_middle_between_two_f32() {
        let one = 1e-3f32;
        let [below, above] = [one.next_down(), one.next_up()];
        let middle = (f64::from(one) + f64::from(above)) / 2.0;
        for (off, is_between) in [(0.0, true), (2f64.powi(-49), true), (2f64.powi(-48) * 1.01, false)] {
            for exact in [middle + off, middle - off] {
                let exact = gain(Exact::float(exact));
                assert_eq!([exact.is_between(one, above), exact.is_between(above, one)], [is_between; 2], "{off:e}");
                assert!(!exact.is_between(below, one) && !exact.is_between(one, one));
            }
        }
        assert!(!gain(Exact::float(f64::from(one))).is_between(below, above));
    }
}
