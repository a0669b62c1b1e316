//! Setting up the convolver, against the Rust's constructors. Which direction each speaker takes its filters from, and its
//! weights to the digits of an f32, are read off impulses that the convolver they make plays. Beyond that surround weights
//! are exactly 1.0 and 0.0, and ambisonic ones are held to document 01's formulas within its bound and to the Rust's virtual
//! speakers within 2^-29. The rows are document 02's choice (E6) for those directions, written in choice.rs, at the
//! elevations of its tables, which are 0.
use crate::choice::nearest_row;
use crate::frame::{Answer, Case, Sink, Verdict, f64_bytes, hex, request};
use crate::gains::{Check, Layout, check_all, weighted_checks};
use crate::random::Random;
use crate::rust::{self, Impulses};
use bbx_dsp::blocks::effectors::binaural_decoder::virtual_speaker::layouts::{FOA_POSITIONS, SURROUND_51_POSITIONS, SURROUND_71_POSITIONS};
use std::sync::LazyLock;

const NEW_SURROUND: u8 = 19;
pub const NEW_AMBISONIC: u8 = 20;

/// A weight that went through a ring of f32 and the root is within this of the weight.
const IMPULSE_BITS: i32 = 23;

/// What the Rust's convolvers for 6 and 8 channels play, and those for the orders 1, 2 and 3.
static SURROUND: LazyLock<[Impulses; 2]> = LazyLock::new(|| [6, 8].map(rust::surround_impulses));
static AMBISONIC: LazyLock<[Impulses; 3]> = LazyLock::new(|| [1, 2, 3].map(rust::ambisonic_impulses));

/// Whose speakers are set up.
#[derive(Clone, Copy)]
enum Whose {
    Layout(Layout),
    Order(u64),
}

impl Whose {
    /// Speakers and channels, or the refusal: 1 for an order, 2 for a layout that is not 5.1 or 7.1.
    fn counts(self) -> Result<(usize, usize), u8> {
        match self {
            Whose::Layout(Layout(2, _)) => Ok((6, 6)),
            Whose::Layout(Layout(3, _)) => Ok((8, 8)),
            Whose::Layout(_) => Err(2),
            Whose::Order(order) => {
                if (1..=3).contains(&order) {
                    Ok((8, (order as usize + 1).pow(2)))
                } else {
                    Err(1)
                }
            }
        }
    }

    fn impulses(self) -> &'static Impulses {
        match self {
            Whose::Layout(layout) => &SURROUND[usize::from(layout.0) - 2],
            Whose::Order(order) => &AMBISONIC[order as usize - 1],
        }
    }

    /// Where speaker s stands, in degrees: for a layout, where its own channel's impulse comes from.
    fn azimuth(self, s: usize) -> f64 {
        match self {
            Whose::Layout(_) => self.impulses().only_direction(s),
            Whose::Order(_) => FOA_POSITIONS[s].0,
        }
    }

    /// The same in whole tenths, with the elevation that the Rust's tables have.
    fn place(self, s: usize) -> (i16, i16) {
        let elevation = match self {
            Whose::Layout(Layout(2, _)) => SURROUND_51_POSITIONS[s].1,
            Whose::Layout(_) => SURROUND_71_POSITIONS[s].1,
            Whose::Order(_) => FOA_POSITIONS[s].1,
        };
        ((self.azimuth(s) * 10.0) as i16, (elevation * 10.0) as i16)
    }

    /// What is asked of speaker s's weights, channels rising.
    fn checks(self, s: usize, channels: usize) -> Vec<Check> {
        match self {
            Whose::Layout(_) => (0..channels).map(|c| exactly(f64::from(u8::from(c == s)))).collect(),
            Whose::Order(order) => {
                let (azimuth, elevation) = FOA_POSITIONS[s];
                weighted_checks(order, azimuth, elevation)
            }
        }
    }
}

fn exactly(right: f64) -> Check {
    Box::new(move |weight| if weight.to_bits() == right.to_bits() { Ok(f64::NEG_INFINITY) } else { Err(format!("not {right}")) })
}

/// A call of `new_surround` or `new_ambisonic`, with everything that it is lent.
#[derive(Clone)]
struct SetUp {
    whose: Whose,
    rows: u64,
    row_of: [u64; 8],
    azimuths: Vec<i16>,
    elevations: Vec<i16>,
    weights: Vec<f64>,
}

impl SetUp {
    /// Refusals 1, 2, 5, in this order.
    fn refusal(&self) -> u8 {
        match self.whose.counts() {
            Err(refusal) => refusal,
            Ok(_) if !(1..=8).contains(&self.rows) => 2,
            Ok((speakers, channels)) => {
                if self.azimuths.len() == 8 && self.elevations.len() == 8 && self.weights.len() == speakers * channels {
                    0
                } else {
                    5
                }
            }
        }
    }

    fn operation(&self) -> u8 {
        if matches!(self.whose, Whose::Layout(_)) { NEW_SURROUND } else { NEW_AMBISONIC }
    }

    fn arguments(&self) -> Vec<u8> {
        let mut bytes = vec![self.azimuths.len() as u8, self.elevations.len() as u8];
        bytes.extend((self.weights.len() as u16).to_be_bytes());
        bytes.extend([self.rows].iter().chain(&self.row_of).flat_map(|n| n.to_be_bytes()));
        match self.whose {
            Whose::Layout(layout) => bytes.extend(layout.bytes()),
            Whose::Order(order) => bytes.extend(order.to_be_bytes()),
        }
        bytes.extend(self.azimuths.iter().chain(&self.elevations).flat_map(|a| a.to_be_bytes()));
        bytes.extend(self.weights.iter().flat_map(|w| w.to_bits().to_be_bytes()));
        bytes
    }

    /// The answer up to the weights: the refusal, speakers and channels, and the rows, which stay beyond the speakers.
    fn head(&self, refusal: u8) -> Vec<u8> {
        let (speakers, channels) = if refusal == 0 { self.whose.counts().unwrap() } else { (0, 0) };
        let nearest = |s: usize| nearest_row(&self.azimuths, &self.elevations, self.rows, self.whose.place(s)) as u64;
        let row = |s: usize| if s < speakers { nearest(s) } else { self.row_of[s] };
        let mut bytes = vec![refusal];
        bytes.extend([speakers as u64, channels as u64].into_iter().chain((0..8).map(row)).flat_map(u64::to_be_bytes));
        bytes
    }

    /// How far the weights of an accepted call are from the formulas, or why they are wrong.
    fn judge_weights(&self, bytes: &[u8]) -> Result<f64, String> {
        let (speakers, channels) = self.whose.counts().unwrap();
        let mut worst = f64::NEG_INFINITY;
        for (s, row) in bytes.chunks(8 * channels).enumerate() {
            worst = worst.max(check_all(row, self.whose.checks(s, channels)).map_err(|why| format!("speaker {s}, {why}"))?);
        }
        let weight = |s: usize, c: usize| f64::from_bits(u64::from_be_bytes(bytes[8 * (s * channels + c)..][..8].try_into().unwrap()));
        // All speakers together, direction by direction, as the constructor's own convolver plays them.
        let mut played = Impulses::silent(channels);
        for s in 0..speakers {
            (0..channels).for_each(|c| played.add(c, self.whose.azimuth(s), weight(s, c)));
        }
        if played.is_near(self.whose.impulses(), 2f64.powi(-IMPULSE_BITS)) {
            Ok(worst)
        } else {
            Err("the Rust's constructor has other weights or directions".to_string())
        }
    }

    fn judge(&self, answer: &Answer) -> Verdict {
        let wrong = |why: String| Verdict { wrong: Some(format!("{why}: {} {}", answer.operation, hex(&answer.bytes))), ..Verdict::default() };
        let refusal = self.refusal();
        let head = self.head(refusal);
        if answer.operation != self.operation() || answer.bytes.len() != head.len() + 8 * self.weights.len() || !answer.bytes.starts_with(&head) {
            return wrong(format!("expected {}", hex(&head)));
        }
        let weights = &answer.bytes[head.len()..];
        if refusal != 0 {
            let stay = weights.iter().eq(self.weights.iter().flat_map(|w| f64_bytes(*w)).collect::<Vec<u8>>().iter());
            return if stay { Verdict::default() } else { wrong("refused, and a weight has changed".to_string()) };
        }
        match self.judge_weights(weights) {
            Ok(worst) => Verdict { error: (worst > f64::NEG_INFINITY).then_some(worst), ..Verdict::default() },
            Err(why) => wrong(why),
        }
    }

    fn case(self) -> Case {
        Case { request: request(self.operation(), &self.arguments()), judge: Box::new(move |answer| self.judge(answer)) }
    }

    /// A call whose lengths fit, or would fit if whose speakers they are were good, over lists that hold anything.
    fn fitting(random: &mut Random, whose: Whose, rows: u64) -> Self {
        let (speakers, channels) = whose.counts().unwrap_or((6, 6));
        // Few steps between azimuths, so that ties are common; now and then any number.
        let step = [1, 50, 225, 450][random.below(4) as usize];
        let azimuth = |random: &mut Random| if random.below(20) == 0 { random.bits() as i16 } else { ((random.below(3601) as i16 - 1800) / step) * step };
        // A level bank; some rows of it above or below, by a step that two of them may share; any numbers.
        let rise = [1, 100, 450, 900][random.below(4) as usize];
        let kind = random.below(4);
        let elevation = |random: &mut Random| match kind {
            0 => 0,
            1 | 2 => rise * [0, 0, 1, -1][random.below(4) as usize],
            _ => random.bits() as i16 >> random.below(8),
        };
        SetUp {
            whose,
            rows,
            row_of: [0; 8].map(|_| random.bits() >> random.below(64)),
            azimuths: (0..8).map(|_| azimuth(random)).collect(),
            elevations: (0..8).map(|_| elevation(random)).collect(),
            weights: (0..speakers * channels).map(|_| f64::from_bits(random.bits())).collect(),
        }
    }
}

/// How many azimuths and elevations are lent.
const LENT: [(usize, usize); 13] = [(0, 8), (7, 8), (8, 8), (9, 8), (16, 8), (8, 0), (8, 7), (8, 9), (8, 16), (7, 7), (9, 9), (7, 9), (0, 0)];

/// Every count of bank rows, and every length of the lists, alone and together; then accepted calls.
fn all(random: &mut Random, count: usize, sink: &mut Sink, all_of: &[Whose]) {
    let few = count < 1000;
    for whose in all_of {
        for rows in (0..=9).chain([1 << 32, u64::MAX]) {
            sink(SetUp::fitting(random, *whose, rows).case());
        }
        for (azimuths, elevations) in LENT {
            for change in [-1i64, 0, 1, 1000] {
                if few && (azimuths, elevations) != (8, 8) && change != 0 {
                    continue;
                }
                let rows = 1 + random.below(8);
                let mut call = SetUp::fitting(random, *whose, rows);
                call.azimuths = (0..azimuths).map(|i| 300 * i as i16 - 1200).collect();
                call.elevations = (0..elevations).map(|i| 100 * (i as i16 % 3)).collect();
                let fits = call.weights.len() as i64;
                // 1000 stands for none at all.
                call.weights.resize(if change == 1000 { 0 } else { (fits + change) as usize }, 0.5);
                sink(call.case());
            }
        }
        // A length that does not fit beside bank rows that are none.
        let mut call = SetUp::fitting(random, *whose, 9);
        call.weights.pop();
        sink(call.case());
        let mut call = SetUp::fitting(random, *whose, 0);
        call.elevations.pop();
        sink(call.case());
        // A count above 16 counts as 16.
        let mut call = SetUp::fitting(random, *whose, 8);
        call.elevations = vec![0; 16];
        let mut case = call.case();
        case.request[6] = 17;
        sink(case);
    }
    let good: Vec<Whose> = all_of.iter().copied().filter(|w| w.counts().is_ok()).collect();
    for _ in 0..(if few { count / 40 } else { count / 2 }) {
        for whose in &good {
            let rows = 1 + random.below(8);
            sink(SetUp::fitting(random, *whose, rows).case());
        }
    }
}

pub fn surround(random: &mut Random, count: usize, sink: &mut Sink) {
    let customs = (0..=17).filter(|n| count >= 1000 || [0, 1, 6, 8, 16, 17].contains(n)).chain([1 << 32, u64::MAX]);
    let layouts: Vec<Whose> = (0..4).map(|l| Layout(l, 0)).chain(customs.map(|n| Layout(4, n))).map(Whose::Layout).collect();
    let (good, bad): (Vec<Whose>, Vec<Whose>) = layouts.into_iter().partition(|w| w.counts().is_ok());
    all(random, count, sink, &good);
    for whose in bad {
        // The lists of 5.1, of 7.1, and none; refused for the layout whatever they are.
        for (rows, azimuths, elevations, weights) in [(8, 8, 8, 36), (8, 8, 8, 64), (0, 8, 8, 36), (1, 7, 8, 0), (1, 8, 7, 36)] {
            let mut call = SetUp::fitting(random, whose, rows);
            call.azimuths.truncate(azimuths);
            call.elevations.truncate(elevations);
            call.weights.resize(weights, 0.25);
            sink(call.case());
        }
    }
}

pub fn ambisonic(random: &mut Random, count: usize, sink: &mut Sink) {
    all(random, count, sink, &[1, 2, 3].map(Whose::Order));
    for order in [0, 4, 5, 255, 257, (1 << 32) + 1, u64::MAX] {
        for (rows, azimuths, elevations, weights) in [(8, 8, 8, 32), (8, 8, 8, 128), (8, 8, 8, 200), (0, 8, 8, 32), (1, 7, 8, 0), (1, 8, 7, 32)] {
            let mut call = SetUp::fitting(random, Whose::Order(order), rows);
            call.azimuths.truncate(azimuths);
            call.elevations.truncate(elevations);
            call.weights.resize(weights, 0.25);
            sink(call.case());
        }
    }
}

#[cfg(test)]
mod tests {
    use super::*;
    use crate::bank::bytes_of;

    /// The Rust's own weights of an accepted call.
    fn rust_weights(whose: Whose) -> Vec<u8> {
        let (speakers, channels) = whose.counts().unwrap();
        let weights = |s: usize| -> Vec<f64> {
            match whose {
                Whose::Layout(_) => (0..channels).map(|c| f64::from(u8::from(c == s))).collect(),
                Whose::Order(order) => rust::weighted(order as usize, FOA_POSITIONS[s].0, FOA_POSITIONS[s].1)[..channels].to_vec(),
            }
        };
        (0..speakers).flat_map(weights).flat_map(|w| w.to_bits().to_be_bytes()).collect()
    }

    /// An answer with these weights, and what is changed in it.
    fn judged(whose: Whose, change: impl Fn(&mut Vec<u8>)) -> bool {
        let call = SetUp::fitting(&mut Random::new(3, "set-up"), whose, 5);
        let mut bytes = [call.head(0), rust_weights(whose)].concat();
        change(&mut bytes);
        call.judge(&Answer { operation: call.operation(), bytes }).wrong.is_none()
    }

    #[test]
    fn the_rust_passes_and_a_change_does_not() {
        let all_of = [Whose::Layout(Layout(2, 0)), Whose::Layout(Layout(3, 0)), Whose::Order(1), Whose::Order(2), Whose::Order(3)];
        for whose in all_of {
            assert!(judged(whose, |_| ()));
            // A row, a weight's upper digits, and a weight's sign.
            for place in [24, 81, 82] {
                assert!(!judged(whose, |bytes| bytes[place] ^= 0x81));
            }
            assert!(!judged(whose, |bytes| bytes.truncate(81)));
        }
    }

    /// A call, read off a request as the page says.
    fn call_in(request: &[u8]) -> SetUp {
        let arguments = &request[5..];
        let number = |at: usize, count: usize| arguments[at..at + count].iter().fold(0, |n, b| n << 8 | u64::from(*b));
        let [a, e] = [0, 1].map(|at| number(at, 1).min(16) as usize);
        let w = number(2, 2) as usize;
        let (whose, behind) = match request[0] {
            NEW_SURROUND => (Whose::Layout(Layout(number(76, 1) as u8, number(77, 8))), 85),
            _ => (Whose::Order(number(76, 8)), 84),
        };
        let angle = |i: usize| number(behind + 2 * i, 2) as u16 as i16;
        let weights_at = behind + 2 * (a + e);
        assert_eq!(arguments.len(), weights_at + 8 * w);
        SetUp {
            whose,
            rows: number(4, 8),
            row_of: std::array::from_fn(|s| number(12 + 8 * s, 8)),
            azimuths: (0..a).map(angle).collect(),
            elevations: (a..a + e).map(angle).collect(),
            weights: (0..w).map(|i| f64::from_bits(number(weights_at + 8 * i, 8))).collect(),
        }
    }

    /// What a program answers that is wrong in a way: it takes other numbers for those of the call.
    fn answer(way: &str, mut call: SetUp) -> Vec<u8> {
        let refusal = call.refusal();
        match way {
            "azimuths alone" => call.elevations.fill(0),
            "elevations alone" => call.azimuths.fill(0),
            "speakers at 900" => call.elevations.iter_mut().for_each(|e| *e = e.saturating_sub(900)),
            "lists change places" => (call.azimuths, call.elevations) = (call.elevations, call.azimuths),
            "elevations are not counted" => call.elevations.resize(8, 0),
            "one elevation less" if call.elevations.len() == 7 => call.elevations.push(0),
            "one elevation more" if call.elevations.len() == 9 => call.elevations.truncate(8),
            "5 before 2" if call.elevations.len() != 8 => return [call.head(5), call.weights.iter().flat_map(|w| f64_bytes(*w)).collect()].concat(),
            "elevations below 0 as those above" => call.elevations.iter_mut().for_each(|e| *e = (*e).max(0)),
            _ => (),
        }
        let refusal = if way.contains("elevation") && way != "elevations alone" { call.refusal() } else { refusal };
        let weights = if refusal == 0 { rust_weights(call.whose) } else { call.weights.iter().flat_map(|w| f64_bytes(*w)).collect() };
        [call.head(refusal), weights].concat()
    }

    fn shown(way: &str, name: &str, make: fn(&mut Random, usize, &mut Sink)) -> usize {
        let mut wrong = 0;
        make(&mut Random::new(1, name), 400, &mut |case| {
            let bytes = answer(way, call_in(&case.request));
            wrong += usize::from((case.judge)(&Answer { operation: case.request[0], bytes }).wrong.is_some());
        });
        wrong
    }

    #[test]
    fn the_right_program_passes_and_every_wrong_one_is_found() {
        let wrong = [
            "azimuths alone",
            "elevations alone",
            "speakers at 900",
            "lists change places",
            "elevations are not counted",
            "one elevation less",
            "one elevation more",
            "5 before 2",
            "elevations below 0 as those above",
        ];
        for (name, make) in [("new surround", surround as fn(&mut Random, usize, &mut Sink)), ("new ambisonic", ambisonic)] {
            assert_eq!(shown("", name, make), 0, "{name}");
            for way in wrong {
                assert!(shown(way, name, make) > 0, "{name}: {way}");
            }
        }
    }

    /// Requests of the page, whole; and a bank in which a level row behind is taken, not the raised one in front.
    #[test]
    fn requests_and_answers_are_those_of_the_page() {
        let mut call =
            SetUp { whose: Whose::Layout(Layout(2, 7)), rows: 2, row_of: [9; 8], azimuths: vec![300, -1799], elevations: vec![1, 0, -1], weights: vec![1.0] };
        let (nine, nines) = ("0000000000000009", "0000000000000009 ".repeat(8));
        let asked = format!("02 03 0001 0000000000000002 {nines} 02 0000000000000007 012c f8f9 0001 0000 ffff 3ff0000000000000");
        assert_eq!(call.clone().case().request, request(19, &bytes_of(&asked)));
        let refused = bytes_of(&format!("05 0000000000000000 0000000000000000 {nines} 3ff0000000000000"));
        assert!(call.judge(&Answer { operation: 19, bytes: refused }).wrong.is_none());
        call.azimuths = vec![300, -1799, 0, 0, 0, 0, 0, 0];
        call.elevations = vec![1, 0, 0, 0, 0, 0, 0, 0];
        call.weights = vec![0.0; 36];
        let ones = "0000000000000001 ".repeat(6);
        let head = bytes_of(&format!("00 0000000000000006 0000000000000006 {ones} {nine} {nine}"));
        assert!(call.judge(&Answer { operation: 19, bytes: [head.clone(), rust_weights(call.whose)].concat() }).wrong.is_none());
        call.elevations[1] = 1;
        assert!(call.judge(&Answer { operation: 19, bytes: [head, rust_weights(call.whose)].concat() }).wrong.is_some());
        call.whose = Whose::Order(3);
        (call.azimuths, call.elevations, call.weights) = (vec![5], vec![6], vec![]);
        assert_eq!(call.case().request, request(20, &bytes_of(&format!("01 01 0000 0000000000000002 {nines} 0000000000000003 0005 0006"))));
    }
}
