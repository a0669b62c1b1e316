//! Whether left and right are mirror images elsewhere than in the binaural rows, where document 02, E7, asks for it. The proved
//! program is asked for a scene and for the scene with left and right exchanged, and the second answer is compared with the
//! mirror image of the first. Where it is not always that, an example has to be found, so that what the pages say of it stays true.
use crate::binaural::{ODD, mirrored};
use crate::blocks::{Block, DECODE};
use crate::convolver::{Call, PROCESS};
use crate::frame::{hex, request, take};
use crate::gains::{DECODER_MATRIX, HARMONICS, Layout, STEREO, SURROUND, WEIGHTED, direction_bytes};
use crate::panner::PAN;
use crate::random::Random;
use crate::rows::{LATERAL, ROWS, channels_of};
use crate::setup::NEW_AMBISONIC;
use std::io::{self, BufReader, Write};
use std::process::{Child, ChildStdin, ChildStdout, Command, Stdio};

// ---- what is counted

/// What is expected of the pairs of a kind.
#[derive(Clone, Copy, PartialEq, Debug)]
enum Expected {
    /// Each is mirrored bit for bit.
    Always,
    /// Each is mirrored but for the sign of zeros, and in some a zero has the other sign.
    ButForZeros,
    /// Some are not.
    NotAlways,
    /// Nothing: they differ so seldom that a run need not meet one. It is counted.
    Counted,
}

/// Numbers of f64, or samples of f32, which are exact as f64 too.
#[derive(Clone, Copy, PartialEq)]
enum Width {
    Numbers,
    Samples,
}

/// The pairs of a kind: how many, and how many are mirrored.
struct Kind {
    name: String,
    expected: Expected,
    width: Width,
    pairs: usize,
    same: usize,
    but_for_zeros: usize,
    steps: u64,
    apart: f64,
    first: Option<String>,
}

impl Kind {
    fn new(name: impl Into<String>, expected: Expected, width: Width) -> Self {
        Kind { name: name.into(), expected, width, pairs: 0, same: 0, but_for_zeros: 0, steps: 0, apart: 0.0, first: None }
    }

    /// Counts a pair: the mirror image of one answer, and what was given for the mirrored scene.
    fn note(&mut self, scene: impl FnOnce() -> String, image: &[f64], given: &[f64]) {
        assert_eq!(image.len(), given.len());
        self.pairs += 1;
        let both = || image.iter().copied().zip(given.iter().copied()).enumerate();
        if both().all(|(_, (a, b))| a.to_bits() == b.to_bits()) {
            self.same += 1;
            return;
        }
        let is_other = |a: f64, b: f64| a.to_bits() != b.to_bits() && a != b;
        let Some((place, (a, b))) = both().find(|(_, (a, b))| is_other(*a, *b)) else {
            self.but_for_zeros += 1;
            return;
        };
        // Beside a number of another size steps say nothing.
        let alike = both().filter(|(_, (a, b))| (0.5..=2.0).contains(&(a / b)));
        self.steps = alike.map(|(_, (a, b))| self.rank(a).abs_diff(self.rank(b))).fold(self.steps, u64::max);
        self.apart = both().map(|(_, (a, b))| (a - b).abs()).fold(self.apart, f64::max);
        if self.first.is_none() {
            self.first = Some(format!("{}: place {place} is {} and not {}", scene(), self.bits(b), self.bits(a)));
        }
    }

    /// The place of a number's size among all sizes of its width, so that neighbours are a step apart.
    fn rank(&self, x: f64) -> u64 {
        match self.width {
            Width::Numbers => x.abs().to_bits(),
            Width::Samples => u64::from((x as f32).abs().to_bits()),
        }
    }

    fn bits(&self, x: f64) -> String {
        match self.width {
            Width::Numbers => format!("{:016X}", x.to_bits()),
            Width::Samples => format!("{:08X}", (x as f32).to_bits()),
        }
    }

    fn otherwise(&self) -> usize {
        self.pairs - self.same - self.but_for_zeros
    }

    fn is_as_expected(&self) -> bool {
        let as_expected = match self.expected {
            Expected::Always => self.same == self.pairs,
            Expected::ButForZeros => self.otherwise() == 0 && self.but_for_zeros > 0,
            Expected::NotAlways => self.otherwise() > 0,
            Expected::Counted => true,
        };
        self.pairs > 0 && as_expected
    }

    fn line(&self) -> String {
        let (pairs, same, zeros, other) = (self.pairs, self.same, self.but_for_zeros, self.otherwise());
        let mut line = format!("{}: {pairs} pairs, {same} bit for bit, {zeros} but for the sign of zeros, {other} otherwise", self.name);
        if let Some(first) = &self.first {
            let steps = if self.steps > 0 { format!("{} steps and ", self.steps) } else { String::new() };
            line += &format!(", by at most {steps}2^{:.2}; first {first}", self.apart.log2());
        }
        if !self.is_as_expected() {
            line += &format!("; NOT AS EXPECTED: {:?}", self.expected);
        }
        line
    }
}

// ---- the program

/// The program `probe`, asked one request after the other.
struct Program {
    child: Child,
    requests: ChildStdin,
    answers: BufReader<ChildStdout>,
}

impl Program {
    fn start(words: &[String]) -> io::Result<Self> {
        let mut child = Command::new(&words[0]).args(&words[1..]).stdin(Stdio::piped()).stdout(Stdio::piped()).spawn()?;
        let (requests, answers) = (child.stdin.take().unwrap(), BufReader::new(child.stdout.take().unwrap()));
        Ok(Program { child, requests, answers })
    }

    /// What a request is answered, the refusal first.
    fn answer(&mut self, operation: u8, arguments: &[u8]) -> Vec<u8> {
        self.requests.write_all(&request(operation, arguments)).expect("the program does not read");
        let answer = take(&mut self.answers).expect("the program does not answer");
        assert_eq!(answer.operation, operation, "{}", hex(&answer.bytes));
        answer.bytes
    }

    /// What an accepted request is answered, without the refusal.
    fn ask(&mut self, operation: u8, arguments: &[u8]) -> Vec<u8> {
        let bytes = self.answer(operation, arguments);
        assert_eq!(bytes[0], 0, "{operation} is answered {}", hex(&bytes));
        bytes[1..].to_vec()
    }

    fn numbers(&mut self, operation: u8, arguments: &[u8]) -> Vec<f64> {
        let bytes = self.ask(operation, arguments);
        bytes.chunks(8).map(|b| f64::from_bits(u64::from_be_bytes(b.try_into().unwrap()))).collect()
    }

    /// The last samples of an answer.
    fn samples(&mut self, operation: u8, arguments: &[u8], count: usize) -> Vec<f32> {
        let bytes = self.ask(operation, arguments);
        samples_of(&bytes[bytes.len() - 4 * count..])
    }

    fn end(self) -> io::Result<bool> {
        let Program { mut child, requests, .. } = self;
        drop(requests);
        Ok(child.wait()?.success())
    }
}

fn samples_of(bytes: &[u8]) -> Vec<f32> {
    bytes.chunks(4).map(|b| f32::from_bits(u32::from_be_bytes(b.try_into().unwrap()))).collect()
}

/// What the kinds are made with.
struct Bench {
    program: Program,
    random: Random,
    count: usize,
}

impl Bench {
    /// A part of the count, and at least one: a kind without pairs would show nothing.
    fn part(&self, of: usize) -> usize {
        (self.count / of).max(1)
    }
}

// ---- scenes and their mirror images

/// Each place's partner on the other side: the place itself in the middle.
type Partners = Vec<usize>;

fn partners(layout: Layout) -> Partners {
    match layout.0 {
        0 => vec![0],
        1 => vec![1, 0],
        2 => vec![1, 0, 2, 3, 5, 4],
        3 => vec![1, 0, 2, 3, 5, 4, 7, 6],
        _ => (0..layout.1 as usize).map(|i| (layout.1 as usize * 3 / 2 - i) % layout.1 as usize).collect(),
    }
}

/// A list of planes of so many entries with the planes of partners exchanged.
fn exchanged<T: Clone>(list: &[T], partners: &[usize], of: usize) -> Vec<T> {
    partners.iter().flat_map(|p| list[p * of..(p + 1) * of].to_vec()).collect()
}

/// An entry a channel, with six of them negated.
fn turned(gains: &[f64]) -> Vec<f64> {
    gains.iter().enumerate().map(|(c, g)| if LATERAL.contains(&c) { -g } else { *g }).collect()
}

fn widened(samples: &[f32]) -> Vec<f64> {
    samples.iter().map(|x| f64::from(*x)).collect()
}

/// Samples as an answer has them, all NaNs as one: a sign on one is not told.
fn as_told(samples: &[f32]) -> Vec<f32> {
    samples.iter().map(|x| if x.is_nan() { f32::NAN } else { *x }).collect()
}

fn uniform(random: &mut Random, end: f64) -> f64 {
    (random.bits() >> 11) as f64 / (1u64 << 53) as f64 * end
}

/// Numbers from 0 to an end, those that are easily written first: tenths, the neighbours of some, subnormals, any.
fn from_0_to(end: f64, beside: &[f64], random: &mut Random, count: usize) -> Vec<f64> {
    let mut all: Vec<f64> = (0..=(10.0 * end) as i32).map(|t| f64::from(t) / 10.0).collect();
    all.sort_by_key(|x| x.fract() != 0.0);
    let near = |x: &f64| [x.next_down(), x.next_up(), x.next_down().next_down(), x.next_up().next_up()];
    all.extend(beside.iter().flat_map(near).chain([f64::MIN_POSITIVE, 1e-310, 2f64.powi(-53), 1e-9]).filter(|x| (0.0..=end).contains(x)));
    all.extend((0..count).map(|_| uniform(random, end)));
    all.extend((0..count / 20).map(|_| f64::from_bits(random.bits() & 0xf_ffff_ffff_ffff | random.below(1023) << 52)));
    all
}

const BESIDE: [f64; 9] = [0.0, 30.0, 60.0, 90.0, 110.0, 120.0, 150.0, 160.0, 180.0];

/// Azimuths from 0 to 180 with elevations, whole ones first.
fn directions(random: &mut Random, count: usize) -> Vec<(f64, f64)> {
    let steps = |from: i32, to: i32| (from..=to).map(|t| f64::from(t) * 15.0);
    let mut all: Vec<(f64, f64)> = steps(0, 12).flat_map(|a| steps(-6, 6).map(move |e| (a, e))).chain([(30.0, 20.0)]).collect();
    all.extend(from_0_to(180.0, &BESIDE, random, count).into_iter().map(|a| (a, uniform(random, 180.0) - 90.0)));
    let elevations = from_0_to(90.0, &[0.0, 45.0, 90.0], random, count / 4);
    all.extend(elevations.into_iter().flat_map(|e| [(uniform(random, 180.0), e), (uniform(random, 180.0), -e)]));
    all
}

// ---- gains and matrices

fn stereo(bench: &mut Bench) -> Vec<Kind> {
    use Expected::{Always, NotAlways};
    let mut all = [
        Kind::new("stereo gains at 0 and -0", Always, Width::Numbers),
        Kind::new("stereo gains at p and -p", NotAlways, Width::Numbers),
        Kind::new("stereo gains at p and -p, 100 and more", Always, Width::Numbers),
    ];
    for p in from_0_to(150.0, &[50.0, 100.0], &mut bench.random, bench.count) {
        let [one, other] = [p, -p].map(|p| bench.program.numbers(STEREO, &p.to_bits().to_be_bytes()));
        let kind = if p == 0.0 { 0 } else { 1 + usize::from(p >= 100.0) };
        all[kind].note(|| format!("p = {p:?}"), &[one[1], one[0]], &other);
    }
    all.into()
}

fn surround(bench: &mut Bench) -> Vec<Kind> {
    let mut all = [
        Kind::new("surround gains, 5.1", Expected::Always, Width::Numbers),
        Kind::new("surround gains, 7.1, up to 120", Expected::Always, Width::Numbers),
        Kind::new("surround gains, 7.1, beyond 120", Expected::NotAlways, Width::Numbers),
    ];
    for a in from_0_to(180.0, &BESIDE, &mut bench.random, bench.count) {
        for layout in [Layout(2, 0), Layout(3, 0)] {
            let of = |a: f64| [layout.bytes(), a.to_bits().to_be_bytes().to_vec()].concat();
            let [one, other] = [a, -a].map(|a| bench.program.numbers(SURROUND, &of(a)));
            let partners = partners(layout);
            let kind = if layout.0 == 2 { 0 } else { 1 + usize::from(a > 120.0) };
            all[kind].note(|| format!("azimuth {a:?}"), &exchanged(&one, &partners, 1), &other[..partners.len()]);
        }
    }
    all.into()
}

/// Harmonics and weighted coefficients, at (a, e) and (-a, e).
fn coefficients(bench: &mut Bench) -> Vec<Kind> {
    let mut all = Vec::new();
    for (operation, name) in [(HARMONICS, "harmonics"), (WEIGHTED, "weighted coefficients")] {
        for order in 1..=3 {
            let mut kind = Kind::new(format!("{name}, order {order}"), Expected::ButForZeros, Width::Numbers);
            for (a, e) in directions(&mut bench.random, bench.count) {
                let [one, other] = [a, -a].map(|a| bench.program.numbers(operation, &direction_bytes(order, a, e)));
                let channels = channels_of(order as usize);
                kind.note(|| format!("({a:?}, {e:?})"), &turned(&one[..channels]), &other[..channels]);
            }
            all.push(kind);
        }
    }
    all
}

/// A group of layouts with one expectation.
struct Group {
    name: &'static str,
    layouts: Vec<Layout>,
    of_matrices: Expected,
    of_blocks: Expected,
}

/// The layouts that have an image: all but Custom of an odd number, whose speakers do not stand opposite each other. Of the even
/// numbers 14 alone has places i x (360/14) - 90 that are rounded, so that partners do not stand quite opposite.
fn groups() -> [Group; 4] {
    use Expected::{Always, ButForZeros, NotAlways};
    let custom = |numbers: &[u64]| numbers.iter().map(|n| Layout(4, *n)).collect();
    [
        Group { name: "Stereo", layouts: vec![Layout(1, 0)], of_matrices: Always, of_blocks: Always },
        Group { name: "Mono, 5.1, 7.1", layouts: [0, 2, 3].map(|l| Layout(l, 0)).to_vec(), of_matrices: ButForZeros, of_blocks: Always },
        Group { name: "Custom of 2 to 16, even, not 14", layouts: custom(&[2, 4, 6, 8, 10, 12, 16]), of_matrices: ButForZeros, of_blocks: Always },
        Group { name: "Custom(14)", layouts: custom(&[14]), of_matrices: NotAlways, of_blocks: NotAlways },
    ]
}

fn matrix(bench: &mut Bench, order: usize, layout: Layout) -> Vec<f64> {
    let count = layout.channels().unwrap() * channels_of(order);
    let mut arguments = (count as u16).to_be_bytes().to_vec();
    arguments.extend((order as u64).to_be_bytes());
    arguments.extend(layout.bytes());
    arguments.extend(vec![0; 8 * count]);
    bench.program.numbers(DECODER_MATRIX, &arguments)
}

/// The weights of the eight virtual speakers, as they are set up.
fn virtual_speakers(bench: &mut Bench, order: usize) -> Vec<f64> {
    let count = 8 * channels_of(order);
    let mut arguments = vec![8, 8];
    arguments.extend((count as u16).to_be_bytes());
    arguments.extend([8, 0, 0, 0, 0, 0, 0, 0, 0, order as u64].iter().flat_map(|n| n.to_be_bytes()));
    arguments.extend(vec![0; 2 * 16 + 8 * count]);
    bench.program.numbers(NEW_AMBISONIC, &arguments)[10..].to_vec()
}

/// Which of the eight stand opposite each other: at 0, 45, 90, 135, 180, -135, -90, -45.
const OPPOSITE: [usize; 8] = [0, 7, 6, 5, 4, 3, 2, 1];

/// The row of a speaker's partner is its own with six weights negated.
fn compare_rows(kind: &mut Kind, weights: &[f64], order: usize, partners: &[usize], whose: &str) {
    let channels = channels_of(order);
    for (s, row) in exchanged(weights, partners, channels).chunks(channels).enumerate() {
        kind.note(|| format!("{whose}, order {order}, speaker {s}"), &turned(row), &weights[s * channels..][..channels]);
    }
}

fn matrices(bench: &mut Bench) -> Vec<Kind> {
    let mut all = Vec::new();
    for group in groups() {
        let mut kind = Kind::new(format!("decoder matrix, {}", group.name), group.of_matrices, Width::Numbers);
        for layout in group.layouts {
            for order in 1..=3 {
                compare_rows(&mut kind, &matrix(bench, order, layout), order, &partners(layout), &format!("{:?}", layout.rust()));
            }
        }
        all.push(kind);
    }
    let mut kind = Kind::new("weights of the eight virtual speakers", Expected::ButForZeros, Width::Numbers);
    for order in 1..=3 {
        compare_rows(&mut kind, &virtual_speakers(bench, order), order, &OPPOSITE, "virtual");
    }
    all.push(kind);
    all
}

// ---- blocks

fn played(bench: &mut Bench, block: &Block) -> Vec<f32> {
    bench.program.samples(DECODE, &block.arguments(), block.planes.len())
}

/// A block of one to four frames, of samples of any size and kind, over these weights.
fn block_over(random: &mut Random, weights: &[f64], channels: usize) -> Block {
    let frames = 1 + random.below(4) as usize;
    let mut block = Block::fitting(random, weights.len() / channels, channels, frames, frames);
    block.weights = weights.to_vec();
    let is_odd = random.below(2) == 0;
    for x in block.inputs.iter_mut() {
        if is_odd && random.below(16) == 0 {
            *x = f32::from_bits(ODD[random.below(ODD.len() as u64) as usize]);
        }
    }
    block
}

/// A frame for each speaker in which two channels cancel, but for the rounding of one sample: so the last bits of the weights
/// are heard.
fn cancelling_frames(weights: &[f64], channels: usize) -> Vec<Block> {
    let outputs = weights.len() / channels;
    let rows = weights.chunks(channels).filter(|row| row[1] != 0.0);
    let frame = |row: &[f64]| (0..channels).map(|c| [1.0, (-row[0] / row[1]) as f32].get(c).copied().unwrap_or(0.0)).collect();
    let counts = (outputs as u64, channels as u64);
    let block = |row: &[f64]| Block {
        outputs: counts.0,
        channels: counts.1,
        frames: 1,
        stride: 1,
        weights: weights.to_vec(),
        inputs: frame(row),
        planes: vec![0.0; outputs],
    };
    rows.map(block).collect()
}

/// Mirrored frames through a decoder matrix: the speakers' planes are exchanged.
fn decoder_blocks(bench: &mut Bench) -> Vec<Kind> {
    let mut all = Vec::new();
    for group in groups() {
        let mut kind = Kind::new(format!("decoder block, {}", group.name), group.of_blocks, Width::Samples);
        for (layout, order) in group.layouts.iter().flat_map(|layout| [1, 2, 3].map(|order| (*layout, order))) {
            let weights = matrix(bench, order, layout);
            let mut blocks = cancelling_frames(&weights, channels_of(order));
            blocks.extend((0..bench.part(8)).map(|_| block_over(&mut bench.random, &weights, channels_of(order))));
            for block in blocks {
                let (one, other) = (played(bench, &block), played(bench, &mirrored(&block)));
                let image = exchanged(&one, &partners(layout), block.stride as usize);
                let scene = || format!("{:?}, order {order}, {:08X?}", layout.rust(), bits_of(&block.inputs));
                kind.note(scene, &widened(&image), &widened(&other));
            }
        }
        all.push(kind);
    }
    all
}

fn bits_of(samples: &[f32]) -> Vec<u32> {
    samples.iter().map(|x| x.to_bits()).collect()
}

/// The planes of mono samples at a direction.
fn panned(bench: &mut Bench, order: usize, (a, e): (f64, f64), input: &[f32]) -> Vec<f32> {
    let (frames, count) = (input.len(), input.len() * channels_of(order));
    let mut arguments: Vec<u8> = [frames, count].iter().flat_map(|n| (*n as u16).to_be_bytes()).collect();
    arguments.push(2);
    arguments.extend([a.to_bits(), e.to_bits(), order as u64].iter().flat_map(|n| n.to_be_bytes()));
    arguments.extend(Layout(0, 0).bytes());
    arguments.extend([frames, frames].iter().flat_map(|n| (*n as u64).to_be_bytes()));
    arguments.extend(input.iter().flat_map(|x| x.to_bits().to_be_bytes()));
    arguments.extend(vec![0; 4 * count]);
    bench.program.samples(PAN, &arguments, count)
}

/// The binaural rows of an order.
fn rows(bench: &mut Bench, order: usize) -> Vec<f64> {
    let count = 2 * channels_of(order);
    let arguments = [(count as u16).to_be_bytes().to_vec(), (order as u64).to_be_bytes().to_vec(), vec![0; 8 * count]].concat();
    bench.program.numbers(ROWS, &arguments)
}

/// A voice at (a, e) and at (-a, e): its ambisonic planes, and what the binaural rows make of them.
fn voices(bench: &mut Bench) -> Vec<Kind> {
    let mut planes = Kind::new("panner block, ambisonic", Expected::ButForZeros, Width::Samples);
    let mut ears = Kind::new("panner block, then the binaural rows", Expected::Always, Width::Samples);
    for (a, e) in directions(&mut bench.random, bench.count / 2) {
        let order = 1 + bench.random.below(3) as usize;
        let weights = rows(bench, order);
        let mut block = block_over(&mut bench.random, &weights, channels_of(order));
        let voice = block.inputs[..block.frames as usize].to_vec();
        let mut heard = |direction: (f64, f64)| {
            block.inputs = panned(bench, order, direction, &voice);
            (block.clone(), played(bench, &block))
        };
        let ((one, near), (other, far)) = (heard((a, e)), heard((-a, e)));
        let scene = || format!("order {order} at ({a:?}, {e:?}), {:08X?}", bits_of(&voice));
        planes.note(scene, &widened(&as_told(&mirrored(&one).inputs)), &widened(&other.inputs));
        ears.note(scene, &widened(&exchanged(&near, &[1, 0], voice.len())), &widened(&far));
    }
    vec![planes, ears]
}

/// What makes a block unfit: a stride below the frame count, or a sample too few or too many in or out.
const UNFIT: [fn(&mut Block); 5] = [
    |block| block.frames = block.stride + 1,
    |block| _ = block.inputs.pop(),
    |block| block.inputs.push(1.0),
    |block| _ = block.planes.pop(),
    |block| block.planes.push(1.0),
];

/// Unfit blocks through the binaural rows. A refusal has to be the same for the image, and to leave the planes as they were lent.
fn refused_blocks(bench: &mut Bench) -> Vec<Kind> {
    let mut kind = Kind::new("decoder block, binaural rows, refused for its stride or a length", Expected::Always, Width::Samples);
    for (order, spoil) in (1..=3).flat_map(|order| UNFIT.map(|spoil| (order, spoil))) {
        let weights = rows(bench, order);
        for _ in 0..bench.part(8) {
            let mut block = block_over(&mut bench.random, &weights, channels_of(order));
            spoil(&mut block);
            let mut answer = |block: &Block| {
                let bytes = bench.program.answer(DECODE, &block.arguments());
                let (refusal, count) = (f64::from(bytes[0]), u64::from_be_bytes(bytes[1..9].try_into().unwrap()) as f64);
                [vec![refusal, count], widened(&samples_of(&bytes[9..]))].concat()
            };
            // 5 is what document 01 has for lengths that do not fit.
            let due = [vec![5.0, 0.0], widened(&as_told(&block.planes))].concat();
            let scene = || format!("order {order}, {} frames, stride {}, {} in, {} out", block.frames, block.stride, block.inputs.len(), block.planes.len());
            kind.note(scene, &due.repeat(2), &[answer(&block), answer(&mirrored(&block))].concat());
        }
    }
    vec![kind]
}

// ---- the convolver

/// Speakers of a convolver: their weights, and which stand opposite each other. Each has a row of the bank to itself.
struct Speakers {
    channels: usize,
    weights: Vec<f64>,
    partners: Partners,
    is_ambisonic: bool,
    /// Channels that are 0.0 in every frame.
    silent: Vec<usize>,
}

impl Speakers {
    /// A speaker a channel.
    fn surround(partners: Partners) -> Self {
        let n = partners.len();
        let weights = (0..n * n).map(|i| f64::from(u8::from(i % (n + 1) == 0))).collect();
        Speakers { channels: n, weights, partners, is_ambisonic: false, silent: Vec::new() }
    }

    fn ambisonic(bench: &mut Bench, order: usize) -> Self {
        let weights = virtual_speakers(bench, order);
        Speakers { channels: channels_of(order), weights, partners: OPPOSITE.to_vec(), is_ambisonic: true, silent: Vec::new() }
    }

    /// A call from rest, with samples and taps of all sizes.
    fn call(&self, random: &mut Random, length: usize, frames: usize) -> Call {
        let count = self.partners.len();
        let mut call = Call::fitting(random, self.channels, count, count, length, frames, frames);
        call.row_of = [0, 1, 2, 3, 4, 5, 6, 7];
        call.weights = self.weights.clone();
        call
    }

    /// The scene with left and right exchanged, and the bank too: a speaker has its partner's filters, one ear's for the other's.
    fn mirrored(&self, call: &Call) -> Call {
        let (stride, length) = (call.stride as usize, call.length as usize);
        let mut image = call.clone();
        if self.is_ambisonic {
            let negated = |(i, x): (usize, &f32)| if LATERAL.contains(&(i / stride)) { -x } else { *x };
            image.inputs = call.inputs.iter().enumerate().map(negated).collect();
        } else {
            image.inputs = exchanged(&call.inputs, &self.partners, stride);
        }
        let filters: Partners = self.partners.iter().flat_map(|p| [2 * p + 1, 2 * p]).collect();
        image.taps = exchanged(&call.taps, &filters, length);
        image
    }

    /// The call with silence on the silent channels.
    fn silenced(&self, mut call: Call) -> Call {
        let stride = call.stride as usize;
        self.silent.iter().for_each(|channel| call.inputs[channel * stride..][..stride].fill(0.0));
        call
    }

    fn compare(&self, bench: &mut Bench, kind: &mut Kind, call: Call, scene: impl FnOnce() -> String) {
        let call = self.silenced(call);
        let mut ears = |call: &Call| bench.program.samples(PROCESS, &[call.head(), call.lists()].concat(), call.ears.len());
        let (one, other) = (ears(&call), ears(&self.mirrored(&call)));
        kind.note(scene, &widened(&exchanged(&one, &[1, 0], call.stride as usize)), &widened(&other));
    }

    /// Samples and taps from -1 to 1, evenly, for more frames than a filter is long.
    fn evenly(&self, bench: &mut Bench, name: &str) -> Kind {
        let mut kind = Kind::new(format!("convolver, {name}, samples and taps from -1 to 1, L = 1, 8, 64"), Expected::Counted, Width::Samples);
        for pair in 0..bench.part(8) {
            for length in [1, 8, 64] {
                let mut call = self.call(&mut bench.random, length, length + 8);
                for x in call.inputs.iter_mut().chain(&mut call.taps) {
                    *x = (uniform(&mut bench.random, 2.0) - 1.0) as f32;
                }
                self.compare(bench, &mut kind, call, || format!("pair {pair}, L = {length}"));
            }
        }
        kind
    }

    /// One frame in which the signal of each speaker that is not silent is 1.0, and three speakers with one tap of 2^60, 1 and
    /// -2^60 for both ears: in every arrangement.
    fn cancelling(&self, random: &mut Random) -> Vec<(String, Call)> {
        let count = self.partners.len();
        let places = (0..count.pow(3)).map(|i| [i / count / count, i / count % count, i % count]);
        let call = |[a, b, c]: [usize; 3]| {
            let mut call = self.call(random, 1, 1);
            call.inputs = (0..self.channels).map(|channel| if self.is_ambisonic && channel > 0 { 0.0 } else { 1.0 }).collect();
            call.taps = vec![0.0; 2 * count];
            for (speaker, tap) in [(a, 2f32.powi(60)), (b, 1.0), (c, -2f32.powi(60))] {
                call.taps[2 * speaker..2 * speaker + 2].fill(tap);
            }
            (format!("speaker {a} 2^60, {b} 1, {c} -2^60"), call)
        };
        places.filter(|[a, b, c]| a != b && a != c && b != c).map(call).collect()
    }
}

fn cancelling(bench: &mut Bench, name: &str, those: &[Speakers], expected: Expected) -> Kind {
    let mut kind = Kind::new(format!("convolver, {name}, taps that cancel, L = 1"), expected, Width::Samples);
    for speakers in those {
        for (scene, call) in speakers.cancelling(&mut bench.random) {
            speakers.compare(bench, &mut kind, call, || scene);
        }
    }
    kind
}

/// Samples and taps of all sizes, any bits among the samples: to each of these speakers in its turn.
fn of_all_sizes(bench: &mut Bench, name: &str, those: &[Speakers]) -> Kind {
    let mut kind = Kind::new(format!("convolver, {name}, samples and taps of all sizes"), Expected::Always, Width::Samples);
    for (pair, speakers) in (0..bench.part(2)).zip(those.iter().cycle()) {
        let (length, frames) = (1 + bench.random.below(9) as usize, 1 + bench.random.below(12) as usize);
        let call = speakers.call(&mut bench.random, length, frames);
        speakers.compare(bench, &mut kind, call, || format!("pair {pair}, L = {length}"));
    }
    kind
}

fn convolvers(bench: &mut Bench) -> Vec<Kind> {
    let few = [("one speaker", vec![0]), ("two speakers", vec![1, 0])];
    let mut all: Vec<Kind> = few.map(|(name, partners)| of_all_sizes(bench, name, &[Speakers::surround(partners)])).into();
    let mut many: Vec<(String, Speakers)> =
        [("5.1", 2), ("7.1", 3)].map(|(name, layout)| (name.into(), Speakers::surround(partners(Layout(layout, 0))))).into();
    many.extend((1..=3).map(|order| (format!("virtual, order {order}"), Speakers::ambisonic(bench, order))));
    for (name, speakers) in &many {
        all.push(speakers.evenly(bench, name));
        all.push(cancelling(bench, name, std::slice::from_ref(speakers), Expected::NotAlways));
    }
    all
}

/// Three and more speakers whose order is not heard: those behind the first two stand in the middle, or of two that stand
/// opposite each other one is silent, and adds 0.0 wherever it comes.
fn settled() -> [(&'static str, Vec<Speakers>); 3] {
    let first_two = |count: usize| Speakers::surround([1, 0].into_iter().chain(2..count).collect());
    let without = |layout: u8, silent: &[usize]| Speakers { silent: silent.to_vec(), ..Speakers::surround(partners(Layout(layout, 0))) };
    [
        ("three to eight speakers, the first two exchanged", (3..=8).map(first_two).collect()),
        ("5.1, Rs or Ls silent", [5, 4].map(|surround| without(2, &[surround])).into()),
        ("7.1, a side and a rear speaker silent", [[5, 7], [4, 6], [5, 6], [4, 7]].map(|two| without(3, &two)).into()),
    ]
}

fn settled_convolvers(bench: &mut Bench) -> Vec<Kind> {
    let two_of = |(name, those): (&str, Vec<Speakers>)| [of_all_sizes(bench, name, &those), cancelling(bench, name, &those, Expected::Always)];
    settled().into_iter().flat_map(two_of).collect()
}

/// Says a line a kind; whether each is as expected.
pub fn run(count: usize, seed: u64, words: &[String]) -> io::Result<bool> {
    let parts = [stereo, surround, coefficients, matrices, decoder_blocks, voices, convolvers, settled_convolvers, refused_blocks];
    let mut bench = Bench { program: Program::start(words)?, random: Random::new(seed, "mirror"), count };
    let mut is_as_expected = true;
    for kind in parts.into_iter().flat_map(|part| part(&mut bench)).collect::<Vec<_>>() {
        println!("{}", kind.line());
        is_as_expected &= kind.is_as_expected();
    }
    Ok(bench.program.end()? && is_as_expected)
}

#[cfg(test)]
mod tests {
    use super::*;
    use crate::frame::{Answer, f32_bytes};
    use bbx_dsp::blocks::effectors::binaural_decoder::virtual_speaker::layouts::FOA_POSITIONS;

    /// How far two azimuths are apart, the shorter way round.
    fn apart(a: f64, b: f64) -> f64 {
        let d = (a - b).rem_euclid(360.0);
        d.min(360.0 - d)
    }

    #[test]
    fn partners_stand_opposite_each_other() {
        for group in groups() {
            for layout in group.layouts {
                let (places, partners) = (layout.speakers(), partners(layout));
                assert_eq!(places.len(), partners.len());
                let farthest = (0..places.len()).map(|i| apart(places[i], -places[partners[i]])).fold(0.0, f64::max);
                assert!((0..places.len()).all(|i| partners[partners[i]] == i) && farthest < 1e-12, "{:?}", layout.rust());
                assert_eq!(farthest > 0.0, group.name == "Custom(14)", "{:?}", layout.rust());
            }
        }
        assert!((0..8).all(|s| apart(FOA_POSITIONS[s].0, -FOA_POSITIONS[OPPOSITE[s]].0) == 0.0));
        // Every layout is there, but Custom of an odd number.
        assert_eq!(groups().iter().map(|group| group.layouts.len()).sum::<usize>(), 4 + 8);
    }

    #[test]
    fn pairs_are_counted_by_what_differs() {
        let mut kind = Kind::new("", Expected::Always, Width::Numbers);
        kind.note(String::new, &[1.0, f64::NAN, 0.0], &[1.0, f64::NAN, 0.0]);
        assert!(kind.is_as_expected());
        kind.note(String::new, &[1.0, 0.0], &[1.0, -0.0]);
        assert!(!kind.is_as_expected());
        kind.expected = Expected::ButForZeros;
        assert!(kind.is_as_expected());
        kind.note(String::new, &[1.0, 0.0], &[1f64.next_up(), -0.0]);
        assert_eq!((kind.pairs, kind.same, kind.but_for_zeros, kind.otherwise(), kind.steps, kind.apart), (3, 1, 1, 1, 1, f64::EPSILON));
        assert!(!kind.is_as_expected() && kind.line().contains("place 0 is 3FF0000000000001 and not 3FF0000000000000"));
        kind.expected = Expected::NotAlways;
        assert!(kind.is_as_expected());
        // A kind of which nothing is asked shows nothing; nor does one of zeros in which no zero differs.
        let empty = |expected| Kind::new("", expected, Width::Samples);
        assert!([Expected::Always, Expected::ButForZeros, Expected::NotAlways, Expected::Counted].iter().all(|e| !empty(*e).is_as_expected()));
        let mut zeros = empty(Expected::ButForZeros);
        zeros.note(String::new, &[1.0], &[1.0]);
        assert!(!zeros.is_as_expected());
        zeros.note(String::new, &[1.0], &[f64::from(1f32.next_down())]);
        assert_eq!((zeros.otherwise(), zeros.steps), (1, 1));
    }

    #[test]
    fn six_channels_are_turned() {
        let channels: Vec<usize> = (0..16).filter(|c| turned(&[1.0; 16])[*c] == -1.0).collect();
        assert_eq!(channels, LATERAL);
        assert_eq!(turned(&[0.0; 4]).iter().map(|x| x.to_bits()).collect::<Vec<_>>(), [0, 1 << 63, 0, 0]);
    }

    /// What is heard by document 01's sums of a scene and of its image.
    fn heard(speakers: &Speakers, call: &Call) -> [Vec<f32>; 2] {
        [call.heard().ears, speakers.mirrored(call).heard().ears]
    }

    fn is_mirrored(speakers: &Speakers, call: &Call) -> bool {
        let [one, other] = heard(speakers, call).map(|ears| as_told(&ears));
        bits_of(&exchanged(&one, &[1, 0], call.stride as usize)) == bits_of(&other)
    }

    #[test]
    fn the_order_of_speakers_is_heard_from_three_on() {
        let mut random = Random::new(1, "speakers");
        let two = Speakers::surround(vec![1, 0]);
        for _ in 0..100 {
            let call = two.call(&mut random, 3, 5);
            assert!(is_mirrored(&two, &call));
            assert_eq!(two.mirrored(&two.mirrored(&call)).lists(), call.lists());
        }
        // C, Ls and Rs: 2^60 + 1 - 2^60, and 2^60 - 2^60 + 1.
        let five_one = Speakers::surround(partners(Layout(2, 0)));
        let mut call = five_one.call(&mut random, 1, 1);
        (call.inputs, call.taps) = (vec![0.0, 0.0, 2f32.powi(60), 0.0, 1.0, -2f32.powi(60)], vec![1.0; 12]);
        assert_eq!(heard(&five_one, &call).map(|ears| bits_of(&ears)), [[0; 2], [0x3ed1_05ec; 2]]);
    }

    #[test]
    fn silence_and_the_middle_settle_the_order_of_speakers() {
        let mut random = Random::new(1, "settled");
        for (name, those) in settled() {
            for speakers in &those {
                let mut calls: Vec<Call> = speakers.cancelling(&mut random).into_iter().map(|(_, call)| call).collect();
                calls.extend((0..50).map(|_| speakers.call(&mut random, 3, 5)));
                assert!(calls.iter().all(|call| is_mirrored(speakers, &speakers.silenced(call.clone()))), "{name}");
                // Without the silence the order is heard.
                assert_eq!(calls.iter().all(|call| is_mirrored(speakers, call)), speakers.silent.is_empty(), "{name}");
                // One of each two behind the first, and no other.
                let of_pairs = (2..speakers.channels).filter(|c| speakers.partners[*c] != *c).count();
                assert_eq!(2 * speakers.silent.len(), of_pairs);
            }
        }
    }

    #[test]
    fn unfit_blocks_are_refused_and_so_are_their_images() {
        let mut random = Random::new(1, "unfit");
        for spoil in UNFIT {
            let mut block = Block::fitting(&mut random, 2, 4, 3, 3);
            spoil(&mut block);
            let planes = block.planes.iter().flat_map(|x| f32_bytes(*x));
            let answer = Answer { operation: DECODE, bytes: [5].into_iter().chain([0; 8]).chain(planes).collect() };
            for block in [mirrored(&block), block] {
                assert!((block.judged_by(|_, _| unreachable!()).judge)(&answer).wrong.is_none());
            }
        }
    }
}
