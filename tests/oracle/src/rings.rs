//! One ear's part of one speaker, asked for by itself: a ring and taps of any lengths, bit for bit with document 01's ordered sum. It is
//! written here as the document has it, a place for each frame ago, with nothing of runs.
use crate::convolver::cancelling;
use crate::frame::{Case, Sink, exactly, f64_bytes, request, send};
use crate::malformed::WRONG_LENGTH;
use crate::random::Random;

pub const CONVOLVE: u8 = 25;

/// No more cells and taps than these can be lent.
const MOST_CELLS: usize = 4100;
const MOST_TAPS: usize = 8200;

/// A ring, the place of its newest signal, and taps.
#[derive(Clone)]
struct Part {
    ring: Vec<f32>,
    newest: u64,
    taps: Vec<f32>,
}

impl Part {
    /// How many taps meet a signal.
    fn used(&self) -> usize {
        self.ring.len().min(self.taps.len())
    }

    /// Where the signal of k frames ago stands. Beyond the last cell the newest is the last.
    fn place(&self, k: usize) -> usize {
        let n = self.ring.len();
        let from = self.newest.min(n as u64 - 1) as usize;
        (from + n - k) % n
    }

    /// The signal k frames ago times tap k.
    fn term(&self, k: usize) -> f64 {
        f64::from(self.ring[self.place(k)]) * f64::from(self.taps[k])
    }

    /// The terms from `from` up to `to`, added to a sum in this order.
    fn added(&self, sum: f64, from: usize, to: usize) -> f64 {
        (from..to).fold(sum, |sum, k| sum + self.term(k))
    }

    /// Document 01, 'Sums': "the f64 sum from 0.0, k from 0 [..], of signal k frames ago times tap k".
    fn sum(&self) -> f64 {
        self.added(0.0, 0, self.used())
    }

    /// The same sum with the oldest signal first: equal in algebra.
    fn oldest_first(&self) -> f64 {
        (0..self.used()).rev().fold(0.0, |sum, k| sum + self.term(k))
    }

    /// How many terms the first run has, from the newest back to the start.
    fn first_run(&self) -> usize {
        self.newest.saturating_add(1).min(self.used() as u64) as usize
    }

    /// The sum of the first run and that of the second, each from 0.0, added: equal in algebra.
    fn runs_apart(&self) -> f64 {
        self.added(0.0, 0, self.first_run()) + self.added(0.0, self.first_run(), self.used())
    }

    /// The arguments, such lengths being said of the lists.
    fn arguments(&self, cells: u16, taps: u16) -> Vec<u8> {
        let mut arguments = [cells.to_be_bytes(), taps.to_be_bytes()].concat();
        arguments.extend(self.newest.to_be_bytes());
        arguments.extend(self.ring.iter().chain(&self.taps).flat_map(|x| x.to_bits().to_be_bytes()));
        arguments
    }

    fn said(&self, cells: u16, taps: u16) -> Case {
        exactly(request(CONVOLVE, &self.arguments(cells, taps)), CONVOLVE, f64_bytes(self.sum()).to_vec())
    }

    fn case(&self) -> Case {
        self.said(self.ring.len() as u16, self.taps.len() as u16)
    }

    /// Any floats, now and then of any pattern.
    fn any(random: &mut Random, cells: usize, newest: u64, taps: usize) -> Part {
        let mut list = |n: usize| (0..n).map(|_| float(random)).collect();
        Part { ring: list(cells), newest, taps: list(taps) }
    }

    /// The terms that are summed cancel, so that the oldest first and the runs added apart each change a bit. Two terms are the same
    /// in any order, and a second run of one term is the same alone.
    fn telling(random: &mut Random, cells: usize, newest: u64, taps: usize) -> Part {
        loop {
            let mut part = Part::any(random, cells, newest, taps);
            let used = part.used();
            let terms = if used > 1 { cancelling(random, used) } else { Vec::new() };
            for (k, term) in terms.into_iter().enumerate() {
                let place = part.place(k);
                (part.ring[place], part.taps[k]) = term;
            }
            let differs = |other: f64| other.to_bits() != part.sum().to_bits();
            if (used < 3 || differs(part.oldest_first())) && (used - part.first_run() < 2 || differs(part.runs_apart())) {
                return part;
            }
        }
    }
}

fn float(random: &mut Random) -> f32 {
    match random.below(20) {
        0 => f32::from_bits(random.bits() as u32),
        1 => f32::from_bits(random.bits() as u32 & 0x8000_0000),
        _ => f32::from_bits(random.bits() as u32 & 0x807f_ffff | (107 + random.below(40) as u32) << 23),
    }
}

/// Every ring of up to 7 cells and every list of up to 9 taps, at every newest, one beyond the last and the largest number.
fn at_every_split(random: &mut Random) -> Vec<Part> {
    let mut all = Vec::new();
    for cells in 0..=7 {
        for taps in 0..=9 {
            all.extend((0..=cells as u64).chain([u64::MAX]).map(|newest| Part::telling(random, cells, newest, taps)));
        }
    }
    all
}

/// Every kind of float: NaNs, infinities, the largest, subnormals, zeros.
pub const EVERY_KIND: [u32; 12] = [
    0x7fc0_0000, 0xff80_0001, 0x7f80_0000, 0xff80_0000, 0x7f7f_ffff, 0xff7f_ffff, 0x0000_0001, 0x807f_ffff, 0x0000_0000, 0x8000_0000, 0x3f80_0000, 0xbf80_0000,
];

/// Every kind of cell times every kind of tap; every kind in every cell and in every tap of a ring, at every newest; and lists of
/// -0.0, whose sum is 0.0.
fn of_every_kind() -> Vec<Part> {
    let kinds = EVERY_KIND.map(f32::from_bits);
    let mut all = Vec::new();
    for cell in kinds {
        all.extend(kinds.map(|tap| Part { ring: vec![cell], newest: 0, taps: vec![tap] }));
    }
    for kind in kinds {
        for place in 0..3 {
            for newest in 0..3 {
                let ones = Part { ring: vec![1.0; 3], newest, taps: vec![1.0; 3] };
                let (mut in_ring, mut in_taps) = (ones.clone(), ones);
                in_ring.ring[place] = kind;
                in_taps.taps[place] = kind;
                all.extend([in_ring, in_taps]);
            }
        }
    }
    for n in 0..=7 {
        for (cell, tap) in [(-0.0, 1.0), (1.0, -0.0), (-0.0, 0.0), (-0.0, -0.0)] {
            all.push(Part { ring: vec![cell; n], newest: n as u64 / 2, taps: vec![tap; n] });
        }
    }
    all
}

/// Lists of these kinds as they come, in which infinities of both signs meet.
fn of_mixed_kinds(random: &mut Random) -> Vec<Part> {
    let kinds = EVERY_KIND.map(f32::from_bits);
    let mut any = |n: usize| -> Vec<f32> { (0..n).map(|_| kinds[random.below(12) as usize]).collect() };
    (0..120).map(|i| Part { ring: any(2 + i % 4), newest: i as u64 % 7, taps: any(2 + i % 5) }).collect()
}

/// 2^60, 1 and -2^60, the newest first in the ring: 1.0. It would be 0.0 with the oldest signal first, and with the two runs added apart.
fn worked_example() -> Case {
    let part = Part { ring: [0x5d80_0000, 0x3f80_0000, 0xdd80_0000].map(f32::from_bits).to_vec(), newest: 0, taps: vec![1.0; 3] };
    exactly(request(CONVOLVE, &part.arguments(3, 3)), CONVOLVE, 0x3ff0_0000_0000_0000u64.to_be_bytes().to_vec())
}

/// Lists that are not as long as is said.
fn misfits(random: &mut Random) -> Vec<Case> {
    let mut all = Vec::new();
    let mut wrong = |arguments: Vec<u8>| all.push(exactly(request(CONVOLVE, &arguments), 0, vec![WRONG_LENGTH]));
    for (cells, taps) in [(0, 0), (0, 2), (3, 0), (3, 2)] {
        let part = Part::any(random, cells, 1, taps);
        let (r, t) = (cells as u16, taps as u16);
        let right = part.arguments(r, t);
        wrong(right[..right.len() - 1].to_vec());
        wrong([&right[..], &[0]].concat());
        wrong([&right[..], &[0; 4]].concat());
        for (r, t) in [(r + 1, t), (r, t + 1), (r + 1, t + 1), (u16::MAX, t), (r, u16::MAX), (256 + r, t), (r, 256 + t)] {
            wrong(part.arguments(r, t));
        }
    }
    all
}

/// As many cells and taps as can be lent, and a length above that, which counts as that.
fn largest(random: &mut Random) -> Vec<Case> {
    let mut all = Vec::new();
    for (cells, taps) in [(MOST_CELLS, 1), (2, MOST_TAPS), (MOST_CELLS, MOST_CELLS), (MOST_CELLS, MOST_TAPS), (MOST_CELLS - 1, MOST_TAPS - 1)] {
        for newest in [0, 1, cells as u64 / 2, cells as u64 - 2, cells as u64 - 1, cells as u64, u64::MAX] {
            let part = Part::telling(random, cells, newest, taps);
            all.push(part.case());
            if cells == MOST_CELLS {
                all.extend([cells as u16 + 1, u16::MAX].map(|said| part.said(said, taps as u16)));
            }
            if taps == MOST_TAPS {
                all.extend([taps as u16 + 1, u16::MAX].map(|said| part.said(cells as u16, said)));
            }
        }
    }
    // One more than can be lent is there too.
    for (cells, taps) in [(MOST_CELLS + 1, 3), (3, MOST_TAPS + 1)] {
        let part = Part::any(random, cells, 0, taps);
        all.push(exactly(request(CONVOLVE, &part.arguments(cells as u16, taps as u16)), 0, vec![WRONG_LENGTH]));
    }
    all
}

pub fn cases(random: &mut Random, count: usize, sink: &mut Sink) {
    sink(worked_example());
    send(sink, of_every_kind().iter().map(Part::case));
    send(sink, of_mixed_kinds(random).iter().map(Part::case));
    send(sink, misfits(random));
    for _ in 0..=count / 1000 {
        send(sink, at_every_split(random).iter().map(Part::case));
    }
    if count >= 1000 {
        send(sink, largest(random));
        for newest in [0, 1, 255, 256, 510, 511, 512] {
            sink(Part::telling(random, 512, newest, 512).case());
        }
    }
    for _ in 0..(if count < 1000 { count / 20 } else { count / 2 }) {
        let cells = (random.below(64) >> random.below(5)) as usize;
        let taps = if random.below(2) == 0 { cells } else { (random.below(64) >> random.below(5)) as usize };
        let newest = if random.below(8) == 0 { random.bits() >> random.below(64) } else { random.below(cells as u64 + 1) };
        let made = if random.below(3) == 0 { Part::any } else { Part::telling };
        sink(made(random, cells, newest, taps).case());
    }
}

#[cfg(test)]
mod tests {
    use super::*;

    #[test]
    fn the_worked_example_tells_the_order_and_the_runs() {
        let big = 2f32.powi(60);
        let part = Part { ring: vec![big, 1.0, -big], newest: 0, taps: vec![1.0; 3] };
        assert_eq!(part.arguments(3, 3)[12..], [0x5d, 0x80, 0, 0, 0x3f, 0x80, 0, 0, 0xdd, 0x80, 0, 0, 0x3f, 0x80, 0, 0, 0x3f, 0x80, 0, 0, 0x3f, 0x80, 0, 0]);
        assert_eq!(worked_example().request, part.case().request);
        assert_eq!(part.sum(), 1.0);
        assert_eq!(part.runs_apart(), 0.0);
        assert_eq!(part.oldest_first(), 0.0);
    }

    /// Small rings, summed by hand.
    #[test]
    fn a_ring_is_read_from_the_newest_back_round_to_the_oldest() {
        let sum = |newest: u64, taps: &[f32]| Part { ring: vec![1.0, 10.0, 100.0], newest, taps: taps.to_vec() }.sum();
        assert_eq!(sum(0, &[1.0, 2.0, 3.0]), 1.0 + 200.0 + 30.0);
        assert_eq!(sum(1, &[1.0, 2.0, 3.0]), 10.0 + 2.0 + 300.0);
        assert_eq!(sum(2, &[1.0, 2.0, 3.0]), 100.0 + 20.0 + 3.0);
        for beyond in [3, 4, 5, 1 << 32, u64::MAX] {
            assert_eq!(sum(beyond, &[1.0, 2.0, 3.0]), 123.0);
        }
        // The shorter of the two ends it.
        assert_eq!(sum(1, &[1.0, 2.0]), 12.0);
        assert_eq!(sum(1, &[1.0, 2.0, 3.0, 4.0]), 312.0);
        assert_eq!(sum(1, &[]).to_bits(), 0);
        assert_eq!(Part { ring: vec![], newest: 0, taps: vec![1.0] }.sum().to_bits(), 0);
    }

    type Sum = fn(&Part) -> f64;

    /// How the sum of two runs could go wrong beside.
    const OTHERS: [(&str, Sum); 5] = [
        ("the second run first", |part| part.added(part.added(0.0, part.first_run(), part.used()), 0, part.first_run())),
        ("the second run from nothing", |part| part.added(0.0, part.first_run(), part.used())),
        ("no second run", |part| part.added(0.0, 0, part.first_run())),
        ("the second run from the first tap", |part| {
            let first = part.first_run();
            (first..part.used()).fold(part.added(0.0, 0, first), |sum, k| sum + f64::from(part.ring[part.place(k)]) * f64::from(part.taps[k - first]))
        }),
        ("a newest beyond the end goes round", |part| Part { newest: part.newest.checked_rem(part.ring.len() as u64).unwrap_or(0), ..part.clone() }.sum()),
    ];

    fn differs(part: &Part, other: f64) -> bool {
        f64_bytes(other) != f64_bytes(part.sum())
    }

    /// The requests at every split tell each other way, the order and the runs wherever there are terms enough.
    #[test]
    fn every_other_way_is_told() {
        let splits = at_every_split(&mut Random::new(1, "convolve"));
        assert_eq!(splits.len(), 440);
        for part in &splits {
            assert_eq!(differs(part, part.oldest_first()), part.used() > 2);
            assert_eq!(differs(part, part.runs_apart()), part.used() - part.first_run() > 1);
        }
        for (name, other) in OTHERS {
            let told = splits.iter().filter(|part| differs(part, other(part))).count();
            assert!(told > 30, "{name}: {told}");
        }
    }

    /// A sum of nothing and a sum of -0.0 are 0.0, and would be -0.0 if they began there.
    #[test]
    fn a_sum_begun_at_minus_zero_is_told() {
        let begun = |part: &Part| part.added(-0.0, 0, part.used());
        let none = Part { ring: vec![], newest: 0, taps: vec![] };
        let minus = Part { ring: vec![-0.0; 3], newest: 1, taps: vec![1.0; 3] };
        for part in [none, minus] {
            assert_eq!(part.sum().to_bits(), 0);
            assert_eq!(begun(&part).to_bits(), 1 << 63);
        }
        assert!(of_every_kind().iter().filter(|part| differs(part, begun(part))).count() > 20);
    }
}
