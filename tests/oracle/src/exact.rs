//! Numbers in fixed point with 320 binary places, on whole numbers of any length: the exact reference for
//! everything that document 01 defines over fractions. A float is cut to 2^-320 and so is each product and
//! quotient, so that what is computed here is off by less than 2^-300, where the closest bound is 2^-40.
use std::cmp::Ordering;
use std::ops::{Add, Mul, Neg, Sub};
use std::sync::LazyLock;

const PLACES: usize = 320;

/// A magnitude in limbs of 64 bits, lowest first, without zeros at the end.
type Limbs = Vec<u64>;

fn trim(mut a: Limbs) -> Limbs {
    while a.last() == Some(&0) {
        a.pop();
    }
    a
}

fn compare(a: &Limbs, b: &Limbs) -> Ordering {
    a.len().cmp(&b.len()).then_with(|| a.iter().rev().cmp(b.iter().rev()))
}

fn add(a: &Limbs, b: &Limbs) -> Limbs {
    let mut out = Vec::with_capacity(a.len().max(b.len()) + 1);
    let mut carry = 0u128;
    for i in 0..a.len().max(b.len()) {
        carry += u128::from(*a.get(i).unwrap_or(&0)) + u128::from(*b.get(i).unwrap_or(&0));
        out.push(carry as u64);
        carry >>= 64;
    }
    out.push(carry as u64);
    trim(out)
}

/// a - b, for a b that is no larger.
fn subtract(a: &Limbs, b: &Limbs) -> Limbs {
    let mut out = Vec::with_capacity(a.len());
    let mut borrow = 0i128;
    for (i, x) in a.iter().enumerate() {
        let d = i128::from(*x) - i128::from(*b.get(i).unwrap_or(&0)) - borrow;
        borrow = i128::from(d < 0);
        out.push((d + (borrow << 64)) as u64);
    }
    assert_eq!(borrow, 0);
    trim(out)
}

fn multiply(a: &Limbs, b: &Limbs) -> Limbs {
    let mut out = vec![0u64; a.len() + b.len()];
    for (i, x) in a.iter().enumerate() {
        let mut carry = 0u128;
        for (j, y) in b.iter().enumerate() {
            carry += u128::from(*x) * u128::from(*y) + u128::from(out[i + j]);
            out[i + j] = carry as u64;
            carry >>= 64;
        }
        out[i + b.len()] = carry as u64;
    }
    trim(out)
}

/// In halves of limbs, since a division of 128 bits is slow.
fn divide_small(a: &Limbs, by: u32) -> Limbs {
    let mut out = vec![0u64; a.len()];
    let by = u64::from(by);
    let mut rest = 0u64;
    for i in (0..a.len()).rev() {
        let high = rest << 32 | a[i] >> 32;
        let low = (high % by) << 32 | a[i] & 0xffff_ffff;
        out[i] = ((high / by) << 32) | (low / by);
        rest = low % by;
    }
    trim(out)
}

fn shift_up(a: &Limbs, bits: usize) -> Limbs {
    let mut out = vec![0u64; bits / 64];
    let mut carry = 0u128;
    for x in a {
        carry |= u128::from(*x) << (bits % 64);
        out.push(carry as u64);
        carry >>= 64;
    }
    out.push(carry as u64);
    trim(out)
}

fn shift_down(a: &Limbs, bits: usize) -> Limbs {
    let wide = |i: usize| u128::from(a[i]) | u128::from(*a.get(i + 1).unwrap_or(&0)) << 64;
    trim((bits / 64..a.len()).map(|i| (wide(i) >> (bits % 64)) as u64).collect())
}

#[derive(Clone, Debug)]
pub struct Exact {
    negative: bool,
    limbs: Limbs,
}

impl Exact {
    pub fn whole(n: i64) -> Self {
        let m = n.unsigned_abs();
        Exact { negative: n < 0, limbs: shift_up(&trim(vec![m]), PLACES) }
    }

    /// Cut to 2^-320 where it has digits below that, but never to zero: a tiny angle has a side.
    pub fn float(x: f64) -> Self {
        assert!(x.is_finite());
        let bits = x.to_bits();
        let field = (bits >> 52 & 0x7ff) as usize;
        let digits = bits & 0xf_ffff_ffff_ffff | u64::from(field > 0) << 52;
        let limbs = trim(vec![digits]);
        // The value is digits * 2^(max(field, 1) - 1075).
        let up = field.max(1) + PLACES;
        let cut = if up >= 1075 { shift_up(&limbs, up - 1075) } else { shift_down(&limbs, 1075 - up) };
        let limbs = if cut.is_empty() && digits > 0 { vec![1] } else { cut };
        Exact { negative: bits >> 63 == 1, limbs }
    }

    /// A decimal such as 0.8660254037844386, exactly up to 2^-320.
    pub fn decimal(text: &str) -> Self {
        let (whole, part) = text.split_once('.').unwrap_or((text, ""));
        let mut value = Exact::whole(0);
        for digit in whole.chars().chain(part.chars()) {
            value = value * Exact::whole(10) + Exact::whole(i64::from(digit.to_digit(10).unwrap()));
        }
        for _ in 0..part.len() {
            value = value.over(10);
        }
        value
    }

    pub fn over(&self, by: u32) -> Self {
        Exact { negative: self.negative, limbs: divide_small(&self.limbs, by) }
    }

    pub fn is_negative(&self) -> bool {
        self.negative && !self.limbs.is_empty()
    }

    /// |self| is at most 2^-bits.
    pub fn within(&self, bits: usize) -> bool {
        compare(&self.limbs, &shift_up(&vec![1], PLACES - bits)) != Ordering::Greater
    }

    /// The binary logarithm of the magnitude, roughly: for reports.
    pub fn log2(&self) -> f64 {
        match self.limbs.len() {
            0 => f64::NEG_INFINITY,
            n => {
                let top = self.limbs[n.saturating_sub(2)..].iter().rev().fold(0.0, |v, l| v * 2f64.powi(64) + *l as f64);
                top.log2() + 64.0 * n.saturating_sub(2) as f64 - PLACES as f64
            }
        }
    }

    pub fn at_most(&self, other: &Exact) -> bool {
        let difference = other.clone() - self.clone();
        !difference.is_negative()
    }
}

impl Neg for Exact {
    type Output = Exact;
    fn neg(self) -> Exact {
        Exact { negative: !self.negative, limbs: self.limbs }
    }
}

impl Add for Exact {
    type Output = Exact;
    fn add(self, other: Exact) -> Exact {
        if self.negative == other.negative {
            return Exact { negative: self.negative, limbs: add(&self.limbs, &other.limbs) };
        }
        if compare(&self.limbs, &other.limbs) == Ordering::Less {
            return Exact { negative: other.negative, limbs: subtract(&other.limbs, &self.limbs) };
        }
        Exact { negative: self.negative, limbs: subtract(&self.limbs, &other.limbs) }
    }
}

impl Sub for Exact {
    type Output = Exact;
    fn sub(self, other: Exact) -> Exact {
        self + -other
    }
}

impl Mul for Exact {
    type Output = Exact;
    fn mul(self, other: Exact) -> Exact {
        let limbs = shift_down(&multiply(&self.limbs, &other.limbs), PLACES);
        Exact { negative: self.negative != other.negative, limbs }
    }
}

// ---- document 01, 'Angles'

/// x - x^3/3! + ... up to x^27/27!, or the cosine's sum up to x^28/28!, x in radians.
fn sum(x: &Exact, first: u32) -> Exact {
    let square = x.clone() * x.clone();
    let mut term = if first == 0 { Exact::whole(1) } else { x.clone() };
    let mut total = term.clone();
    let mut n = first;
    while n + 2 <= 28 {
        term = -(term * square.clone()).over((n + 1) * (n + 2));
        total = total + term.clone();
        n += 2;
    }
    total
}

pub fn sine_sum(x: &Exact) -> Exact {
    sum(x, 1)
}

pub fn cosine_sum(x: &Exact) -> Exact {
    sum(x, 0)
}

/// An angle in degrees, reduced by 360 into -180 < d <= 180.
fn reduced(d: &Exact) -> Exact {
    let mut r = d.clone();
    while !r.at_most(&Exact::whole(180)) {
        r = r - Exact::whole(360);
    }
    while r.at_most(&Exact::whole(-180)) {
        r = r + Exact::whole(360);
    }
    r
}

/// The quarter turn that a reduced angle is, if it is one: -1, 0, 1 or 2.
fn quarter(r: &Exact) -> Option<i64> {
    (-1..=2).find(|k| (r.clone() - Exact::whole(90 * k)).limbs.is_empty())
}

/// Document 01's 3141592653589793238 / 10^18.
static PI: LazyLock<Exact> = LazyLock::new(|| Exact::decimal("3.141592653589793238"));

fn radians(r: &Exact) -> Exact {
    (r.clone() * PI.clone()).over(180)
}

pub fn sine(d: &Exact) -> Exact {
    let r = reduced(d);
    match quarter(&r) {
        Some(k) => Exact::whole([-1, 0, 1, 0][(k + 1) as usize]),
        None => sine_sum(&radians(&r)),
    }
}

pub fn cosine(d: &Exact) -> Exact {
    let r = reduced(d);
    match quarter(&r) {
        Some(k) => Exact::whole([0, 1, 0, -1][(k + 1) as usize]),
        None => cosine_sum(&radians(&r)),
    }
}

/// Every bound is judged by what stands above, so it is held here to numbers from elsewhere: whole numbers of 128 bits,
/// fractions worked out by Python's `fractions` and written in hexadecimal, and digits by `bc`.
#[cfg(test)]
mod tests {
    use super::*;
    use crate::random::Random;
    use std::panic::catch_unwind;

    const EDGES: [u128; 14] = [
        0,
        1,
        2,
        0xffff_ffff,
        1 << 32,
        1 << 63,
        u64::MAX as u128,
        1 << 64,
        (1 << 64) + 1,
        u64::MAX as u128 * u64::MAX as u128,
        1 << 96,
        (1 << 127) - 1,
        1 << 127,
        u128::MAX,
    ];

    fn limbs(n: u128) -> Limbs {
        match (n as u64, (n >> 64) as u64) {
            (0, 0) => vec![],
            (low, 0) => vec![low],
            (low, high) => vec![low, high],
        }
    }

    /// Pairs of whole numbers: of those at the edges, and of any length.
    fn pairs() -> Vec<(u128, u128)> {
        let mut random = Random::new(17, "pairs");
        let mut any = || (u128::from(random.bits()) << 64 | u128::from(random.bits())) >> random.below(128);
        let mut all: Vec<(u128, u128)> = EDGES.iter().flat_map(|a| EDGES.map(|b| (*a, b))).collect();
        all.extend((0..2000).map(|_| (any(), any())));
        all
    }

    /// 2^k - 1: ones alone.
    fn ones(k: usize) -> Limbs {
        (0..k.div_ceil(64)).map(|i| u64::MAX >> (64 - (k - 64 * i).min(64))).collect()
    }

    /// 2^k.
    fn power(k: usize) -> Limbs {
        let mut all = vec![0; k / 64];
        all.push(1 << (k % 64));
        all
    }

    /// n times 2^-320.
    fn steps(n: i64) -> Exact {
        Exact { negative: n < 0, limbs: limbs(u128::from(n.unsigned_abs())) }
    }

    /// A number in hexadecimal, with as many places as 320 binary ones are.
    fn hexadecimal(text: &str) -> Exact {
        let (whole, places) = text.trim_start_matches('-').split_once('.').unwrap();
        assert_eq!(4 * places.len(), PLACES);
        let digits = [whole, places].concat().into_bytes();
        let limb = |part: &[u8]| u64::from_str_radix(std::str::from_utf8(part).unwrap(), 16).unwrap();
        let mut limbs: Limbs = digits.rchunks(16).map(limb).collect();
        limbs.truncate(limbs.iter().rposition(|l| *l > 0).map_or(0, |last| last + 1));
        Exact { negative: text.starts_with('-'), limbs }
    }

    /// To the last place; a zero has no sign.
    #[track_caller]
    fn is_same(a: &Exact, b: &Exact) {
        assert_eq!(a.limbs, b.limbs);
        assert_eq!(a.is_negative(), b.is_negative());
    }

    /// But for the last ten of 320 places, where cut products differ from the fraction.
    #[track_caller]
    fn is_near(a: &Exact, b: &Exact) {
        assert!((a.clone() - b.clone()).within(PLACES - 10), "2^{:.1} apart", (a.clone() - b.clone()).log2());
    }

    #[test]
    fn limbs_are_compared_added_and_subtracted_as_numbers_of_128_bits() {
        for (a, b) in pairs() {
            assert_eq!(compare(&limbs(a), &limbs(b)), a.cmp(&b), "{a} {b}");
            let (sum, carry) = a.overflowing_add(b);
            let right = if carry { vec![sum as u64, (sum >> 64) as u64, 1] } else { limbs(sum) };
            assert_eq!(add(&limbs(a), &limbs(b)), right, "{a} + {b}");
            assert_eq!(subtract(&limbs(a.max(b)), &limbs(a.min(b))), limbs(a.abs_diff(b)), "{a} - {b}");
        }
        assert!(catch_unwind(|| subtract(&limbs(1), &limbs(2))).is_err());
    }

    #[test]
    fn limbs_are_multiplied_divided_and_shifted_as_numbers_of_128_bits() {
        for (a, b) in pairs() {
            let (x, y) = (u128::from(a as u64), u128::from(b as u64));
            assert_eq!(multiply(&limbs(x), &limbs(y)), limbs(x * y), "{x} * {y}");
            let by = (b as u32).max(1);
            assert_eq!(divide_small(&limbs(a), by), limbs(a / u128::from(by)), "{a} / {by}");
            for bits in [0, 1, 7, 31, 32, 33, 63, 64, 65, 100, 127] {
                assert_eq!(shift_down(&limbs(a), bits), limbs(a >> bits), "{a} >> {bits}");
                let low = a & (u128::MAX >> bits);
                assert_eq!(shift_up(&limbs(low), bits), limbs(low << bits), "{low} << {bits}");
            }
            assert!(shift_down(&limbs(a), 128).is_empty());
        }
    }

    #[test]
    fn carries_run_through_every_limb_of_a_long_number() {
        for k in [1, 63, 64, 65, 127, 128, 129, 320, 640, 1000] {
            assert_eq!(add(&ones(k), &limbs(1)), power(k));
            assert_eq!(subtract(&power(k), &limbs(1)), ones(k));
            for m in [1, 5, 63, 64, 65, 191, 192, 320, 1000] {
                assert_eq!(shift_up(&ones(k), m), subtract(&power(k + m), &power(m)));
                assert_eq!(shift_down(&shift_up(&ones(k), m), m), ones(k));
                assert_eq!(shift_down(&ones(k), m), ones(k.saturating_sub(m)));
                // (2^k - 1)(2^m - 1) = 2^(k+m) + 1 - 2^k - 2^m.
                let right = subtract(&subtract(&add(&power(k + m), &limbs(1)), &power(k)), &power(m));
                assert_eq!(multiply(&ones(k), &ones(m)), right, "{k} {m}");
            }
        }
        let mut random = Random::new(18, "quotients");
        for _ in 0..500 {
            let long: Limbs = (0..1 + random.below(12)).map(|_| random.bits() | 1 << 63).collect();
            let by = (random.bits() as u32 >> random.below(32)).max(1);
            let rest = random.below(u64::from(by));
            let whole = add(&multiply(&long, &limbs(u128::from(by))), &limbs(u128::from(rest)));
            assert_eq!(divide_small(&whole, by), long);
        }
    }

    #[test]
    fn whole_numbers_and_their_fractions_are_those_of_128_bits() {
        assert_eq!(Exact::whole(1).limbs, [0, 0, 0, 0, 0, 1]);
        assert_eq!(Exact::whole(i64::MIN).limbs, [0, 0, 0, 0, 0, 1 << 63]);
        assert!(Exact::whole(i64::MIN).is_negative() && Exact::whole(0).limbs.is_empty());
        // Numbers of 48 bits over 2^16, and their sums and products over 2^16 and 2^32.
        let over = |n: i128, bits: usize| Exact { negative: n < 0, limbs: multiply(&limbs(n.unsigned_abs()), &power(PLACES - bits)) };
        let mut random = Random::new(19, "signs");
        let mut any = || (random.bits() as i64) >> (16 + random.below(48));
        let mut all: Vec<(i64, i64)> = [-3, -1, 0, 1, 2].iter().flat_map(|a| [-2, -1, 0, 1, 3].map(|b| (*a, b))).collect();
        all.extend((0..2000).map(|_| (any(), any())));
        for (a, b) in all {
            let (x, y) = (Exact::whole(a).over(1 << 16), Exact::whole(b).over(1 << 16));
            let (m, n) = (i128::from(a), i128::from(b));
            is_same(&x, &over(m, 16));
            is_same(&(x.clone() + y.clone()), &over(m + n, 16));
            is_same(&(x.clone() - y.clone()), &over(m - n, 16));
            is_same(&(x.clone() * y.clone()), &over(m * n, 32));
            is_same(&-x.clone(), &over(-m, 16));
            assert_eq!(x.is_negative(), a < 0);
            assert_eq!(x.at_most(&y), a <= b, "{a} {b}");
        }
    }

    #[test]
    fn floats_are_taken_to_the_last_of_320_places_and_never_to_zero() {
        is_same(&Exact::float(1.0), &Exact::whole(1));
        is_same(&Exact::float(-1080.0), &Exact::whole(-1080));
        is_same(&Exact::float(0.5), &Exact::whole(1).over(2));
        is_same(&Exact::float(-0.375), &Exact::whole(-3).over(8));
        is_same(&Exact::float(1.0 + f64::EPSILON), &hexadecimal(&format!("1.0000000000001{}", "0".repeat(67))));
        is_same(&Exact::float(0.1), &hexadecimal(&format!("0.1999999999999a{}", "0".repeat(66))));
        assert_eq!(Exact::float(f64::MAX).limbs, multiply(&ones(53), &power(971 + PLACES)));
        assert_eq!(Exact::float(2f64.powi(-268) * (2.0 - f64::EPSILON)).limbs, ones(53));
        // From here on digits are cut, but for the first that is left.
        assert_eq!(Exact::float(2f64.powi(-269) * (2.0 - f64::EPSILON)).limbs, ones(52));
        is_same(&Exact::float(2f64.powi(-319)), &steps(2));
        is_same(&Exact::float(2f64.powi(-320)), &steps(1));
        is_same(&Exact::float(-1.75 * 2f64.powi(-320)), &steps(-1));
        for tiny in [2f64.powi(-321), f64::MIN_POSITIVE, f64::from_bits(0xf_ffff_ffff_ffff), 5e-324] {
            is_same(&Exact::float(tiny), &steps(1));
            is_same(&Exact::float(-tiny), &steps(-1));
        }
        for zero in [0.0, -0.0] {
            assert!(Exact::float(zero).limbs.is_empty() && !Exact::float(zero).is_negative());
        }
        for none in [f64::NAN, f64::INFINITY, f64::NEG_INFINITY] {
            assert!(catch_unwind(|| Exact::float(none)).is_err());
        }
        // Sums and products of floats that are exact in f64 too.
        let mut random = Random::new(20, "floats");
        for _ in 0..1000 {
            let mut any = || ((random.bits() as i64) >> 38) as f64 * 2f64.powi(random.below(20) as i32 - 10);
            let (x, y) = (any(), any());
            is_same(&(Exact::float(x) + Exact::float(y)), &Exact::float(x + y));
            is_same(&(Exact::float(x) * Exact::float(y)), &Exact::float(x * y));
            assert_eq!(Exact::float(x).at_most(&Exact::float(y)), x <= y);
        }
    }

    #[test]
    fn products_and_quotients_are_cut_towards_zero() {
        let half = || Exact::whole(1).over(2);
        for (n, halved) in [(1, 0), (2, 1), (3, 1), (-1, 0), (-3, -1), (7, 3), (-7, -3)] {
            is_same(&(steps(n) * half()), &steps(halved));
            is_same(&(half() * steps(n)), &steps(halved));
            is_same(&steps(n).over(2), &steps(halved));
        }
        assert!(!(steps(-1) * half()).is_negative());
        is_same(&Exact::whole(1).over(3), &hexadecimal(&format!("0.{}", "5".repeat(80))));
        is_same(&Exact::whole(-2).over(3), &hexadecimal(&format!("-0.{}", "a".repeat(80))));
    }

    #[test]
    fn decimals_are_cut_to_the_last_of_320_places() {
        is_same(&Exact::decimal("12"), &Exact::whole(12));
        is_same(&Exact::decimal("0.5"), &Exact::float(0.5));
        is_same(&Exact::decimal("90.0625"), &Exact::float(90.0625));
        is_same(&Exact::decimal("0.1"), &hexadecimal(&format!("0.1{}", "9".repeat(79))));
        is_same(&PI, &hexadecimal("3.243f6a8885a308ca8a54022965596ce1480e6f7c4c6798bde1232d0c46d6a0179349b224130a52e6"));
        assert!(catch_unwind(|| Exact::decimal("1e3")).is_err());
        // The root of 2 to ninety places, and one more in the last of them.
        let (below, above) = (
            Exact::decimal("1.414213562373095048801688724209698078569671875376948073176679737990732478462107038850387534"),
            Exact::decimal("1.414213562373095048801688724209698078569671875376948073176679737990732478462107038850387535"),
        );
        let square = |x: Exact| x.clone() * x;
        assert!(!Exact::whole(2).at_most(&square(below.clone())) && !square(above.clone()).at_most(&Exact::whole(2)));
        assert!((Exact::whole(2) - square(below)).within(296) && (square(above) - Exact::whole(2)).within(296));
    }

    #[test]
    fn a_distance_is_within_a_power_of_two_up_to_that_power() {
        for bits in [0, 1, 29, 30, 33, 34, 36, 40, 63, 64, 65, 319, 320] {
            let bound = Exact { negative: false, limbs: power(PLACES - bits) };
            for one in [bound.clone(), -bound.clone()] {
                assert!(one.within(bits) && !(one.clone() + one).within(bits));
            }
            for more in [bound.clone() + steps(1), -bound.clone() - steps(1)] {
                assert!(!more.within(bits));
            }
            for less in [bound.clone() - steps(1), steps(1) - bound.clone(), Exact::whole(0), -Exact::whole(0)] {
                assert!(less.within(bits));
            }
            assert_eq!(bound.log2(), -(bits as f64));
            assert_eq!((-bound).log2(), -(bits as f64));
        }
        assert_eq!(Exact::whole(0).log2(), f64::NEG_INFINITY);
        assert_eq!(Exact::float(2f64.powi(1000)).log2(), 1000.0);
        for (x, right) in [
            (Exact::whole(10), 10f64.log2()),
            (Exact::whole(3).over(2), 1.5f64.log2()),
            (Exact::whole(1).over(10), 0.1f64.log2()),
            (Exact::whole(-3).over(1 << 31), 3f64.log2() - 31.0),
        ] {
            assert!((x.log2() - right).abs() < 1e-12);
        }
    }

    #[test]
    fn what_is_at_most_another_may_be_it() {
        let (zero, one) = (Exact::whole(0), Exact::whole(1));
        assert!(zero.at_most(&-zero.clone()) && (-zero.clone()).at_most(&zero));
        assert!(one.at_most(&one) && (-one.clone()).at_most(&-one.clone()) && (-one.clone()).at_most(&one));
        assert!(!one.at_most(&(one.clone() - steps(1))) && one.at_most(&(one.clone() + steps(1))));
        assert!(!one.at_most(&-one.clone()) && !steps(1).at_most(&zero) && steps(-1).at_most(&zero));
    }

    #[test]
    fn the_sums_are_those_of_fractions() {
        let right = [
            (
                Exact::whole(1),
                "0.d76aa47848677020c6e9e909c2c49e8090fdffb9f3c5dfc759205557853cbe598b273b7590107486",
                "0.8a51407da8345c91c2466d9768854b49e4996a988b2260d282493387981953d1b7d708b1ff947ab2",
            ),
            (
                Exact::whole(-2),
                "-0.e8c7b7568da22efd5bdaf4df0669e93654856e2ab03440ba26c855fcd32e77c04155b064ff60dacb",
                "-0.6a88995d4dc81290ccb94b6c64d00c7cad96a005cab0a66219124c7454013ae4c7a516b88b4a68a8",
            ),
            (
                Exact::whole(22).over(7),
                "-0.0052de9a9a24db2faaa07512838639fccd174954d76839d5512c61e939cb9393379b1b9067e436f1",
                "-0.fffff29651586bef7edbede820a9d82a6944d71999bb9bf4e5c782ab3cb9759a01a53e12cda08232",
            ),
        ];
        for (x, sine, cosine) in right {
            is_near(&sine_sum(&x), &hexadecimal(sine));
            is_near(&cosine_sum(&x), &hexadecimal(cosine));
        }
        is_same(&sine_sum(&Exact::whole(0)), &Exact::whole(0));
        is_same(&cosine_sum(&Exact::whole(0)), &Exact::whole(1));
        // So near 0 the sums are the true functions, to the last of the places.
        let x = Exact::whole(1).over(1024);
        is_near(&sine_sum(&x), &Exact::decimal("0.000976562344779578298906910168119786366802418046208258492718128820853233014206008377129243731245667109370"));
        is_near(
            &cosine_sum(&x),
            &Exact::decimal("0.999999523162879692486369202949889069215510235208243466564977596463295975774499988352427028045815055626429"),
        );
    }

    #[test]
    fn angles_are_reduced_past_minus_180_and_up_to_180() {
        for (d, right) in [(180, 180), (-180, 180), (181, -179), (-181, 179), (540, 180), (-540, 180), (1080, 0), (-1080, 0), (359, -1), (-90, -90), (0, 0)] {
            is_same(&reduced(&Exact::whole(d)), &Exact::whole(right));
        }
        is_same(&reduced(&(Exact::whole(180) + steps(1))), &(Exact::whole(-180) + steps(1)));
        is_same(&reduced(&(Exact::whole(-180) + steps(1))), &(Exact::whole(-180) + steps(1)));
    }

    #[test]
    fn quarter_turns_are_exact_and_nothing_next_to_them_is() {
        for k in -12..=12i64 {
            let d = Exact::whole(90 * k);
            let turn = k.rem_euclid(4) as usize;
            is_same(&sine(&d), &Exact::whole([0, 1, 0, -1][turn]));
            is_same(&cosine(&d), &Exact::whole([1, 0, -1, 0][turn]));
            for beside in [d.clone() + steps(1), d - steps(1)] {
                let r = reduced(&beside);
                assert_eq!(quarter(&r), None);
                is_same(&sine(&beside), &sine_sum(&radians(&r)));
                is_same(&cosine(&beside), &cosine_sum(&radians(&r)));
            }
        }
    }

    #[test]
    fn sines_and_cosines_of_degrees_are_those_of_fractions() {
        let right = [
            (
                Exact::whole(30),
                "0.7ffffffffffffffec4a7c70fb62f5dccd5ed180642424c6d946865d408017bdb747870083c2e5de4",
                "0.ddb3d742c265539e48ca8cb89ede08f6a6344046f35a68c2ab7443de5d47e5a6e2e2bb6f828553a4",
            ),
            (
                Exact::whole(-135),
                "-0.b504f333f9de6488bf177214ae870e96bdff0caf700d6d8650e00855f2d43714ad5a633fe1081cdc",
                "-0.b504f333f9de647fd03e5fbeee9512cedde1794cc8f04eb167c351bed4573008fc89656168a98e81",
            ),
            (
                Exact::whole(1).over(10),
                "0.007261c04097ac7c6514bbe4b95ad13163f26a6397dcf07f0cf2181d578023f629217de72c6ea7f9",
                "0.ffffe6726473207020aa43f1f68b65112f428a3bff03054f416af6cd35223818a8e199529dec2c58",
            ),
            (
                Exact::whole(179),
                "0.0477c2cae27745d2c6c319ada55a2facc35efac7d7dccff1220b330618a933de96b5184343eea3b7",
                "-0.fff604bfad7c4d9ed6cf11905fe87153197917662072041aab5fc2328b23747acb2b2a7f3b5bf38d",
            ),
        ];
        for (d, of_sine, of_cosine) in right {
            for turns in [-720, -360, 0, 360, 720] {
                let turned = d.clone() + Exact::whole(turns);
                is_near(&sine(&turned), &hexadecimal(of_sine));
                is_near(&cosine(&turned), &hexadecimal(of_cosine));
            }
            is_near(&sine(&-d.clone()), &-hexadecimal(of_sine));
            is_near(&cosine(&-d), &hexadecimal(of_cosine));
        }
        // And, as far as an f64 tells, the processor's.
        let mut random = Random::new(21, "degrees");
        for _ in 0..200 {
            let d = (random.bits() >> 11) as f64 / (1u64 << 53) as f64 * 2160.0 - 1080.0;
            assert!((sine(&Exact::float(d)) - Exact::float(d.to_radians().sin())).within(45), "{d}");
            assert!((cosine(&Exact::float(d)) - Exact::float(d.to_radians().cos())).within(45), "{d}");
        }
    }
}
