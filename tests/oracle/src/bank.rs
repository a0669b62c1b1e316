//! The filter bank file, from document 01, 'Filter bank file', and document 02, E2 and E6, alone. The reader goes from the
//! front, since byte order is asked for, but by cutting slices off what is left, and forms a bank as it goes; what a writer has
//! to tell has no walk: it looks at all of a bank's numbers, and tells of those that are wrong the one that would stand first.
//! Beside them stand the files to try, with what is told of them. They are read and written in filing.rs, and turned into the
//! other version in turning.rs.
use crate::random::Random;

/// "Reading fills lent lists of 8 azimuths and 8,192 taps"; "Reading also fills a list of 8 elevations".
pub const AZIMUTHS: usize = 8;
pub const ELEVATIONS: usize = 8;
pub const TAPS: usize = 8192;

/// "Other lengths are 5".
pub const LENGTH: u8 = 5;

/// "13 version, 14 length, 15 row count, 16 tap count, 17 azimuth out of range or repeated, 18 tap not finite, 19 ends before
/// or inside a field still to be read"; "20 elevation out of range", "21 has elevations".
pub const VERSION: u8 = 13;
pub const FOLLOWING: u8 = 14;
pub const ROWS: u8 = 15;
pub const TAP_COUNT: u8 = 16;
pub const AZIMUTH: u8 = 17;
pub const TAP: u8 = 18;
pub const ENDS: u8 = 19;
pub const ELEVATION: u8 = 20;
pub const RAISED: u8 = 21;

/// A refusal, and "the offset of the first byte of the offending field".
pub type Fault = (u8, usize);

/// Nothing is refused.
pub const SOUND: Fault = (0, 0);

/// The versions that are read.
pub const BOTH: [u32; 2] = [1, 2];

#[derive(Clone, Debug, Default, PartialEq)]
pub struct Bank {
    pub azimuths: Vec<i16>,
    pub elevations: Vec<i16>,
    pub length: usize,
    pub taps: Vec<u32>,
}

// ---- the form of a file

/// What is left of a file that is taken apart from the front, and how long the whole of it was.
struct Left<'a> {
    size: usize,
    rest: &'a [u8],
}

impl Left<'_> {
    /// Takes the next field off, as one number, with the place where it stood. "19 gives the file's length."
    fn take(&mut self, count: usize) -> Result<(usize, u32), Fault> {
        let at = self.size - self.rest.len();
        let (front, back) = self.rest.split_at_checked(count).ok_or((ENDS, self.size))?;
        self.rest = back;
        Ok((at, front.iter().fold(0, |n, b| n << 8 | u32::from(*b))))
    }

    /// Takes an angle off, which has two bytes and a sign.
    fn take_angle(&mut self) -> Result<(usize, i16), Fault> {
        self.take(2).map(|(at, n)| (at, n as u16 as i16))
    }
}

pub fn hold(is_right: bool, refusal: u8, at: usize) -> Result<(), Fault> {
    if is_right { Ok(()) } else { Err((refusal, at)) }
}

pub fn is_azimuth(azimuth: i16) -> bool {
    (-1799..=1800).contains(&azimuth)
}

pub fn is_elevation(elevation: i16) -> bool {
    (-900..=900).contains(&elevation)
}

pub fn is_tap(bits: u32) -> bool {
    f32::from_bits(bits).is_finite()
}

/// The bank that a file of one of these versions holds, or what breaks the form first.
pub fn bank_of(file: &[u8], versions: &[u32]) -> Result<Bank, Fault> {
    let mut left = Left { size: file.len(), rest: file };
    let (at, version) = left.take(1)?;
    hold(versions.contains(&version), VERSION, at)?;
    let (length_at, following) = left.take(4)?;
    hold(following as usize == left.rest.len(), FOLLOWING, length_at)?;
    let (at, rows) = left.take(2)?;
    hold((1..=8).contains(&rows), ROWS, at)?;
    let (at, length) = left.take(2)?;
    hold((1..=512).contains(&length), TAP_COUNT, at)?;
    let mut bank = Bank { length: length as usize, ..Bank::default() };
    for _ in 0..rows {
        let (azimuth_at, azimuth) = left.take_angle()?;
        hold(is_azimuth(azimuth), AZIMUTH, azimuth_at)?;
        let elevation = if version == 1 {
            // "azimuths differ pairwise"; "Version 1 files are still read, at elevation 0".
            hold(!bank.azimuths.contains(&azimuth), AZIMUTH, azimuth_at)?;
            0
        } else {
            // "the pair repeated, the latter checked at the elevation field after 20 and pointing at it".
            let (at, elevation) = left.take_angle()?;
            hold(is_elevation(elevation), ELEVATION, at)?;
            let is_new = bank.azimuths.iter().zip(&bank.elevations).all(|pair| pair != (&azimuth, &elevation));
            hold(is_new, AZIMUTH, at)?;
            elevation
        };
        bank.azimuths.push(azimuth);
        bank.elevations.push(elevation);
        for _ in 0..2 * length {
            let (at, tap) = left.take(4)?;
            hold(is_tap(tap), TAP, at)?;
            bank.taps.push(tap);
        }
    }
    // "or if bytes are left after the last row": the length is wrong, "at its own field".
    hold(left.rest.is_empty(), FOLLOWING, length_at)?;
    Ok(bank)
}

/// What is told of reading a file, and nothing of the bank in it.
pub fn file_fault(file: &[u8]) -> Fault {
    bank_of(file, &BOTH).err().unwrap_or(SOUND)
}

/// How many bytes a file of so many rows has. A row of version 2 has two more than one of version 1.
pub fn size_as(version: u8, rows: usize, length: usize) -> usize {
    9 + rows * (if version == 1 { 2 } else { 4 } + 8 * length)
}

/// What is told of writing a bank whose lengths agree. Of its numbers that are wrong it is the one whose field would stand first
/// in a file of version 2. A count is wrong as a number, also where its field has no room for it.
pub fn bank_fault(bank: &Bank) -> Fault {
    let row_at = |i: usize| size_as(2, i, bank.length);
    let pair = |i: usize| (bank.azimuths[i], bank.elevations[i]);
    let mut wrong = Vec::new();
    for (j, _) in bank.taps.iter().enumerate().filter(|(_, tap)| !is_tap(**tap)) {
        let in_row = 2 * bank.length;
        wrong.push((row_at(j / in_row) + 4 + 4 * (j % in_row), TAP));
    }
    for i in 0..bank.azimuths.len() {
        let (azimuth, elevation) = pair(i);
        if !is_elevation(elevation) {
            wrong.push((row_at(i) + 2, ELEVATION));
        } else if (0..i).any(|j| pair(j) == pair(i)) {
            wrong.push((row_at(i) + 2, AZIMUTH));
        }
        if !is_azimuth(azimuth) {
            wrong.push((row_at(i), AZIMUTH));
        }
    }
    if !(1..=512).contains(&bank.length) {
        wrong.push((7, TAP_COUNT));
    }
    if !(1..=8).contains(&bank.azimuths.len()) {
        wrong.push((5, ROWS));
    }
    wrong.into_iter().min().map_or(SOUND, |(at, refusal)| (refusal, at))
}

/// The bytes of a bank in a version, whatever it holds. Numbers that have no room lose their upper digits, and version 1 has no
/// room for elevations.
pub fn file_as(version: u8, bank: &Bank) -> Vec<u8> {
    let mut rows = Vec::new();
    for (i, (azimuth, elevation)) in bank.azimuths.iter().zip(&bank.elevations).enumerate() {
        rows.extend(azimuth.to_be_bytes());
        if version != 1 {
            rows.extend(elevation.to_be_bytes());
        }
        for tap in &bank.taps[2 * bank.length * i..2 * bank.length * (i + 1)] {
            rows.extend(tap.to_be_bytes());
        }
    }
    laid_out(version, 4 + rows.len() as u32, bank.azimuths.len() as u16, bank.length as u16, &rows)
}

/// A file of these fields, which need not agree.
pub fn laid_out(version: u8, following: u32, rows: u16, length: u16, behind: &[u8]) -> Vec<u8> {
    let mut file = vec![version];
    file.extend(following.to_be_bytes());
    file.extend(rows.to_be_bytes());
    file.extend(length.to_be_bytes());
    file.extend(behind);
    file
}

// ---- what `probe` fills a lent list with before the call: entry i is 1000 + i, byte i the last byte of 7 i + 3

pub fn filled_angle(i: usize) -> i16 {
    1000 + i as i16
}

pub fn filled_tap(i: usize) -> u32 {
    (1000.0 + i as f32).to_bits()
}

pub fn filled_bytes(count: usize) -> Vec<u8> {
    (0..count).map(|i| (7 * i + 3) as u8).collect()
}

/// The most bytes that `probe` lends, and the most azimuths or elevations: a number above that counts as that.
pub const MOST_BYTES: usize = 33000;
pub const MOST_ANGLES: usize = 16;

// ---- banks to try

/// A finite tap of any size and sign, or a kind that is easy to get wrong.
pub fn tap(random: &mut Random) -> u32 {
    let bits = random.bits() as u32;
    match random.below(16) {
        0 => bits & 0x8000_0000,
        1 => bits & 0x807f_ffff,
        2 => bits & 0x8000_0000 | 0x7f7f_ffff,
        _ if bits & 0x7f80_0000 == 0x7f80_0000 => bits & 0xbfff_ffff,
        _ => bits,
    }
}

fn taps(random: &mut Random, rows: usize, length: usize) -> Vec<u32> {
    (0..2 * rows * length).map(|_| tap(random)).collect()
}

/// A bank that either version holds: at elevation 0, and no azimuth twice.
pub fn level(random: &mut Random, rows: usize, length: usize) -> Bank {
    let mut azimuths = Vec::new();
    while azimuths.len() < rows {
        let azimuth = match random.below(8) {
            0 => 1800,
            1 => -1799,
            _ => random.below(3600) as i16 - 1799,
        };
        if !azimuths.contains(&azimuth) {
            azimuths.push(azimuth);
        }
    }
    Bank { azimuths, elevations: vec![0; rows], length, taps: taps(random, rows, length) }
}

/// A bank of version 2: no pair twice, but azimuths and elevations often, and some of them at the ends.
pub fn raised(random: &mut Random, rows: usize, length: usize) -> Bank {
    let mut pairs = Vec::new();
    while pairs.len() < rows {
        let azimuth = if random.below(2) == 0 { [0, 450, 1800, -1799][random.below(4) as usize] } else { random.below(3600) as i16 - 1799 };
        let elevation = if random.below(2) == 0 { [0, 100, 900, -900][random.below(4) as usize] } else { random.below(1801) as i16 - 900 };
        if !pairs.contains(&(azimuth, elevation)) {
            pairs.push((azimuth, elevation));
        }
    }
    let (azimuths, elevations) = pairs.into_iter().unzip();
    Bank { azimuths, elevations, length, taps: taps(random, rows, length) }
}

/// Rows 1 to 8 and L 1 to 512, more often small than large.
pub fn any_counts(random: &mut Random) -> (usize, usize) {
    (1 + random.below(8) as usize, 1 + (random.below(512) >> random.below(10)) as usize)
}

/// The file that document 01 prints, and the file of the same bank in version 2.
pub const EXAMPLE_1: [u8; 19] = [1, 0, 0, 0, 0x0e, 0, 1, 0, 1, 0, 0, 0x3f, 0x80, 0, 0, 0x3f, 0, 0, 0];
pub const EXAMPLE_2: [u8; 21] = [2, 0, 0, 0, 0x10, 0, 1, 0, 1, 0, 0, 0, 0, 0x3f, 0x80, 0, 0, 0x3f, 0, 0, 0];

/// Patterns that are no numbers.
pub const NOT_FINITE: [u32; 6] = [0x7f80_0000, 0xff80_0000, 0x7f80_0001, 0x7fc0_0000, 0xffff_ffff, 0xffbf_ffff];

/// Files with what is told of reading them, written down.
pub const TOLD: &[(&str, Fault)] = &[
    ("01 0000000e 0001 0001 0000 3f800000 3f000000", SOUND),
    ("02 00000010 0001 0001 0000 0000 3f800000 3f000000", SOUND),
    // The file ends before or inside a field of the head.
    ("", (19, 0)),
    ("01", (19, 1)),
    ("02", (19, 1)),
    ("01 0000", (19, 3)),
    ("02 0000", (19, 3)),
    ("01 00000000", (19, 5)),
    ("02 00000000", (19, 5)),
    ("01 00000001 00", (19, 6)),
    ("01 00000003 0001 00", (19, 8)),
    ("02 00000003 0001 00", (19, 8)),
    // The version.
    ("00", (13, 0)),
    ("03", (13, 0)),
    ("ff", (13, 0)),
    ("03 0000000e 0001 0001 0000 3f800000 3f000000", (13, 0)),
    ("00 00000010 0001 0001 0000 0000 3f800000 3f000000", (13, 0)),
    // The last byte is missing; and with the length put right. A byte more; and with the length put right.
    ("01 0000000e 0001 0001 0000 3f800000 3f0000", (14, 1)),
    ("01 0000000d 0001 0001 0000 3f800000 3f0000", (19, 18)),
    ("01 0000000e 0001 0001 0000 3f800000 3f000000 00", (14, 1)),
    ("01 0000000f 0001 0001 0000 3f800000 3f000000 00", (14, 1)),
    ("02 00000010 0001 0001 0000 0000 3f800000 3f0000", (14, 1)),
    ("02 0000000f 0001 0001 0000 0000 3f800000 3f0000", (19, 20)),
    ("02 00000010 0001 0001 0000 0000 3f800000 3f000000 00", (14, 1)),
    ("02 00000011 0001 0001 0000 0000 3f800000 3f000000 00", (14, 1)),
    // No rows; no taps, and 513 of them.
    ("01 00000004 0000 0001", (15, 5)),
    ("02 00000004 0000 0001", (15, 5)),
    ("01 00000004 0000 0000", (15, 5)),
    ("01 00000006 0001 0000 0000", (16, 7)),
    ("02 00000008 0001 0000 0000 0000", (16, 7)),
    ("01 00000006 0001 0201 0000", (16, 7)),
    ("02 00000008 0001 0201 0000 0000", (16, 7)),
    // The azimuths -1800 and 1801; 0 and 450 and again 0.
    ("01 0000000e 0001 0001 f8f8 3f800000 3f000000", (17, 9)),
    ("01 0000000e 0001 0001 0709 3f800000 3f000000", (17, 9)),
    ("02 00000010 0001 0001 f8f8 0000 3f800000 3f000000", (17, 9)),
    ("02 00000010 0001 0001 0709 0000 3f800000 3f000000", (17, 9)),
    ("01 00000022 0003 0001 0000 3f800000 3f000000 01c2 3f800000 3f000000 0000 3f800000 3f000000", (17, 29)),
    ("02 00000028 0003 0001 0000 0064 3f800000 3f000000 01c2 0064 3f800000 3f000000 0000 0064 3f800000 3f000000", (17, 35)),
    // The elevations -900 and 900, and the file that ends inside an azimuth, behind it, and inside an elevation.
    ("02 00000010 0001 0001 0000 fc7c 3f800000 3f000000", SOUND),
    ("02 00000010 0001 0001 0000 0384 3f800000 3f000000", SOUND),
    ("02 00000005 0001 0001 00", (19, 10)),
    ("02 00000006 0001 0001 0000", (19, 11)),
    ("02 00000007 0001 0001 0000 03", (19, 12)),
    ("02 00000006 0001 0001 f8f8", (17, 9)),
    ("02 00000008 0001 0001 0000 0385", (20, 11)),
    // The second row's right tap is infinite.
    ("01 00000018 0002 0001 0000 3f800000 3f000000 01c2 3f800000 7f800000", (18, 25)),
    ("02 0000001c 0002 0001 0000 0064 3f800000 3f000000 01c2 0064 3f800000 7f800000", (18, 29)),
    // Two rows and the bytes of one; and its right tap infinite.
    ("01 0000000e 0002 0001 0000 3f800000 3f000000", (19, 19)),
    ("01 0000000e 0002 0001 0000 3f800000 7f800000", (18, 15)),
    ("02 00000010 0002 0001 0000 0000 3f800000 3f000000", (19, 21)),
    // Two faults: a tap before the next row's azimuth, which is out of range or repeated; an azimuth before its own row's tap.
    ("01 00000018 0002 0001 0000 3f800000 7f800000 f8f8 3f800000 3f000000", (18, 15)),
    ("01 00000018 0002 0001 0000 7f800000 3f000000 0000 3f800000 3f000000", (18, 11)),
    ("01 00000018 0002 0001 f8f8 7f800000 3f000000 01c2 3f800000 3f000000", (17, 9)),
    ("01 00000018 0002 0001 0000 3f800000 3f000000 0000 7f800000 3f000000", (17, 19)),
    ("01 00000018 0002 0001 f8f8 3f800000 3f000000 01c2 3f800000 7f800000", (17, 9)),
    // An elevation before its own row's tap and before the next row's azimuth; a tap before the next row's elevation.
    ("02 0000001c 0002 0001 0000 0385 7f800000 3f000000 01c2 0064 3f800000 3f000000", (20, 11)),
    ("02 0000001c 0002 0001 0000 0385 3f800000 3f000000 f8f8 0064 3f800000 3f000000", (20, 11)),
    ("02 0000001c 0002 0001 0000 0064 3f800000 7f800000 01c2 0385 3f800000 3f000000", (18, 17)),
    ("02 0000001c 0002 0001 0000 0064 3f800000 3f000000 0000 0064 7f800000 3f000000", (17, 23)),
    // Twice a pair that is out of range itself: told where it stands first.
    ("02 0000001c 0002 0001 0000 0385 3f800000 3f000000 0000 0385 3f800000 3f000000", (20, 11)),
    // Both counts; the row count in a file that ends inside L; the length and the row count; all but the version; all.
    ("01 0000000e 0009 0201 0000 3f800000 3f000000", (15, 5)),
    ("01 00000003 0000 00", (15, 5)),
    ("01 0000000f 0000 0001 0000 3f800000 3f000000", (14, 1)),
    ("01 0000000f 0009 0201 f8f8 7f800000 ffc00000", (14, 1)),
    ("02 00000011 0009 0201 f8f8 0385 7f800000 ffc00000", (14, 1)),
    ("03 0000000f 0009 0201 f8f8 7f800000 ffc00000", (13, 0)),
    ("03 0000", (13, 0)),
];

/// A file, and what is written down of it: the azimuths and elevations that are read from it, the file that it turns into in
/// version 2 and that in version 1; or what is told instead.
pub struct Written {
    pub file: &'static str,
    pub read: Result<&'static [(i16, i16)], Fault>,
    pub forward: Result<&'static str, Fault>,
    pub back: Result<&'static str, Fault>,
}

const fn written(
    file: &'static str,
    read: Result<&'static [(i16, i16)], Fault>,
    forward: Result<&'static str, Fault>,
    back: Result<&'static str, Fault>,
) -> Written {
    Written { file, read, forward, back }
}

/// Files of both versions with everything that is told of them.
pub const WRITTEN: &[Written] = &[
    // The example in either version, and with another version in front.
    written("01 0000000e 0001 0001 0000 3f800000 3f000000", Ok(&[(0, 0)]), Ok("02 00000010 0001 0001 0000 0000 3f800000 3f000000"), Err((13, 0))),
    written("02 00000010 0001 0001 0000 0000 3f800000 3f000000", Ok(&[(0, 0)]), Err((13, 0)), Ok("01 0000000e 0001 0001 0000 3f800000 3f000000")),
    written("03 0000000e 0001 0001 0000 3f800000 3f000000", Err((13, 0)), Err((13, 0)), Err((13, 0))),
    written("03 00000010 0001 0001 0000 0000 3f800000 3f000000", Err((13, 0)), Err((13, 0)), Err((13, 0))),
    written("00 0000000e 0001 0001 0000 3f800000 3f000000", Err((13, 0)), Err((13, 0)), Err((13, 0))),
    written("", Err((19, 0)), Err((19, 0)), Err((19, 0))),
    written("01", Err((19, 1)), Err((19, 1)), Err((13, 0))),
    written("02", Err((19, 1)), Err((13, 0)), Err((19, 1))),
    // Elevations 901, -901; and with the azimuth -1800.
    written("02 00000010 0001 0001 0000 0385 3f800000 3f000000", Err((20, 11)), Err((13, 0)), Err((20, 11))),
    written("02 00000010 0001 0001 0000 fc7b 3f800000 3f000000", Err((20, 11)), Err((13, 0)), Err((20, 11))),
    written("02 00000010 0001 0001 f8f8 0385 3f800000 3f000000", Err((17, 9)), Err((13, 0)), Err((17, 9))),
    // (0, 0) and (0, 100); (0, 100) twice; (0, 0) twice; (0, 0) and (0, 901).
    written("02 0000001c 0002 0001 0000 0000 3f800000 3f000000 0000 0064 3f800000 3f000000", Ok(&[(0, 0), (0, 100)]), Err((13, 0)), Err((21, 23))),
    written("02 0000001c 0002 0001 0000 0064 3f800000 3f000000 0000 0064 3f800000 3f000000", Err((17, 23)), Err((13, 0)), Err((17, 23))),
    written("02 0000001c 0002 0001 0000 0000 3f800000 3f000000 0000 0000 3f800000 3f000000", Err((17, 23)), Err((13, 0)), Err((17, 23))),
    written("02 0000001c 0002 0001 0000 0000 3f800000 3f000000 0000 0385 3f800000 3f000000", Err((20, 23)), Err((13, 0)), Err((20, 23))),
    // An elevation above 0, and behind it a fault of each kind: the file is not sound.
    written("02 0000001c 0002 0001 0000 0064 3f800000 3f000000 f8f8 0000 3f800000 3f000000", Err((17, 21)), Err((13, 0)), Err((17, 21))),
    written("02 0000001c 0002 0001 0000 0064 3f800000 3f000000 0000 fc7b 3f800000 3f000000", Err((20, 23)), Err((13, 0)), Err((20, 23))),
    written("02 0000001c 0002 0001 0000 0064 3f800000 3f000000 0000 0000 3f800000 7f800000", Err((18, 29)), Err((13, 0)), Err((18, 29))),
    written("02 0000001b 0002 0001 0000 0064 3f800000 3f000000 0000 0000 3f800000 3f0000", Err((19, 32)), Err((13, 0)), Err((19, 32))),
    written("02 0000001d 0002 0001 0000 0064 3f800000 3f000000 0000 0000 3f800000 3f000000 00", Err((14, 1)), Err((13, 0)), Err((14, 1))),
    // Two elevations that are not 0, and whose sum is: the first is told.
    written("02 0000001c 0002 0001 0000 0064 3f800000 3f000000 0000 ff9c 3f800000 3f000000", Ok(&[(0, 100), (0, -100)]), Err((13, 0)), Err((21, 11))),
    // Version 1, azimuths 0 and 0.
    written("01 00000018 0002 0001 0000 3f800000 3f000000 0000 3f800000 3f000000", Err((17, 19)), Err((17, 19)), Err((13, 0))),
    // The file ends behind the second row's azimuth, which is 0, and 1801.
    written("02 00000012 0002 0001 0000 0000 3f800000 3f000000 0000", Err((19, 23)), Err((13, 0)), Err((19, 23))),
    written("02 00000012 0002 0001 0000 0000 3f800000 3f000000 0709", Err((17, 21)), Err((13, 0)), Err((17, 21))),
    // Straight up, at two azimuths: two pairs.
    written("02 0000001c 0002 0001 0000 0384 3f800000 3f000000 01c2 0384 3f800000 3f000000", Ok(&[(0, 900), (450, 900)]), Err((13, 0)), Err((21, 11))),
    // The bytes of version 1 with 02 in front, and those of version 2 with 01.
    written("02 0000000e 0001 0001 0000 3f800000 3f000000", Err((20, 11)), Err((13, 0)), Err((20, 11))),
    written("01 00000010 0001 0001 0000 0000 3f800000 3f000000", Err((14, 1)), Err((14, 1)), Err((13, 0))),
    written("02 00000010 0001 0001 0000 0064 3f800000 3f000000", Ok(&[(0, 100)]), Err((13, 0)), Err((21, 11))),
    // Three rows at 0, 450 and -1799, there and back.
    written(
        "01 00000022 0003 0001 0000 3f800000 3f000000 01c2 3e800000 bf800000 f8f9 80000000 00000001",
        Ok(&[(0, 0), (450, 0), (-1799, 0)]),
        Ok("02 00000028 0003 0001 0000 0000 3f800000 3f000000 01c2 0000 3e800000 bf800000 f8f9 0000 80000000 00000001"),
        Err((13, 0)),
    ),
    written(
        "02 00000028 0003 0001 0000 0000 3f800000 3f000000 01c2 0000 3e800000 bf800000 f8f9 0000 80000000 00000001",
        Ok(&[(0, 0), (450, 0), (-1799, 0)]),
        Err((13, 0)),
        Ok("01 00000022 0003 0001 0000 3f800000 3f000000 01c2 3e800000 bf800000 f8f9 80000000 00000001"),
    ),
];

pub fn bytes_of(hex: &str) -> Vec<u8> {
    let digits: Vec<u8> = hex.bytes().filter(|c| *c != b' ').collect();
    digits.chunks(2).map(|pair| u8::from_str_radix(std::str::from_utf8(pair).unwrap(), 16).unwrap()).collect()
}

/// Files that are longer than any bank: what is told is that of all their bytes.
pub fn longer_than_any(version: u8) -> [(Vec<u8>, Fault); 3] {
    let zeros = [0; 39991];
    let largest = size_as(version, 8, 512) as u32 - 4;
    [(laid_out(version, 39995, 9, 1, &zeros), (15, 5)), (laid_out(version, 39995, 1, 1, &zeros), (14, 1)), (laid_out(version, largest, 9, 1, &zeros), (14, 1))]
}

/// Two rows, L = 1: at 0 and 450 in version 1, and in version 2 above and below 0.
pub fn small_bank(version: u8) -> Bank {
    let (azimuths, elevations) = if version == 1 { (vec![0, 450], vec![0, 0]) } else { (vec![0, 0], vec![100, -100]) };
    Bank { azimuths, elevations, length: 1, taps: vec![0x3f80_0000, 0x3f00_0000, 0x3e80_0000, 0xbf80_0000] }
}

/// A way to break a field: its place, its refusal, and its bytes then.
pub type Break = (usize, u8, &'static [u8]);

/// Every way in which we break one field of that bank of version 1.
const BROKEN_1: &[Break] = &[
    (0, VERSION, &[0]),
    (1, FOLLOWING, &[0xff, 0, 0, 0]),
    (5, ROWS, &[0, 0]),
    (5, ROWS, &[0, 9]),
    (7, TAP_COUNT, &[0, 0]),
    (7, TAP_COUNT, &[2, 1]),
    (9, AZIMUTH, &[0xf8, 0xf8]),
    (11, TAP, &[0x7f, 0x80, 0, 0]),
    (15, TAP, &[0xff, 0x80, 0, 0]),
    (19, AZIMUTH, &[7, 9]),
    (19, AZIMUTH, &[0, 0]),
    (21, TAP, &[0x7f, 0xc0, 0, 0]),
    (25, TAP, &[0xff, 0xff, 0xff, 0xff]),
];

/// The same of version 2: the elevations 901 and -901, and at 23 also the pair of the first row.
const BROKEN_2: &[Break] = &[
    (0, VERSION, &[0]),
    (0, VERSION, &[3]),
    (1, FOLLOWING, &[0xff, 0, 0, 0]),
    (5, ROWS, &[0, 0]),
    (5, ROWS, &[0, 9]),
    (7, TAP_COUNT, &[0, 0]),
    (7, TAP_COUNT, &[2, 1]),
    (9, AZIMUTH, &[0xf8, 0xf8]),
    (11, ELEVATION, &[3, 0x85]),
    (13, TAP, &[0x7f, 0x80, 0, 0]),
    (17, TAP, &[0xff, 0x80, 0, 0]),
    (21, AZIMUTH, &[7, 9]),
    (23, ELEVATION, &[0xfc, 0x7b]),
    (23, AZIMUTH, &[0, 100]),
    (25, TAP, &[0x7f, 0xc0, 0, 0]),
    (29, TAP, &[0xff, 0xff, 0xff, 0xff]),
];

pub fn breaks(version: u8) -> &'static [Break] {
    if version == 1 { BROKEN_1 } else { BROKEN_2 }
}

/// That bank's file cut or grown to a size, with the length of what is then behind it, and after that with fields broken.
pub fn broken_file(version: u8, size: usize, fields: &[Break]) -> Vec<u8> {
    let mut file = file_as(version, &small_bank(version));
    file.resize(size, 0);
    let mut put = |at: usize, bytes: &[u8]| file.iter_mut().skip(at).zip(bytes).for_each(|(to, from)| *to = *from);
    put(1, &(size.saturating_sub(5) as u32).to_be_bytes());
    fields.iter().for_each(|(at, _, bytes)| put(*at, bytes));
    file
}

/// Every pair of broken fields: the one that stands first is told.
pub fn pairs_of_faults(version: u8) -> Vec<(Vec<u8>, Fault)> {
    let broken = breaks(version);
    let whole = size_as(version, 2, 1);
    let mut all = Vec::new();
    for (i, first) in broken.iter().enumerate() {
        for second in broken[i + 1..].iter().filter(|second| second.0 != first.0) {
            all.push((broken_file(version, whole, &[*first, *second]), (first.1, first.0)));
        }
    }
    all
}

/// Each broken field, or none, in a file that is cut at any place, or has a byte more. A field that is whole is told, else the
/// end of the file, and bytes behind the last row where nothing else is. Unless `every`, a file is cut at the field's own end
/// alone.
pub fn faults_in_cut_files(version: u8, every: bool) -> Vec<(Vec<u8>, Fault)> {
    let whole = size_as(version, 2, 1);
    let mut all = Vec::new();
    for size in (0..whole).chain([whole + 1]) {
        let ending = if size < whole { (ENDS, size) } else { (FOLLOWING, 1) };
        all.push((broken_file(version, size, &[]), ending));
        for field in breaks(version) {
            let end = field.0 + field.2.len();
            if every || [end - 1, end, whole + 1].contains(&size) {
                all.push((broken_file(version, size, &[*field]), if end <= size { (field.1, field.0) } else { ending }));
            }
        }
    }
    all
}

/// Every truncation of a file, a byte more, and every byte of it changed in as many ways as are asked for.
pub fn damages(file: &[u8], ways: &mut dyn FnMut() -> Vec<u8>) -> Vec<Vec<u8>> {
    let mut all: Vec<Vec<u8>> = (0..file.len()).map(|n| file[..n].to_vec()).collect();
    all.extend([0, 1, 0xff].map(|b| [file, &[b]].concat()));
    for i in 0..file.len() {
        for off in ways() {
            let mut damaged = file.to_vec();
            damaged[i] ^= off;
            all.push(damaged);
        }
    }
    all
}

#[cfg(test)]
mod tests {
    use super::*;

    #[test]
    fn the_examples_are_the_documents() {
        let bank = Bank { azimuths: vec![0], elevations: vec![0], length: 1, taps: vec![0x3f80_0000, 0x3f00_0000] };
        assert_eq!((bank_of(&EXAMPLE_1, &BOTH), bank_of(&EXAMPLE_2, &BOTH)), (Ok(bank.clone()), Ok(bank.clone())));
        assert_eq!((file_as(1, &bank), file_as(2, &bank)), (EXAMPLE_1.to_vec(), EXAMPLE_2.to_vec()));
        assert_eq!((bank_of(&EXAMPLE_1, &[2]), bank_of(&EXAMPLE_2, &[1])), (Err((13, 0)), Err((13, 0))));
    }

    #[test]
    fn what_is_written_down_is_told() {
        for (hex, told) in TOLD {
            assert_eq!(file_fault(&bytes_of(hex)), *told, "{hex}");
        }
        for line in WRITTEN {
            let read = bank_of(&bytes_of(line.file), &BOTH).map(|bank| bank.azimuths.into_iter().zip(bank.elevations).collect());
            assert_eq!(read, line.read.map(<[(i16, i16)]>::to_vec), "{}", line.file);
        }
        for (file, told) in [1, 2].into_iter().flat_map(longer_than_any) {
            assert_eq!((file.len(), file_fault(&file)), (40000, told));
        }
    }

    #[test]
    fn of_two_faults_the_first_is_told() {
        for (file, told) in [1, 2].into_iter().flat_map(|v| [pairs_of_faults(v), faults_in_cut_files(v, true)]).flatten() {
            assert_eq!(file_fault(&file), told, "{file:x?}");
        }
        // Thirteen ways to break ten fields, of which three have two ways; sixteen to break twelve, of which four have two.
        assert_eq!([1, 2].map(|v| pairs_of_faults(v).len()), [13 * 12 / 2 - 3, 16 * 15 / 2 - 4]);
        // Thirty sizes, and thirty-four, each with none or one of them.
        assert_eq!([1, 2].map(|v| faults_in_cut_files(v, true).len()), [30 * 14, 34 * 17]);
    }

    #[test]
    fn a_bank_comes_back_from_its_file() {
        let mut random = Random::new(1, "a bank comes back");
        for _ in 0..100 {
            let (rows, length) = any_counts(&mut random);
            let level = level(&mut random, rows, length);
            for version in [1, 2] {
                let file = file_as(version, &level);
                assert_eq!((file.len(), bank_of(&file, &BOTH)), (size_as(version, rows, length), Ok(level.clone())));
            }
            let raised = raised(&mut random, rows, length);
            assert_eq!(bank_of(&file_as(2, &raised), &BOTH), Ok(raised));
        }
    }

    #[test]
    fn the_largest_file_is_of_version_2() {
        assert_eq!((size_as(1, 8, 512), size_as(2, 8, 512)), (32793, 32809));
    }
}
