//! A program of the oracle's own for the bank's operations, which lists all fields of a file first, and forms what it answers by
//! their places: right as it is, and wrong in one way after another. The judges of filing.rs and turning.rs are tried with it.
use crate::bank::{
    AZIMUTH, AZIMUTHS, BOTH, Bank, ELEVATION, ELEVATIONS, ENDS, FOLLOWING, Fault, LENGTH, MOST_ANGLES, MOST_BYTES, RAISED, ROWS, SOUND, TAP, TAP_COUNT, TAPS,
    VERSION, file_as, filled_angle, filled_bytes, filled_tap, is_azimuth, is_tap, laid_out,
};
use crate::filing::{READ, WRITE};
use crate::frame::{Answer, Sink};
use crate::random::Random;
use crate::turning::TO_VERSION_2;

/// Wrong ways that both reading and writing show.
pub const WRONG: [&str; 21] = [
    "9 as before",
    "no place",
    "the place behind the field",
    "17 at the first row",
    "a repeat at the row that has it first",
    "a repeat after the row's taps",
    "L before the row count",
    "taps before their azimuth",
    "azimuths before all taps",
    "right taps placed as left ones",
    "901 is taken",
    "-901 is taken",
    "elevations as far as azimuths",
    "elevations without a sign",
    "17 for an elevation",
    "20 at the azimuth",
    "20 before the azimuth",
    "20 after the row's taps",
    "a pair told at the azimuth",
    "pairs compared by azimuth",
    "pairs compared with the row before alone",
];

/// Those that reading alone can show, since a writer makes the version, the length and the end itself.
pub const READ_WRONG: [&str; 21] = [
    "5 last",
    "a place with 5",
    "the version last",
    "the length last",
    "a cut file is 19",
    "19 where the field begins",
    "19 where the field would end",
    "bytes left are not seen",
    "bytes left are 19",
    "bytes left are told behind the last row",
    "version 1 alone",
    "version 2 alone",
    "version 3 is taken",
    "version 0 is taken",
    "a repeat of version 1 behind the azimuth",
    "repeats of version 1 are taken",
    "elevations of version 1 stay",
    "elevations beyond the rows are 0",
    "elevations are not counted",
    "azimuths and elevations change places",
    "the largest file as in version 1",
];

pub const WRITE_WRONG: [&str; 10] = [
    "5 last",
    "bytes on refusal",
    "a buffer filled on refusal",
    "16 with no rows and L above 512",
    "version 1 is written",
    "the version is 1",
    "the length is that of version 1",
    "no elevation is written",
    "elevations before azimuths",
    "elevations are not counted",
];

/// Those that either conversion shows.
pub const TURN_WRONG: [&str; 23] = [
    "9 as before",
    "no place",
    "the version last",
    "the length last",
    "an empty file is 13",
    "either version is taken",
    "5 first",
    "5 before all but the version",
    "a place with 5",
    "a longer output is taken",
    "a shorter output is 0",
    "the old length is asked for",
    "bytes on refusal",
    "bytes of the old file",
    "an output filled on refusal",
    "the version stays",
    "the length stays",
    "the first row alone",
    "elevations before azimuths",
    "elevations behind the taps",
    "-0.0 loses its sign",
    "subnormals are 0",
    "bytes left are not seen",
];

/// Those that the backward one alone can show.
pub const TURN_WRONG_BACK: [&str; 11] = [
    "elevations are dropped",
    "elevations that cancel are taken",
    "elevations below 0 are taken",
    "an elevation by its last byte",
    "the last elevation is not looked at",
    "21 at 0",
    "21 at the row",
    "21 at the last of them",
    "21 before the rest",
    "5 before 21",
    "20 for 21",
];

/// A field that has to be there: its place and its bytes, its refusal, and whether it is wrong once it is read.
#[derive(Clone, Copy)]
struct Field {
    at: usize,
    count: usize,
    refusal: u8,
    is_wrong: bool,
}

pub struct Program(&'static str);

impl Program {
    fn is(&self, way: &str) -> bool {
        self.0 == way
    }

    /// Where row i begins, the bytes of its angles being as many as twice the version.
    fn row_at(file: &[u8], i: usize) -> usize {
        let (version, length) = (number(file, 0, 1), number(file, 7, 2));
        9 + i * (if version == 1 { 2 } else { 4 } + 8 * length as usize)
    }

    /// The fields of a row, in the order in which they are looked at.
    fn row(&self, file: &[u8], i: usize, length: usize) -> Vec<Field> {
        let is_first = number(file, 0, 1) == 1;
        let at = Self::row_at(file, i);
        let azimuth = |i: usize| number(file, Self::row_at(file, i), 2) as u16 as i16;
        let elevation = |i: usize| if is_first { 0 } else { number(file, Self::row_at(file, i) + 2, 2) as u16 as i16 };
        let same = |j: &usize| azimuth(*j) == azimuth(i) && (elevation(*j) == elevation(i) || self.is("pairs compared by azimuth"));
        let earlier = match self.0 {
            "pairs compared with the row before alone" => (0..i).filter(|j| j + 1 == i).find(same),
            "repeats of version 1 are taken" if is_first => None,
            _ => (0..i).find(same),
        };
        let own = Field { at, count: 2, refusal: AZIMUTH, is_wrong: !is_azimuth(azimuth(i)) };
        let range = match self.0 {
            "901 is taken" => -900..=901,
            "-901 is taken" => -901..=900,
            "elevations as far as azimuths" => -1799..=1800,
            "elevations without a sign" => 0..=900,
            _ => -900..=900,
        };
        let (place, count) = if self.is("20 at the azimuth") { (at, 4) } else { (at + 2, 2) };
        let refusal = if self.is("17 for an elevation") { AZIMUTH } else { ELEVATION };
        let height = Field { at: place, count, refusal, is_wrong: !range.contains(&elevation(i)) };
        let angles = if is_first { 2 } else { 4 };
        let place = match (self.0, earlier) {
            ("a repeat at the row that has it first", Some(j)) => Self::row_at(file, j) + angles - 2,
            ("a pair told at the azimuth", _) => at,
            ("a repeat of version 1 behind the azimuth", _) => at + 2,
            _ => at + angles - 2,
        };
        let repeated = Field { at: place, count: if place + 2 == at + angles { 2 } else { 0 }, refusal: AZIMUTH, is_wrong: earlier.is_some() };
        let tap = |k: usize| {
            let at = at + angles + 4 * k;
            Field { at, count: 4, refusal: TAP, is_wrong: !is_tap(number(file, at, 4)) }
        };
        let taps: Vec<Field> = (0..2 * length).map(tap).collect();
        let height = if is_first { vec![] } else { vec![height] };
        match self.0 {
            "taps before their azimuth" => [taps, vec![own], height, vec![repeated]].concat(),
            "a repeat after the row's taps" => [vec![own], height, taps, vec![repeated]].concat(),
            "20 before the azimuth" => [height, vec![own, repeated], taps].concat(),
            "20 after the row's taps" => [vec![own, repeated], taps, height].concat(),
            _ => [vec![own], height, vec![repeated], taps].concat(),
        }
    }

    /// All fields, in the order in which they are looked at; the counts are believed only where they are in range.
    fn fields(&self, file: &[u8], versions: &[u32]) -> Vec<Field> {
        let (rows, length) = (number(file, 5, 2) as usize, number(file, 7, 2) as usize);
        let version = Field { at: 0, count: 1, refusal: VERSION, is_wrong: !versions.contains(&number(file, 0, 1)) };
        let following = Field { at: 1, count: 4, refusal: FOLLOWING, is_wrong: number(file, 1, 4) as usize != file.len().saturating_sub(5) };
        let mut all = vec![version, following];
        all.push(Field { at: 5, count: 2, refusal: ROWS, is_wrong: !(1..=8).contains(&rows) });
        all.push(Field { at: 7, count: 2, refusal: TAP_COUNT, is_wrong: !(1..=512).contains(&length) });
        if self.is("L before the row count") {
            all.swap(2, 3);
        }
        if all[2..].iter().all(|count| !count.is_wrong) {
            let mut behind: Vec<Field> = (0..rows).flat_map(|i| self.row(file, i, length)).collect();
            if self.is("azimuths before all taps") {
                behind.sort_by_key(|field| field.refusal == TAP);
            }
            all.extend(behind);
            let end = Self::row_at(file, rows);
            let (at, refusal) = match self.0 {
                "bytes left are told behind the last row" => (end, FOLLOWING),
                "bytes left are 19" => (file.len(), ENDS),
                _ => (1, FOLLOWING),
            };
            all.push(Field { at, count: 0, refusal, is_wrong: end < file.len() && !self.is("bytes left are not seen") });
        }
        match self.0 {
            "the version last" => all.rotate_left(1),
            "the length last" => all[1..].rotate_left(1),
            _ => (),
        }
        all
    }

    fn told(&self, file: &[u8], versions: &[u32]) -> Fault {
        let size = file.len();
        if self.is("a cut file is 19") && size >= 5 && number(file, 1, 4) as usize > size - 5 && versions.contains(&number(file, 0, 1)) {
            return (ENDS, size);
        }
        if self.is("the largest file as in version 1") && size > 32793 {
            return (FOLLOWING, 1);
        }
        let Some(field) = self.fields(file, versions).into_iter().find(|field| size < field.at + field.count || field.is_wrong) else {
            return SOUND;
        };
        let Field { at, count, refusal, .. } = field;
        let per_ear = 4 * number(file, 7, 2) as usize;
        let angles = if number(file, 0, 1) == 1 { 2 } else { 4 };
        match self.0 {
            "9 as before" => (9, 0),
            "19 where the field begins" if size < at + count => (ENDS, at),
            "19 where the field would end" if size < at + count => (ENDS, at + count),
            _ if size < at + count => (ENDS, size),
            "no place" => (refusal, 0),
            "the place behind the field" => (refusal, at + count),
            "17 at the first row" if refusal == AZIMUTH => (refusal, 9),
            "right taps placed as left ones" if refusal == TAP && (at - 9) % (angles + 2 * per_ear) >= angles + per_ear => (refusal, at - per_ear),
            _ => (refusal, at),
        }
    }

    /// What stands in a file, by the places of its fields.
    fn bank(&self, file: &[u8]) -> Bank {
        let (rows, length) = (number(file, 5, 2) as usize, number(file, 7, 2) as usize);
        let angle = |i: usize, at: usize| number(file, Self::row_at(file, i) + at, 2) as u16 as i16;
        let angles = if number(file, 0, 1) == 1 { 2 } else { 4 };
        let azimuths = (0..rows).map(|i| angle(i, 0)).collect();
        let elevations = (0..rows).map(|i| if angles == 2 { 0 } else { angle(i, 2) }).collect();
        let taps = (0..rows).flat_map(|i| (0..2 * length).map(move |k| number(file, Self::row_at(file, i) + angles + 4 * k, 4))).collect();
        Bank { azimuths, elevations, length, taps }
    }

    fn read(&self, arguments: &[u8]) -> Vec<u8> {
        let [azimuths, elevations] = [0, 1].map(|at| (number(arguments, at, 1) as usize).min(MOST_ANGLES));
        let taps = number(arguments, 2, 2) as usize;
        let shown = taps.min(number(arguments, 4, 2) as usize);
        let file = &arguments[6..];
        let versions: &[u32] = match self.0 {
            "version 1 alone" => &[1],
            "version 2 alone" => &[2],
            "version 3 is taken" => &[1, 2, 3],
            "version 0 is taken" => &[0, 1, 2],
            _ => &BOTH,
        };
        let told = self.told(file, versions);
        let counted = elevations == ELEVATIONS || self.is("elevations are not counted");
        let fits = azimuths == AZIMUTHS && counted && taps == TAPS || self.is("5 last") && told != SOUND;
        let (refusal, offset) = match self.0 {
            _ if fits => told,
            "a place with 5" => (LENGTH, told.1),
            _ => (LENGTH, 0),
        };
        let mut bank = if refusal == 0 { self.bank(file) } else { Bank::default() };
        let rows = bank.azimuths.len();
        match self.0 {
            "elevations of version 1 stay" if refusal == 0 && file[0] == 1 => bank.elevations.clear(),
            "elevations beyond the rows are 0" if refusal == 0 => bank.elevations.resize(elevations, 0),
            "azimuths and elevations change places" => std::mem::swap(&mut bank.azimuths, &mut bank.elevations),
            _ => (),
        }
        let mut answer = vec![refusal];
        answer.extend([offset, rows, bank.length].iter().flat_map(|n| (*n as u32).to_be_bytes()));
        let changed = (shown..bank.taps.len()).filter(|i| bank.taps[*i] != filled_tap(*i)).count();
        answer.extend((changed as u16).to_be_bytes());
        answer.extend((0..azimuths).flat_map(|i| bank.azimuths.get(i).copied().unwrap_or(filled_angle(i)).to_be_bytes()));
        answer.extend((0..elevations).flat_map(|i| bank.elevations.get(i).copied().unwrap_or(filled_angle(i)).to_be_bytes()));
        answer.extend((0..shown).flat_map(|i| bank.taps.get(i).copied().unwrap_or(filled_tap(i)).to_be_bytes()));
        answer
    }

    fn write(&self, arguments: &[u8]) -> Vec<u8> {
        let [rows, height] = [0, 1].map(|at| (number(arguments, at, 1) as usize).min(MOST_ANGLES));
        let [taps, bytes] = [2, 4].map(|at| number(arguments, at, 2) as usize);
        let length = u64::from_be_bytes(arguments[6..14].try_into().unwrap());
        let angle = |i: usize| number(arguments, 14 + 2 * i, 2) as u16 as i16;
        let azimuths = (0..rows).map(angle).collect();
        let mut elevations: Vec<i16> = (rows..rows + height).map(angle).collect();
        elevations.resize(rows, 0);
        let bits = (0..taps).map(|k| number(arguments, 14 + 2 * (rows + height) + 4 * k, 4)).collect();
        let bank = Bank { azimuths, elevations, length: length as usize, taps: bits };
        let counted = rows == height || self.is("elevations are not counted");
        let agree = counted && (rows as u128 * 2).checked_mul(u128::from(length)) == Some(taps as u128);
        // What has no room in its field cannot be laid out, and then there are no rows.
        let file = (agree && length <= 0xffff).then(|| file_as(2, &bank));
        let told = match &file {
            Some(_) if self.is("16 with no rows and L above 512") && rows == 0 && length > 512 => (TAP_COUNT, 7),
            Some(file) => self.told(file, &[2]),
            None => self.told(&laid_out(2, 4, 0, 0xffff, &[]), &[2]),
        };
        let angles = if self.is("version 1 is written") { 2 } else { 4 };
        let fits = agree && bytes == 9 + rows * (angles + 4 * taps / rows.max(1));
        let (refusal, offset) = if fits || self.is("5 last") && agree && told != SOUND { told } else { (LENGTH, 0) };
        let is_filled = refusal == 0 || self.is("a buffer filled on refusal") && fits;
        let written = if refusal == 0 || self.is("bytes on refusal") { bytes } else { 0 };
        let mut answer = vec![refusal];
        answer.extend([offset, written].iter().flat_map(|n| (*n as u32).to_be_bytes()));
        let file = file.map(|file| match self.0 {
            "version 1 is written" => file_as(1, &bank),
            "the version is 1" => [&[1], &file[1..]].concat(),
            "the length is that of version 1" => [&[2], &file_as(1, &bank)[1..5], &file[5..]].concat(),
            "no elevation is written" => file_as(2, &Bank { elevations: vec![0; rows], ..bank }),
            "elevations before azimuths" => file_as(2, &Bank { azimuths: bank.elevations, elevations: bank.azimuths, ..bank }),
            _ => file,
        });
        answer.extend(file.filter(|_| is_filled).unwrap_or(filled_bytes(bytes)));
        answer
    }

    /// The place of the elevation that is told, if there is one that is not 0.
    fn raised(&self, file: &[u8], bank: &Bank) -> Option<usize> {
        let is_raised = |e: i16| match self.0 {
            "elevations below 0 are taken" => e > 0,
            "an elevation by its last byte" => e as u8 != 0,
            _ => e != 0,
        };
        let looked_at = bank.elevations.len() - usize::from(self.is("the last elevation is not looked at"));
        let raised: Vec<usize> = (0..looked_at).filter(|i| is_raised(bank.elevations[*i])).collect();
        let at = |i: usize| Self::row_at(file, i) + 2;
        match self.0 {
            "elevations are dropped" => None,
            "elevations that cancel are taken" if bank.elevations.iter().map(|e| i32::from(*e)).sum::<i32>() == 0 => None,
            "21 at 0" => raised.first().map(|_| 0),
            "21 at the row" => raised.first().map(|i| at(*i) - 2),
            "21 at the last of them" => raised.last().map(|i| at(*i)),
            _ => raised.first().map(|i| at(*i)),
        }
    }

    /// The file of a bank in the other version.
    fn other(&self, to: u8, bank: &Bank, file: &[u8]) -> Vec<u8> {
        let mut bank = bank.clone();
        for tap in &mut bank.taps {
            match self.0 {
                "-0.0 loses its sign" if *tap == 0x8000_0000 => *tap = 0,
                "subnormals are 0" if *tap & 0x7f80_0000 == 0 => *tap &= 0x8000_0000,
                _ => (),
            }
        }
        let mut new = file_as(to, &bank);
        match self.0 {
            "the version stays" => new[0] = file[0],
            "the length stays" => new[1..5].copy_from_slice(&file[1..5]),
            // Behind the first row the bytes are as they were.
            "the first row alone" => {
                let end = 9 + 2 * usize::from(to) + 8 * bank.length;
                let rest: Vec<u8> = file[Self::row_at(file, 1)..].iter().copied().chain([0; 16]).collect();
                new.iter_mut().skip(end).zip(rest).for_each(|(to, from)| *to = from);
            }
            "elevations before azimuths" | "elevations behind the taps" => {
                // Two bytes of each row, put in or taken out at another place.
                let (is_before, length) = (self.is("elevations before azimuths"), bank.length);
                let mut rows = Vec::new();
                for i in 0..bank.azimuths.len() {
                    let row = &file[Self::row_at(file, i)..Self::row_at(file, i + 1)];
                    match (to, is_before) {
                        (2, true) => rows.extend([&[0, 0], row].concat()),
                        (2, false) => rows.extend([row, &[0, 0]].concat()),
                        (_, true) => rows.extend(&row[2..]),
                        (_, false) => rows.extend(&row[..2 + 8 * length]),
                    }
                }
                new.truncate(9);
                new.extend(rows);
            }
            _ => (),
        }
        new
    }

    fn turn(&self, operation: u8, arguments: &[u8]) -> Vec<u8> {
        let room = (number(arguments, 0, 2) as usize).min(MOST_BYTES);
        let file = &arguments[2..];
        let (from, to) = if operation == TO_VERSION_2 { (1u8, 2u8) } else { (2, 1) };
        let versions = if self.is("either version is taken") { BOTH.to_vec() } else { vec![u32::from(from)] };
        let rows = number(file, 5, 2).min(8) as usize;
        let new_size = if to == 2 { file.len() + 2 * rows } else { file.len().saturating_sub(2 * rows) };
        let asked = if self.is("the old length is asked for") { file.len() } else { new_size };
        let fits = match self.0 {
            "a longer output is taken" => room >= asked,
            _ => room == asked,
        };
        let told = if self.is("an empty file is 13") && file.is_empty() { (VERSION, 0) } else { self.told(file, &versions) };
        let believed = told == SOUND || self.is("21 before the rest") && (1..=8).contains(&number(file, 5, 2)) && told.0 != VERSION && file.len() > 20;
        let bank = if believed { self.bank(file) } else { Bank::default() };
        let raised = if to == 1 && believed { self.raised(file, &bank) } else { None };
        let refusal_21 = if self.is("20 for 21") { ELEVATION } else { RAISED };
        let order = [(told != SOUND).then_some(told), raised.map(|at| (refusal_21, at)), (!fits).then_some((LENGTH, 0))];
        let in_order = |places: [usize; 3]| places.iter().find_map(|i| order[*i]).unwrap_or(SOUND);
        let (refusal, offset) = match self.0 {
            "5 first" => in_order([2, 0, 1]),
            "5 before all but the version" if told.0 != VERSION => in_order([2, 0, 1]),
            "5 before 21" => in_order([0, 2, 1]),
            "21 before the rest" => in_order([1, 0, 2]),
            "a place with 5" if in_order([0, 1, 2]).0 == LENGTH => (LENGTH, file.len()),
            "a shorter output is 0" if in_order([0, 1, 2]).0 == LENGTH && room < asked => SOUND,
            _ => in_order([0, 1, 2]),
        };
        let new = (told == SOUND).then(|| self.other(to, &bank, file));
        let mut out = filled_bytes(room);
        if let Some(new) = new.filter(|_| refusal == 0 || self.is("an output filled on refusal")) {
            out.iter_mut().zip(new).for_each(|(to, from)| *to = from);
        }
        let bytes = match self.0 {
            "bytes on refusal" => new_size,
            "bytes of the old file" if refusal == 0 => file.len(),
            _ if refusal == 0 => new_size,
            _ => 0,
        };
        let mut answer = vec![refusal];
        answer.extend([offset, bytes].iter().flat_map(|n| (*n as u32).to_be_bytes()));
        answer.extend(out);
        answer
    }
}

/// A number of so many bytes, as if zeros were behind the list.
fn number(bytes: &[u8], at: usize, count: usize) -> u32 {
    (at..at + count).fold(0, |n, i| n << 8 | u32::from(bytes.get(i).copied().unwrap_or(0)))
}

/// How many of the recorded sample's requests of a kind show that a program is wrong.
pub fn shown(way: &'static str, name: &str, make: fn(&mut Random, usize, &mut Sink)) -> usize {
    let mut wrong = 0;
    make(&mut Random::new(1, name), 400, &mut |case| {
        let (operation, arguments) = (case.request[0], &case.request[5..]);
        let program = Program(way);
        let bytes = match operation {
            READ => program.read(arguments),
            WRITE => program.write(arguments),
            _ => program.turn(operation, arguments),
        };
        wrong += usize::from((case.judge)(&Answer { operation, bytes }).wrong.is_some());
    });
    wrong
}
