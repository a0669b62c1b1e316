//! Reading and writing the filter bank file, against the reader and the writer of bank.rs, byte for byte. What the writer tells
//! is held to what the reader tells of the file.
use crate::bank::{
    AZIMUTHS, BOTH, Bank, ELEVATIONS, EXAMPLE_1, EXAMPLE_2, Fault, LENGTH, MOST_ANGLES, NOT_FINITE, SOUND, TAPS, TOLD, WRITTEN, any_counts, bank_fault,
    bank_of, breaks, bytes_of, damages, faults_in_cut_files, file_as, file_fault, filled_angle, filled_bytes, filled_tap, laid_out, level, longer_than_any,
    pairs_of_faults, raised, size_as, small_bank, tap,
};
use crate::frame::{Case, Sink, exactly, hex, request, send};
use crate::random::Random;

pub const READ: u8 = 6;
pub const WRITE: u8 = 7;

/// Reads a file into lists of so many azimuths, elevations and taps, of which the first `shown` taps are handed back.
fn read(file: &[u8], azimuths: usize, elevations: usize, taps: usize, shown: usize) -> Case {
    let mut arguments = vec![azimuths as u8, elevations as u8];
    arguments.extend((taps as u16).to_be_bytes());
    arguments.extend((shown as u16).to_be_bytes());
    arguments.extend(file);
    let (azimuths, elevations, shown) = (azimuths.min(MOST_ANGLES), elevations.min(MOST_ANGLES), shown.min(taps));
    let fits = azimuths == AZIMUTHS && elevations == ELEVATIONS && taps == TAPS;
    let bank = if fits { bank_of(file, &BOTH) } else { Err((LENGTH, 0)) };
    let (refusal, offset) = bank.as_ref().err().copied().unwrap_or(SOUND);
    let bank = bank.unwrap_or_default();
    let rows = bank.azimuths.len();
    // What is read, and behind it what the lists were filled with.
    let after = |read: &[i16], lent: usize| -> Vec<i16> { read.iter().copied().chain((rows..lent).map(filled_angle)).collect() };
    let shown_taps = (0..shown).map(|i| bank.taps.get(i).copied().unwrap_or(filled_tap(i)));
    let changed = (shown..bank.taps.len()).filter(|i| bank.taps[*i] != filled_tap(*i)).count();
    let mut answer = vec![refusal];
    answer.extend([offset, rows, bank.length].iter().flat_map(|n| (*n as u32).to_be_bytes()));
    answer.extend((changed as u16).to_be_bytes());
    answer.extend(after(&bank.azimuths, azimuths).iter().flat_map(|a| a.to_be_bytes()));
    answer.extend(after(&bank.elevations, elevations).iter().flat_map(|e| e.to_be_bytes()));
    answer.extend(shown_taps.flat_map(|t| t.to_be_bytes()));
    exactly(request(READ, &arguments), READ, answer)
}

/// Reads a file into lists of the right lengths, and shows the taps of the bank it came from, and one more.
fn read_damaged(file: &[u8], taps: usize) -> Case {
    read(file, AZIMUTHS, ELEVATIONS, TAPS, taps + 1)
}

/// Writes into a buffer of so many bytes. The lengths of the bank need not agree with each other.
fn write(bank: &Bank, length: u64, bytes: usize) -> Case {
    let rows = bank.azimuths.len();
    let mut arguments = vec![rows as u8, bank.elevations.len() as u8];
    arguments.extend((bank.taps.len() as u16).to_be_bytes());
    arguments.extend((bytes as u16).to_be_bytes());
    arguments.extend(length.to_be_bytes());
    arguments.extend(bank.azimuths.iter().chain(&bank.elevations).flat_map(|a| a.to_be_bytes()));
    arguments.extend(bank.taps.iter().flat_map(|t| t.to_be_bytes()));
    let (wide_rows, taps, wide) = (rows as u128, bank.taps.len() as u128, u128::from(length));
    let fits = bank.elevations.len() == rows && taps == 2 * wide_rows * wide && bytes as u128 == 9 + wide_rows * (4 + 8 * wide);
    let bank = Bank { length: length as usize, ..bank.clone() };
    let (refusal, offset) = if fits { bank_fault(&bank) } else { (LENGTH, 0) };
    // With no rows every L agrees, also one that has no room in a file.
    if fits && length <= 0xffff {
        assert_eq!((refusal, offset), file_fault(&file_as(2, &bank)), "the writer and the reader on {rows} rows, L = {length}");
    }
    let mut answer = vec![refusal];
    answer.extend((offset as u32).to_be_bytes());
    answer.extend((if refusal == 0 { bytes as u32 } else { 0 }).to_be_bytes());
    answer.extend(if refusal == 0 { file_as(2, &bank) } else { filled_bytes(bytes) });
    exactly(request(WRITE, &arguments), WRITE, answer)
}

/// Writes a bank into a buffer of the length that its file has.
fn write_fitting(bank: &Bank) -> Case {
    write(bank, bank.length as u64, size_as(2, bank.azimuths.len(), bank.length))
}

// ---- what is asked

/// A bank to write: pairs of azimuth and elevation, L and taps.
type Pairs<'a> = (&'a [(i16, i16)], u64, &'a [u32]);

/// Banks, with what is told of writing them, written down.
const TOLD_OF_BANKS: &[(Pairs, Fault)] = &[
    ((&[(0, 0)], 1, &[0x3f80_0000, 0x3f00_0000]), SOUND),
    ((&[(1800, 900)], 1, &[0, 0x8000_0000]), SOUND),
    ((&[(-1799, -900)], 1, &[1, 0x807f_ffff]), SOUND),
    ((&[(0, 900), (450, 900)], 1, &[0; 4]), SOUND),
    ((&[(0, 0), (0, 100), (100, 0)], 1, &[0; 6]), SOUND),
    ((&[], 513, &[]), (15, 5)),
    ((&[], 0, &[]), (15, 5)),
    ((&[], 0x1_0001, &[]), (15, 5)),
    ((&[(0, 0), (450, 0), (0, 0)], 1, &[0; 6]), (17, 35)),
    ((&[(0, 0), (450, 0), (0, 0)], 2, &[0; 12]), (17, 51)),
    ((&[(0, 100), (0, 100)], 1, &[0; 4]), (17, 23)),
    ((&[(0, 0)], 0, &[]), (16, 7)),
    ((&[(-1800, 901)], 0, &[]), (16, 7)),
    ((&[(-1800, 901); 9], 0, &[]), (15, 5)),
    ((&[(-1800, 901); 9], 1, &[0x7f80_0000; 18]), (15, 5)),
    ((&[(-1800, 901)], 513, &[0x7f80_0000; 1026]), (16, 7)),
    ((&[(-1800, 901)], 1, &[0x7f80_0000; 2]), (17, 9)),
    ((&[(0, 901)], 1, &[0x7f80_0000; 2]), (20, 11)),
    ((&[(0, -901)], 1, &[0; 2]), (20, 11)),
    ((&[(0, 901), (0, 901)], 1, &[0; 4]), (20, 11)),
    ((&[(0, 901), (-1800, 0)], 1, &[0; 4]), (20, 11)),
    ((&[(0, 0), (0, 901)], 1, &[0; 4]), (20, 23)),
    ((&[(0, 0), (-1800, 901)], 1, &[0; 4]), (17, 21)),
    ((&[(0, 0), (450, 0)], 1, &[0, 0, 0, 0x7f80_0000]), (18, 29)),
    ((&[(0, 0), (-1800, 0)], 1, &[0, 0x7f80_0000, 0, 0]), (18, 17)),
    ((&[(0, 0), (450, 901)], 1, &[0x7f80_0000, 0, 0, 0]), (18, 13)),
    ((&[(0, 0), (0, 0)], 1, &[0, 0, 0x7f80_0000, 0]), (17, 23)),
];

fn bank_by((pairs, length, taps): Pairs) -> Bank {
    let (azimuths, elevations) = pairs.iter().copied().unzip();
    Bank { azimuths, elevations, length: length as usize, taps: taps.to_vec() }
}

/// Reads a file of which is written down, or known from how it was made, what is told of it.
fn read_told(file: &[u8], told: Fault, taps: usize) -> Case {
    assert_eq!(file_fault(file), told, "the reader on {}", hex(file));
    read_damaged(file, taps)
}

/// Writes such a bank.
fn write_told(bank: &Bank, told: Fault) -> Case {
    assert_eq!(bank_fault(bank), told, "the writer on {bank:x?}");
    write_fitting(bank)
}

fn told_files() -> impl Iterator<Item = Case> {
    let told = TOLD.iter().copied().chain(WRITTEN.iter().map(|line| (line.file, line.read.err().unwrap_or(SOUND))));
    told.map(|(hex, told)| read_told(&bytes_of(hex), told, 6))
}

fn told_banks() -> impl Iterator<Item = Case> {
    TOLD_OF_BANKS.iter().map(|(pairs, told)| write_told(&bank_by(*pairs), *told))
}

/// The numbers of a bank's rows broken alone and in pairs, and written: the one that would stand first is told.
fn pairs_of_faults_written() -> Vec<Case> {
    let broken: Vec<_> = breaks(2).iter().filter(|field| field.0 >= 9).collect();
    let mut all = Vec::new();
    for (i, first) in broken.iter().enumerate() {
        for second in &broken[i..] {
            let mut bank = small_bank(2);
            for (at, _, bytes) in [**second, **first] {
                let (row, within) = ((at - 9) / 12, (at - 9) % 12);
                match within {
                    0 => bank.azimuths[row] = i16::from_be_bytes(bytes.try_into().unwrap()),
                    2 => bank.elevations[row] = i16::from_be_bytes(bytes.try_into().unwrap()),
                    _ => bank.taps[2 * row + (within - 4) / 4] = u32::from_be_bytes(bytes.try_into().unwrap()),
                }
            }
            all.push(write_told(&bank, (first.1, first.0)));
        }
    }
    all
}

/// Reads a bank's file in version 1, where it has no elevations, and in version 2, and writes it.
fn read_and_write(bank: &Bank) -> Vec<Case> {
    let is_level = bank.elevations.iter().all(|e| *e == 0);
    let versions = if is_level { &[1, 2][..] } else { &[2] };
    let mut all: Vec<Case> = versions.iter().map(|v| read_damaged(&file_as(*v, bank), bank.taps.len())).collect();
    all.push(write_fitting(bank));
    all
}

/// Files with the largest and smallest counts, and with counts just outside, the length always that of the file.
fn ends(random: &mut Random) -> Vec<Case> {
    let mut all = Vec::new();
    for (rows, length) in [(1, 1), (8, 1), (1, 512), (2, 511)] {
        let level = level(random, rows, length);
        all.push(read_damaged(&file_as(1, &level), level.taps.len() + 2));
        let raised = raised(random, rows, length);
        all.push(read_damaged(&file_as(2, &raised), raised.taps.len() + 2));
        all.push(write_fitting(&raised));
    }
    for (rows, length) in [(0u16, 1u16), (9, 1), (1, 0), (1, 513), (0, 0), (8, 0), (0xffff, 1), (1, 0xffff), (0x100, 1), (1, 0x100)] {
        for version in [1, 2] {
            let behind = vec![0; (size_as(version, rows as usize, length as usize) - 9).min(5000)];
            all.push(read_damaged(&laid_out(version, 4 + behind.len() as u32, rows, length, &behind), 8));
        }
    }
    all
}

/// The largest files, a byte more with the length as it was, and with the length grown too; a byte less; a fault at the end.
fn largest(random: &mut Random, count: usize) -> Vec<Case> {
    let mut all = Vec::new();
    for (version, bank) in [(1, level(random, 8, 512)), (2, raised(random, 8, 512))] {
        let file = file_as(version, &bank);
        let grown = laid_out(version, file.len() as u32 - 4, 8, 512, &[&file[9..], &[0]].concat());
        let mut repeated = file.clone();
        let angles = 2 * usize::from(version);
        repeated.copy_within(9..9 + angles, size_as(version, 7, 512));
        let mut infinite = file.clone();
        let end = file.len() - 4;
        infinite[end..].copy_from_slice(&0x7f80_0000u32.to_be_bytes());
        all.push(read(&file, AZIMUTHS, ELEVATIONS, TAPS, TAPS));
        let damaged = [[&file[..], &[0]].concat(), grown, file[..file.len() - 1].to_vec(), repeated, infinite];
        // Below N = 1,000 the first of version 1, and the first two of version 2.
        let few = usize::from(version);
        all.extend(damaged.iter().take(if count < 1000 { few } else { 5 }).map(|f| read_damaged(f, 8)));
        if version == 2 {
            all.push(write_fitting(&bank));
        }
    }
    all
}

/// Each tap that is no number, at the first, the last and a middle place, read and written.
fn taps_that_are_no_numbers(random: &mut Random) -> Vec<Case> {
    let mut all = Vec::new();
    for bits in NOT_FINITE {
        for place in [0, 5, 11] {
            let mut level = level(random, 2, 3);
            level.taps[place] = bits;
            all.push(read_damaged(&file_as(1, &level), level.taps.len()));
            let mut raised = raised(random, 2, 3);
            raised.taps[place] = bits;
            all.push(read_damaged(&file_as(2, &raised), raised.taps.len()));
            all.push(write_fitting(&raised));
        }
    }
    all
}

/// Azimuths and elevations at and outside both ends, read and written.
fn angles_at_the_ends(random: &mut Random) -> Vec<Case> {
    let mut all = Vec::new();
    for azimuth in [-32768, -1801, -1800, -1799, 0, 1800, 1801, 3600, 32767] {
        for place in 0..3 {
            let mut bank = level(random, 3, 1);
            bank.azimuths[place] = azimuth;
            all.extend(read_and_write(&bank));
        }
    }
    for elevation in [-32768, -1800, -902, -901, -900, -899, 899, 900, 901, 902, 1800, 3600, 32767] {
        for place in 0..3 {
            let mut bank = raised(random, 3, 1);
            bank.elevations[place] = elevation;
            all.extend(read_and_write(&bank));
        }
    }
    all
}

/// Any two rows of eight, alike in one angle, and then in both, read and written.
fn repeats(random: &mut Random) -> Vec<Case> {
    let mut all = Vec::new();
    for (i, j) in (0..8).flat_map(|j| (0..j).map(move |i| (i, j))) {
        let mut bank = level(random, 8, 1);
        bank.azimuths[j] = bank.azimuths[i];
        all.push(read_damaged(&file_as(1, &bank), bank.taps.len()));
        let mut bank = raised(random, 8, 1);
        match (i + j) % 2 {
            0 => bank.azimuths[j] = bank.azimuths[i],
            _ => bank.elevations[j] = bank.elevations[i],
        }
        all.push(read_damaged(&file_as(2, &bank), bank.taps.len()));
        (bank.azimuths[j], bank.elevations[j]) = (bank.azimuths[i], bank.elevations[i]);
        all.extend(read_and_write(&bank));
    }
    all
}

/// Lent lists of other lengths: one of them, two, all; and more of them than there are.
const LENT: [(usize, usize, usize); 22] = [
    (7, 8, TAPS),
    (9, 8, TAPS),
    (0, 8, TAPS),
    (16, 8, TAPS),
    (8, 7, TAPS),
    (8, 9, TAPS),
    (8, 0, TAPS),
    (8, 1, TAPS),
    (8, 16, TAPS),
    (7, 7, TAPS),
    (9, 9, TAPS),
    (7, 9, TAPS),
    (9, 7, TAPS),
    (8, 8, 0),
    (8, 8, 2),
    (8, 8, TAPS - 1),
    (8, 8, TAPS + 1),
    (7, 8, TAPS - 1),
    (8, 7, TAPS - 1),
    (8, 8, 8200),
    (17, 255, TAPS),
    (8, 17, TAPS),
];

pub fn reading(random: &mut Random, count: usize, sink: &mut Sink) {
    let few = count < 1000;
    send(sink, told_files());
    for version in [1, 2] {
        let told = pairs_of_faults(version).into_iter().chain(faults_in_cut_files(version, true));
        send(sink, told.map(|(file, told)| read_told(&file, told, 4)));
    }
    // With a file that is good, in either version, and with one that is not.
    for (azimuths, elevations, taps) in LENT {
        send(sink, [&EXAMPLE_1[..], &EXAMPLE_2, &EXAMPLE_2[..20]].map(|file| read(file, azimuths, elevations, taps, 4)));
    }
    let mut ways = || if few { vec![1, 0x80, 0xff] } else { (1..=255).collect() };
    send(sink, damages(&EXAMPLE_1, &mut ways).iter().map(|file| read_damaged(file, 2)));
    send(sink, damages(&file_as(2, &small_bank(2)), &mut ways).iter().map(|file| read_damaged(file, 4)));
    for (version, bank) in [(1, level(random, 3, 2)), (2, raised(random, 3, 2))] {
        let mut ways = || if few { vec![1 << random.below(8)] } else { (1..=255).collect() };
        send(sink, damages(&file_as(version, &bank), &mut ways).iter().map(|file| read_damaged(file, bank.taps.len())));
    }
    send(sink, ends(random));
    send(sink, taps_that_are_no_numbers(random));
    send(sink, angles_at_the_ends(random));
    send(sink, repeats(random));
    for _ in 0..1 + count / 1000 {
        send(sink, largest(random, count));
    }
    if !few {
        send(sink, [1, 2].into_iter().flat_map(longer_than_any).map(|(file, told)| read_told(&file, told, 8)));
    }
    for _ in 0..(if few { count / 4 } else { count / 2 }) {
        let (rows, length) = any_counts(random);
        if few && size_as(2, rows, length) > 500 {
            continue;
        }
        let (version, bank) = match random.below(4) {
            0 => (1, level(random, rows, length)),
            1 => (2, level(random, rows, length)),
            _ => (2, raised(random, rows, length)),
        };
        let mut file = file_as(version, &bank);
        sink(read_damaged(&file, bank.taps.len() + 1));
        let place = random.below(file.len() as u64) as usize;
        file[place] ^= 1 << random.below(8);
        sink(read_damaged(&file, bank.taps.len()));
    }
}

pub fn writing(random: &mut Random, count: usize, sink: &mut Sink) {
    let few = count < 1000;
    send(sink, told_banks());
    send(sink, pairs_of_faults_written());
    let example = bank_of(&EXAMPLE_2, &BOTH).unwrap();
    // Lengths that do not fit: of the buffer, of L, of the taps, one at a time. The file of version 1 has 19 bytes.
    for bytes in [0, 1, 8, 9, 10, 19, 20, 22, 29, 32809, 33000] {
        sink(write(&example, 1, bytes));
    }
    for length in [0, 2, 512, 513, 1 << 32, 1 << 61, 1 << 62, (1 << 63) + 1, u64::MAX] {
        sink(write(&example, length, 21));
    }
    for taps in [0, 1, 3, 4] {
        sink(write(&Bank { taps: vec![0; taps], ..example.clone() }, 1, 21));
    }
    // Elevations that are too few or too many, beside rows that are right, that break the form in every way, and none.
    for (rows, elevations) in
        [(0, 1), (0, 8), (0, 16), (1, 0), (1, 2), (1, 16), (2, 1), (3, 2), (3, 4), (7, 8), (8, 7), (8, 9), (8, 0), (9, 8), (16, 15), (15, 16)]
    {
        for (angle, bits) in [(100, 0), (5000, 0x7f80_0000)] {
            let azimuths = (0..rows as i16).map(|i| angle + i).collect();
            let bank = Bank { azimuths, elevations: vec![angle; elevations], length: 1, taps: vec![bits; 2 * rows] };
            sink(write_fitting(&bank));
            // The file would have two bytes less for a row.
            sink(write(&bank, 1, size_as(1, rows, 1)));
        }
        // No row and no tap is lent, and every L agrees.
        let bank = Bank { azimuths: vec![], elevations: vec![0; elevations], length: 0, taps: vec![] };
        sink(write(&bank, u64::MAX, 9));
    }
    // A count above 16 counts as 16.
    for at in [0, 1] {
        let mut case = write_fitting(&bank_by((&[(0, 0); 16], 1, &[0; 32])));
        case.request[5 + at] = [17, 255][at];
        sink(case);
    }
    // Lengths that agree with each other, of banks that have too few rows or taps, or too many.
    for (rows, length) in [(0u64, 0u64), (0, 1), (0, 513), (0, u64::MAX), (1, 0), (8, 0), (9, 0), (16, 0), (9, 1), (16, 1), (1, 513), (2, 600), (4, 1025)] {
        let taps = if rows == 0 { 0 } else { 2 * rows * length };
        let (azimuths, elevations) = (0..rows as i16).map(|i| (i, 7 - i)).unzip();
        let bank = Bank { azimuths, elevations, length: length as usize, taps: (0..taps).map(|_| tap(random)).collect() };
        let bytes = 9 + if rows == 0 { 0 } else { rows * (4 + 8 * length) };
        sink(write(&bank, length, bytes as usize));
        sink(write(&bank, length, bytes as usize + 1));
    }
    for _ in 0..(if few { count / 4 } else { count / 2 }) {
        let (rows, length) = any_counts(random);
        let mut bank = if random.below(4) == 0 { level(random, rows, length) } else { raised(random, rows, length) };
        if few && bank.taps.len() > 120 {
            continue;
        }
        sink(write_fitting(&bank));
        let place = random.below(bank.taps.len() as u64) as usize;
        bank.taps[place] = random.bits() as u32 | (0x7f80_0000 * (random.below(2) as u32));
        sink(write_fitting(&bank));
        let row = random.below(bank.azimuths.len() as u64) as usize;
        bank.elevations[row] = random.bits() as i16 >> random.below(7);
        sink(write_fitting(&bank));
        let row = random.below(bank.azimuths.len() as u64) as usize;
        bank.azimuths[row] = random.bits() as i16 >> random.below(6);
        sink(write_fitting(&bank));
    }
}

/// The judge is tried with requests and answers that are written down whole, and with the programs of wrong_banks.rs: the right
/// one, and others that are wrong in one way, each of which the requests of the recorded sample have to show.
#[cfg(test)]
mod tests {
    use super::*;
    use crate::frame::passes_alone;
    use crate::wrong_banks::{READ_WRONG, WRITE_WRONG, WRONG, shown};

    #[test]
    fn requests_and_answers_are_those_of_the_page() {
        // Eight azimuths, eight elevations, 8,192 taps, and three of them to show; the example of version 2.
        let case = read(&EXAMPLE_2, 8, 8, 8192, 3);
        let asked = "06 0000001b 08 08 2000 0003 02 00000010 0001 0001 0000 0000 3f800000 3f000000";
        let lists = "0000 03e9 03ea 03eb 03ec 03ed 03ee 03ef 0000 03e9 03ea 03eb 03ec 03ed 03ee 03ef";
        let answered = format!("00 00000000 00000001 00000001 0000 {lists} 3f800000 3f000000 447a8000");
        assert_eq!(case.request, bytes_of(asked));
        assert!(passes_alone(&case, READ, &bytes_of(&answered)));
        // One row at 45 degrees and 10 below, of which one tap is shown, so that one that is not has changed.
        let case = read(&bytes_of("02 00000010 0001 0001 01c2 ff9c 3f800000 3f000000"), 8, 8, 8192, 1);
        let lists = "01c2 03e9 03ea 03eb 03ec 03ed 03ee 03ef ff9c 03e9 03ea 03eb 03ec 03ed 03ee 03ef";
        assert!(passes_alone(&case, READ, &bytes_of(&format!("00 00000000 00000001 00000001 0001 {lists} 3f800000"))));
        // Version 1 is read at elevation 0; two azimuths are lent, one elevation and four taps: 5.
        let case = read(&EXAMPLE_1, 2, 1, 4, 0);
        assert_eq!(case.request, bytes_of("06 00000019 02 01 0004 0000 01 0000000e 0001 0001 0000 3f800000 3f000000"));
        assert!(passes_alone(&case, READ, &bytes_of("05 00000000 00000000 00000000 0000 03e8 03e9 03e8")));
        // (450, -100), L = 1, into 21 bytes, and into 22.
        let bank = bank_by((&[(450, -100)], 1, &[0x3f80_0000, 0x8000_0000]));
        let case = write(&bank, 1, 21);
        assert_eq!(case.request, bytes_of("07 0000001a 01 01 0002 0015 0000000000000001 01c2 ff9c 3f800000 80000000"));
        assert!(passes_alone(&case, WRITE, &bytes_of("00 00000000 00000015 02 00000010 0001 0001 01c2 ff9c 3f800000 80000000")));
        let filled = "03 0a 11 18 1f 26 2d 34 3b 42 49 50 57 5e 65 6c 73 7a 81 88 8f 96";
        assert!(passes_alone(&write(&bank, 1, 22), WRITE, &bytes_of(&format!("05 00000000 00000000 {filled}"))));
    }

    #[test]
    fn the_right_program_passes() {
        assert_eq!((shown("", "bank read", reading), shown("", "bank write", writing)), (0, 0));
    }

    #[test]
    fn every_wrong_program_is_found() {
        for way in WRONG.iter().chain(&READ_WRONG) {
            assert!(shown(way, "bank read", reading) > 0, "reading: {way}");
        }
        for way in WRONG.iter().chain(&WRITE_WRONG) {
            assert!(shown(way, "bank write", writing) > 0, "writing: {way}");
        }
    }

    #[test]
    fn what_is_written_down_is_told() {
        // Each is held to the oracle's own reader or writer as its request is made.
        told_files().for_each(drop);
        told_banks().for_each(drop);
        assert_eq!(pairs_of_faults_written().len(), 9 * 10 / 2);
    }
}
