//! Turning a bank file into the other version, by document 02, E6. A new file is made of the bytes of the old one, two put in
//! behind each azimuth or two taken out, so that no number and no tap is formed on the way; and it is held to the file that the
//! bank has in the other version.
use crate::bank::{
    AZIMUTH, BOTH, Bank, ELEVATION, Fault, LENGTH, MOST_BYTES, NOT_FINITE, RAISED, SOUND, TAP, WRITTEN, any_counts, bank_of, bytes_of, damages,
    faults_in_cut_files, file_as, filled_bytes, hold, laid_out, level, longer_than_any, pairs_of_faults, raised, size_as, small_bank,
};
use crate::frame::{Case, Sink, exactly, hex, request, send};
use crate::random::Random;

pub const TO_VERSION_2: u8 = 23;
pub const TO_VERSION_1: u8 = 24;

/// Which way a file is turned.
#[derive(Clone, Copy, Debug, PartialEq)]
enum Way {
    Forward,
    Back,
}

use Way::{Back, Forward};

impl Way {
    fn operation(self) -> u8 {
        if self == Forward { TO_VERSION_2 } else { TO_VERSION_1 }
    }

    /// The version that is taken.
    fn from(self) -> u8 {
        if self == Forward { 1 } else { 2 }
    }

    fn to(self) -> u8 {
        3 - self.from()
    }
}

/// The new file, or what is told of the old one.
fn turned(way: Way, file: &[u8]) -> Result<Vec<u8>, Fault> {
    // "Each conversion gives 13 for the wrong version".
    let bank = bank_of(file, &[u32::from(way.from())])?;
    let (rows, row_size) = (bank.azimuths.len(), (file.len() - 9) / bank.azimuths.len());
    let mut behind = Vec::new();
    for (i, row) in file[9..].chunks(row_size).enumerate() {
        let (azimuth, rest) = row.split_at(2);
        behind.extend(azimuth);
        match way {
            Forward => behind.extend([[0, 0].as_slice(), rest].concat()),
            Back => {
                // "21 has elevations", at the first of them that is not 0.
                hold(rest[..2] == [0, 0], RAISED, 9 + i * row_size + 2)?;
                behind.extend(&rest[2..]);
            }
        }
    }
    let new = laid_out(way.to(), 4 + behind.len() as u32, rows as u16, bank.length as u16, &behind);
    assert_eq!(new, file_as(way.to(), &bank), "{way:?}: {}", hex(file));
    Ok(new)
}

/// Turns a file into an output of so many bytes. "an output not of the new file's length is 5, after 21".
fn turn(way: Way, file: &[u8], room: usize) -> Case {
    let mut arguments = (room as u16).to_be_bytes().to_vec();
    arguments.extend(file);
    let room = room.min(MOST_BYTES);
    let new = turned(way, file).and_then(|new| hold(new.len() == room, LENGTH, 0).map(|()| new));
    let (refusal, offset) = new.as_ref().err().copied().unwrap_or(SOUND);
    let mut answer = vec![refusal];
    answer.extend((offset as u32).to_be_bytes());
    answer.extend((new.as_ref().map_or(0, Vec::len) as u32).to_be_bytes());
    answer.extend(new.unwrap_or(filled_bytes(room)));
    exactly(request(way.operation(), &arguments), way.operation(), answer)
}

/// The length of the new file, by the row count that stands in the old one: that of a file which is sound but for something else.
fn room_for(way: Way, file: &[u8]) -> usize {
    let rows = file.get(5..7).map_or(0, |count| usize::from(u16::from_be_bytes(count.try_into().unwrap())).min(8));
    if way == Forward { file.len() + 2 * rows } else { file.len().saturating_sub(2 * rows) }
}

/// What is told of turning a file of which reading tells this: the version before it, where it is not the one that is taken.
fn told_of(way: Way, file: &[u8], read: Fault) -> Fault {
    if file.first().is_some_and(|version| *version != way.from()) { (13, 0) } else { read }
}

// ---- what is asked

/// Turns a file of which is written down, or known from how it was made, what it becomes, or what is told of it.
fn turn_told(way: Way, file: &[u8], room: usize, told: Result<&[u8], Fault>) -> Case {
    assert_eq!(turned(way, file), told.map(<[u8]>::to_vec), "{way:?}: {}", hex(file));
    turn(way, file, room)
}

/// The files of which is written down what becomes of them, with outputs of the right length and of others.
fn written_down(way: Way) -> Vec<Case> {
    let mut all = Vec::new();
    for line in WRITTEN {
        let file = bytes_of(line.file);
        let told = if way == Forward { line.forward } else { line.back }.map(bytes_of);
        let right = room_for(way, &file);
        for room in [right, right.saturating_sub(1), right + 1, file.len(), 0] {
            all.push(turn_told(way, &file, room, told.as_deref().map_err(|fault| *fault)));
        }
    }
    all
}

/// Broken fields in pairs and in files that are cut, in both versions. The output has the right length, or one more or less.
fn broken(way: Way, count: usize) -> Vec<Case> {
    let mut all = Vec::new();
    for version in [1, 2] {
        // Of the version that is not taken nothing is told but 13: below N = 1,000 there are some files of it.
        let is_taken = version == way.from();
        let files = pairs_of_faults(version).into_iter().chain(faults_in_cut_files(version, count >= 1000));
        for (i, (file, read)) in files.enumerate().filter(|(i, _)| is_taken || count >= 1000 || i % 8 == 0) {
            let right = room_for(way, &file);
            let room = [right, right + 1, right.saturating_sub(1)][i % 3];
            all.push(turn_told(way, &file, room, Err(told_of(way, &file, read))));
        }
    }
    all
}

/// Elevations that are not 0 in one row of three or in two. The first is told, once the file is sound, and before the output.
fn elevations(random: &mut Random) -> Vec<Case> {
    let mut all = Vec::new();
    for elevation in [-32768, -901, -900, -256, -1, 1, 255, 256, 900, 901, 32767] {
        for (row, other) in [(0, 0), (1, 1), (2, 2), (0, 2), (1, 2)] {
            let mut bank = level(random, 3, 2);
            (bank.elevations[row], bank.elevations[other]) = (elevation, elevation);
            let at = size_as(2, row, 2) + 2;
            let told = if (-900..=900).contains(&elevation) { (RAISED, at) } else { (ELEVATION, at) };
            let file = file_as(2, &bank);
            let right = size_as(1, 3, 2);
            for room in [right, right + 1] {
                all.push(turn_told(Back, &file, room, Err(told)));
            }
            // The same with a fault behind all elevations.
            let mut file = file;
            let last = file.len() - 4;
            file[last..].copy_from_slice(&NOT_FINITE[row].to_be_bytes());
            all.push(turn_told(Back, &file, right, Err(if told.0 == RAISED { (TAP, last) } else { told })));
        }
    }
    // The last row repeats the first one's pair, and is raised with it.
    for elevation in [0, 100] {
        let mut bank = level(random, 3, 1);
        (bank.azimuths[2], bank.elevations[0], bank.elevations[2]) = (bank.azimuths[0], elevation, elevation);
        all.push(turn_told(Back, &file_as(2, &bank), size_as(1, 3, 1), Err((AZIMUTH, size_as(2, 2, 1) + 2))));
    }
    all
}

/// Every length of the output that is easy to get wrong, with a file that is sound, and more than there is to lend.
fn outputs(way: Way, random: &mut Random) -> Vec<Case> {
    let bank = level(random, 3, 2);
    let (old, new) = (size_as(way.from(), 3, 2), size_as(way.to(), 3, 2));
    let file = file_as(way.from(), &bank);
    let rooms = [0, 1, 8, 9, new - 2, new - 1, new, new + 1, new + 2, old - 1, old, old + 1, 2 * new, 8192, 33000, 33001, 65535];
    rooms.iter().map(|room| turn(way, &file, *room)).collect()
}

/// A bank whose taps are those that arithmetic would change: both zeros, subnormals, the ends.
fn delicate() -> Bank {
    let taps = vec![0x8000_0000, 0, 1, 0x8000_0001, 0x007f_ffff, 0x807f_ffff, 0x0080_0000, 0x8080_0000, 0x7f7f_ffff, 0xff7f_ffff, 0x3f80_0001, 0x447a_0000];
    Bank { azimuths: vec![-1799, 0, 1800], elevations: vec![0; 3], length: 2, taps }
}

/// A file of a bank without elevations, turned and turned back: the same bytes.
fn there_and_back(way: Way, bank: &Bank) -> [Case; 2] {
    let other = if way == Forward { Back } else { Forward };
    let [old, new] = [way.from(), way.to()].map(|version| file_as(version, bank));
    [turn_told(way, &old, new.len(), Ok(&new)), turn_told(other, &new, old.len(), Ok(&old))]
}

/// The largest file, turned and turned back; with an output of another length, and a byte more.
fn largest(way: Way, random: &mut Random, count: usize) -> Vec<Case> {
    let mut bank = level(random, 8, 512);
    let [file, new] = [way.from(), way.to()].map(|version| file_as(version, &bank));
    let longer = [&file[..], &[0]].concat();
    let grown = laid_out(way.from(), file.len() as u32 - 4, 8, 512, &longer[9..]);
    let mut all = vec![turn_told(way, &file, new.len(), Ok(&new)), turn_told(way, &longer, new.len(), Err((14, 1)))];
    if count >= 1000 {
        all.extend(there_and_back(way, &bank));
        all.extend([new.len() - 1, new.len() + 1, file.len()].map(|room| turn(way, &file, room)));
        all.push(turn_told(way, &grown, new.len(), Err((14, 1))));
        all.push(turn_told(way, &file[..file.len() - 1], new.len(), Err((14, 1))));
        bank.elevations[7] = 1;
        let at = size_as(2, 7, 512) + 2;
        all.push(turn_told(way, &file_as(2, &bank), size_as(1, 8, 512), Err(if way == Forward { (13, 0) } else { (RAISED, at) })));
    }
    all
}

fn cases(way: Way, random: &mut Random, count: usize, sink: &mut Sink) {
    let few = count < 1000;
    send(sink, written_down(way));
    send(sink, broken(way, count));
    // Every truncation and every changed byte of small banks: with elevations, of either version without.
    let small = |version: u8| file_as(version, &Bank { azimuths: vec![0, 450], elevations: vec![0, 0], ..small_bank(2) });
    for file in [file_as(2, &small_bank(2)), small(way.from()), small(way.to())] {
        let mut ways = || if few { vec![1 << random.below(8)] } else { (1..=255).collect() };
        let right = room_for(way, &file);
        send(sink, damages(&file, &mut ways).iter().map(|damaged| turn(way, damaged, right)));
    }
    if way == Back {
        send(sink, elevations(random));
    }
    send(sink, outputs(way, random));
    send(sink, there_and_back(way, &delicate()));
    for _ in 0..1 + count / 1000 {
        send(sink, largest(way, random, count));
    }
    if !few {
        for (file, read) in BOTH.into_iter().flat_map(|version| longer_than_any(version as u8)) {
            for room in [size_as(way.to(), 8, 512), MOST_BYTES] {
                sink(turn_told(way, &file, room, Err(told_of(way, &file, read))));
            }
        }
    }
    for _ in 0..(if few { count / 4 } else { count / 2 }) {
        let (rows, length) = any_counts(random);
        if few && size_as(2, rows, length) > 500 {
            continue;
        }
        let bank = level(random, rows, length);
        send(sink, there_and_back(way, &bank));
        // A raised one, whichever way; and a file of which one byte is changed, into an output that fits or does not.
        let raised = file_as(2, &raised(random, rows, length));
        sink(turn(way, &raised, room_for(way, &raised) + random.below(2) as usize));
        let mut file = file_as(way.from(), &bank);
        let place = random.below(file.len() as u64) as usize;
        file[place] ^= 1 << random.below(8);
        sink(turn(way, &file, room_for(way, &file) + random.below(2) as usize));
    }
}

pub fn to_version_2(random: &mut Random, count: usize, sink: &mut Sink) {
    cases(Forward, random, count, sink);
}

pub fn to_version_1(random: &mut Random, count: usize, sink: &mut Sink) {
    cases(Back, random, count, sink);
}

/// The judge is tried as in filing.rs.
#[cfg(test)]
mod tests {
    use super::*;
    use crate::bank::{EXAMPLE_1, EXAMPLE_2};
    use crate::frame::passes_alone;
    use crate::wrong_banks::{TURN_WRONG, TURN_WRONG_BACK, shown};

    #[test]
    fn requests_and_answers_are_those_of_the_page() {
        // The example of version 1 into 21 bytes, and that of version 2 into 19.
        let case = turn(Forward, &EXAMPLE_1, 21);
        assert_eq!(case.request, bytes_of("17 00000015 0015 01 0000000e 0001 0001 0000 3f800000 3f000000"));
        assert!(passes_alone(&case, 23, &bytes_of("00 00000000 00000015 02 00000010 0001 0001 0000 0000 3f800000 3f000000")));
        let case = turn(Back, &EXAMPLE_2, 19);
        assert_eq!(case.request, bytes_of("18 00000017 0013 02 00000010 0001 0001 0000 0000 3f800000 3f000000"));
        assert!(passes_alone(&case, 24, &bytes_of("00 00000000 00000013 01 0000000e 0001 0001 0000 3f800000 3f000000")));
        // An elevation of 100, into an output that does not fit: 21 at 11, and the output as it was filled.
        let case = turn(Back, &bytes_of("02 00000010 0001 0001 0000 0064 3f800000 3f000000"), 3);
        assert!(passes_alone(&case, 24, &bytes_of("15 0000000b 00000000 03 0a 11")));
        // No file, and none lent.
        let case = turn(Forward, &[], 0);
        assert_eq!(case.request, bytes_of("17 00000002 0000"));
        assert!(passes_alone(&case, 23, &bytes_of("13 00000000 00000000")));
        assert!(passes_alone(&turn(Forward, &EXAMPLE_1, 4), 23, &bytes_of("05 00000000 00000000 03 0a 11 18")));
    }

    #[test]
    fn the_right_program_passes() {
        assert_eq!((shown("", "to version 2", to_version_2), shown("", "to version 1", to_version_1)), (0, 0));
    }

    #[test]
    fn every_wrong_program_is_found() {
        for way in TURN_WRONG {
            assert!(shown(way, "to version 2", to_version_2) > 0, "to version 2: {way}");
        }
        for way in TURN_WRONG.iter().chain(&TURN_WRONG_BACK) {
            assert!(shown(way, "to version 1", to_version_1) > 0, "to version 1: {way}");
        }
    }

    /// "Version 2 turns back only if every elevation is 0, and exactly then."
    #[test]
    fn a_file_turns_back_exactly_without_elevations() {
        let mut random = Random::new(1, "turns back");
        for i in 0..200 {
            let (rows, length) = any_counts(&mut random);
            let bank = if i % 2 == 0 { level(&mut random, rows, length) } else { raised(&mut random, rows, length) };
            let back = turned(Back, &file_as(2, &bank));
            let first = bank.elevations.iter().position(|e| *e != 0);
            assert_eq!(back.as_ref().err().copied(), first.map(|row| (RAISED, size_as(2, row, length) + 2)));
            if let Ok(back) = back {
                assert_eq!(turned(Forward, &back), Ok(file_as(2, &bank)));
            }
        }
    }
}
