//! Row choice, by document 02, E6: "least elevation distance, then the shorter way round, then the earlier row". The rows are
//! sorted out one test after the other, and no distance is joined with another. Where all elevations are alike, the choice is
//! held to that of document 01, which knows azimuths alone.
use crate::frame::{Case, Sink, exactly, request};
use crate::random::Random;

const NEAREST: u8 = 8;

/// An azimuth and an elevation, in tenths of a degree.
type Place = (i16, i16);

/// How far an elevation is from another: the plain difference, which has no way round.
fn height(elevation: i16, speaker: i16) -> i32 {
    (i32::from(elevation) - i32::from(speaker)).abs()
}

/// "the difference modulo 3600, the shorter way round"
fn way_round(azimuth: i16, speaker: i16) -> i32 {
    let d = (i32::from(azimuth) - i32::from(speaker)).rem_euclid(3600);
    d.min(3600 - d)
}

/// The row that a speaker takes, among the first `rows` of two lists.
pub fn nearest_row(azimuths: &[i16], elevations: &[i16], rows: u64, speaker: Place) -> usize {
    let rows = 0..rows as usize;
    let lowest = rows.clone().map(|i| height(elevations[i], speaker.1)).min().unwrap();
    let level: Vec<usize> = rows.filter(|i| height(elevations[*i], speaker.1) == lowest).collect();
    let shortest = level.iter().map(|i| way_round(azimuths[*i], speaker.0)).min().unwrap();
    level.into_iter().find(|i| way_round(azimuths[*i], speaker.0) == shortest).unwrap()
}

/// The row that document 01 chooses: "the one nearest it .. on a tie the earlier row".
fn nearest_azimuth(azimuths: &[i16], rows: u64, speaker: i16) -> usize {
    // The first of the least ones.
    (0..rows as usize).min_by_key(|i| way_round(azimuths[*i], speaker)).unwrap()
}

/// Asks for the row of a speaker in lists of any lengths. Refusals 2, 3 and 5, in this order.
fn nearest(azimuths: &[i16], elevations: &[i16], rows: u64, speaker: Place) -> Case {
    let mut arguments = vec![azimuths.len() as u8, elevations.len() as u8];
    arguments.extend(rows.to_be_bytes());
    arguments.extend(speaker.0.to_be_bytes());
    arguments.extend(speaker.1.to_be_bytes());
    arguments.extend(azimuths.iter().chain(elevations).flat_map(|a| a.to_be_bytes()));
    let (refusal, row) = if !(1..=8).contains(&rows) {
        (2, 0)
    } else if !(-1800..=1800).contains(&speaker.0) || !(-900..=900).contains(&speaker.1) {
        (3, 0)
    } else if azimuths.len() != 8 || elevations.len() != 8 {
        (5, 0)
    } else {
        let row = nearest_row(azimuths, elevations, rows, speaker);
        if elevations.iter().all(|e| *e == elevations[0]) {
            assert_eq!(row, nearest_azimuth(azimuths, rows, speaker.0), "{azimuths:?}, {rows} rows, {speaker:?}");
        }
        (0, row)
    };
    let mut answer = vec![refusal];
    answer.extend((row as u32).to_be_bytes());
    exactly(request(NEAREST, &arguments), NEAREST, answer)
}

/// The same for rows that stand in front of a list, whose other entries are nearer than any and do not count.
fn among(rows: &[Place], speaker: Place) -> Case {
    let (azimuths, elevations): (Vec<i16>, Vec<i16>) = rows.iter().copied().chain(std::iter::repeat(speaker)).take(8).unzip();
    nearest(&azimuths, &elevations, rows.len() as u64, speaker)
}

/// Rows and a speaker, with the row that it takes, written down.
const CHOSEN: &[(&[Place], Place, usize)] = &[
    // Document 01's tenth drill item.
    (&[(0, 0), (450, 0)], (225, 0), 0),
    (&[(0, 10), (1800, 0)], (0, 0), 1),
    (&[(0, 100), (0, -100)], (0, 0), 0),
    (&[(0, -100), (0, 100)], (0, 0), 0),
    (&[(450, 100), (0, -100)], (0, 0), 1),
    (&[(300, 0), (300, 450), (-300, 450)], (0, 300), 1),
    // A tenth of a degree in elevation counts more than half a turn, either way, and whichever row is first.
    (&[(0, 1), (1800, 0)], (0, 0), 1),
    (&[(1800, 0), (0, 1)], (0, 0), 0),
    (&[(0, -1), (1800, 0)], (0, 0), 1),
    (&[(0, 900), (1800, 899)], (0, -900), 1),
    (&[(0, 2), (1800, 1)], (0, 0), 1),
    // The way round counts where elevations are alike, across the back too.
    (&[(0, 100), (1799, 100)], (-1799, 100), 1),
    (&[(1800, 500), (-1799, 500)], (-1800, 0), 0),
    (&[(-1799, 500), (1800, 500)], (-1800, 0), 1),
    // Straight up every azimuth is the same place, but not the same row.
    (&[(0, 900), (450, 900)], (450, 900), 1),
    (&[(0, 900), (450, 900)], (-450, 900), 0),
    // Elevations have no way round: 3600 is 3600 away from 0, not none, and 1800 is 2700 away from -900, not 900.
    (&[(0, 3600), (0, 900)], (0, 0), 1),
    (&[(0, 1800), (0, 900)], (0, -900), 1),
    (&[(0, -3599), (0, 3598)], (0, 0), 1),
    // Differences that pass 16 bits.
    (&[(0, 32767), (0, -32767)], (0, -900), 1),
    (&[(0, -32768), (0, 32767)], (0, 900), 1),
    (&[(0, 32767), (0, 32000)], (0, -900), 1),
    (&[(-32768, 0), (32767, 0)], (367, 0), 1),
];

/// A worked choice, held to what is written down.
fn chosen(rows: &[Place], speaker: Place, row: usize) -> Case {
    let (azimuths, elevations): (Vec<i16>, Vec<i16>) = rows.iter().copied().unzip();
    assert_eq!(nearest_row(&azimuths, &elevations, rows.len() as u64, speaker), row, "{rows:?}, {speaker:?}");
    among(rows, speaker)
}

/// Lists at one elevation: every pair of azimuths with a speaker midway between them, both ways round.
fn level(random: &mut Random, count: usize, sink: &mut Sink) {
    let set = [-1800, -1799, -1350, -900, -450, -300, -1, 0, 1, 300, 450, 900, 1100, 1350, 1799, 1800, 32767, -32768];
    for a in set {
        for b in set {
            let middle = ((i32::from(a) + i32::from(b)).div_euclid(2)).rem_euclid(3600);
            for (speaker, other) in [(middle, false), (middle + 1800, false), (middle + 1, true), (middle - 1, true)] {
                let speaker = (speaker + 1800).rem_euclid(3600) - 1800;
                if other && count < 1000 {
                    continue;
                }
                let elevations = [[0, 0, 450, -900, 32767][random.below(5) as usize]; 8];
                let elevation = [0, 0, 900, -900, 30][random.below(5) as usize];
                sink(nearest(&[a, b, a, b, 7, 7, 7, 7], &elevations, 2 + random.below(3), (speaker as i16, elevation)));
            }
        }
    }
}

/// Every pair of rows out of a few azimuths and elevations, against speakers at some of them.
fn pairs(azimuths: &[i16], elevations: &[i16], speakers: &[Place], sink: &mut Sink) {
    let set: Vec<Place> = azimuths.iter().flat_map(|a| elevations.iter().map(|e| (*a, *e))).collect();
    for first in &set {
        for second in &set {
            speakers.iter().for_each(|speaker| sink(among(&[*first, *second], *speaker)));
        }
    }
}

/// Each count of rows, and those that are none, beside each speaker and lists of each length, so that 2, 3 and 5 meet.
fn refused(count: usize, sink: &mut Sink) {
    let azimuths = [1700, -1700, 900, -900, 450, -450, 10, -10, 0, 0, 0, 0, 0, 0, 0, 0];
    let elevations = [100, -100, 50, -50, 900, -900, 50, 0, 0, 0, 0, 0, 0, 0, 0, 0];
    let speakers = [(-1801, 0), (-1800, 0), (0, 0), (1800, 0), (1801, 0), (0, -901), (0, -900), (0, 900), (0, 901), (1801, 901)];
    let lents = [(8, 8), (7, 8), (9, 8), (0, 8), (16, 8), (8, 7), (8, 9), (8, 0), (8, 16), (7, 7), (9, 7), (7, 9), (0, 0), (16, 16)];
    for (i, rows) in [1, 8, 0, 9, 2, 3, 4, 5, 6, 7, 1 << 32, 1 << 63, u64::MAX].into_iter().enumerate() {
        for (j, speaker) in speakers.into_iter().enumerate() {
            for (k, (a, e)) in lents.into_iter().enumerate() {
                // Below N = 1,000 all lists beside one row, all counts beside lists of eight, and some of the rest.
                if count >= 1000 || i == 0 || k == 0 || (i + j + k) % 7 == 0 {
                    sink(nearest(&azimuths[..a], &elevations[..e], rows, speaker));
                }
            }
        }
    }
    // A count above 16 counts as 16.
    for at in [0, 1] {
        let mut case = nearest(&azimuths, &elevations, 8, (0, 0));
        case.request[5 + at] = [17, 255][at];
        sink(case);
    }
    for angle in [i16::MIN, -32767, -1802, 1802, i16::MAX] {
        sink(nearest(&[0; 8], &[0; 8], 8, (angle, 0)));
    }
    for angle in [i16::MIN, -32767, -1800, -902, 902, 1800, i16::MAX] {
        sink(nearest(&[0; 8], &[0; 8], 8, (0, angle)));
    }
}

pub fn choosing(random: &mut Random, count: usize, sink: &mut Sink) {
    let few = count < 1000;
    CHOSEN.iter().for_each(|(rows, speaker, row)| sink(chosen(rows, *speaker, *row)));
    level(random, count, sink);
    if few {
        pairs(&[0, 1, 1800], &[-900, 0, 1], &[(0, 0), (-1799, 0), (900, 450)], sink);
        pairs(&[0, 1800], &[-32768, -32000, -3600, 900, 2700, 32767], &[(0, 900)], sink);
    } else {
        let speakers = [(0, 0), (1, 0), (1800, 0), (-1800, -900), (0, 900), (0, 1), (900, -450), (450, 30)];
        pairs(&[0, 1, -1, 900, 1800, -1799], &[-900, -1, 0, 1, 30, 900], &speakers, sink);
        pairs(&[0, 1800], &[-32768, -32000, -3601, -3600, -1800, -901, -900, 0, 900, 901, 1800, 2700, 3600, 32000, 32767], &speakers, sink);
    }
    refused(count, sink);
    for _ in 0..count {
        // Few steps between angles, so that ties are common; some lists at one elevation, some outside its range.
        let step = [1, 50, 225, 450][random.below(4) as usize];
        let azimuth = |random: &mut Random| ((random.below(3601) as i16 - 1800) / step) * step;
        let azimuths: Vec<i16> = (0..8).map(|_| azimuth(random)).collect();
        let rise = [0, 1, 225, 450, 900][random.below(5) as usize];
        let elevations: Vec<i16> = match random.below(8) {
            0 => (0..8).map(|_| random.bits() as i16).collect(),
            _ => (0..8).map(|_| rise * (random.below(3) as i16 - 1)).collect(),
        };
        let speaker = (azimuth(random), [0, 0, 1, rise, -rise, random.below(1801) as i16 - 900][random.below(6) as usize]);
        sink(nearest(&azimuths, &elevations, 1 + random.below(8), speaker));
    }
}

/// The judge is tried with other choices, each wrong in one way: the recorded sample's requests have to show each.
#[cfg(test)]
mod tests {
    use super::*;
    use crate::bank::bytes_of;
    use crate::frame::{Answer, passes_alone};

    const WRONG: [&str; 18] = [
        "azimuth first",
        "azimuth alone",
        "elevation alone",
        "the later row",
        "the sum of both",
        "half a turn is a tenth",
        "elevation the short way of a turn",
        "elevation without its sign",
        "elevation in 16 bits",
        "azimuth without a way round",
        "one row more",
        "all rows",
        "901 is taken",
        "-901 is taken",
        "elevations are not counted",
        "5 before 3",
        "3 before 2",
        "the speaker at elevation 0",
    ];

    /// The numbers of a request, and the row that a program of one wrong way answers.
    fn answer(way: &str, arguments: &[u8]) -> Vec<u8> {
        let [a, e] = [0, 1].map(|at| usize::from(arguments[at]).min(16));
        let rows = u64::from_be_bytes(arguments[2..10].try_into().unwrap());
        let angle = |i: usize| i16::from_be_bytes(arguments[10 + 2 * i..][..2].try_into().unwrap());
        let speaker = (angle(0), if way == "the speaker at elevation 0" { 0 } else { angle(1) });
        let (azimuths, elevations): (Vec<i16>, Vec<i16>) = ((2..2 + a).map(angle).collect(), (2 + a..2 + a + e).map(angle).collect());
        let range = match way {
            "901 is taken" => -900..=901,
            "-901 is taken" => -901..=900,
            _ => -900..=900,
        };
        let mut checks = [
            (2, !(1..=8).contains(&rows)),
            (3, !(-1800..=1800).contains(&speaker.0) || !range.contains(&speaker.1)),
            (5, azimuths.len() != 8 || elevations.len() != 8 && way != "elevations are not counted"),
        ];
        match way {
            "5 before 3" => checks.swap(1, 2),
            "3 before 2" => checks.swap(0, 1),
            _ => (),
        }
        let refusal = checks.iter().find(|check| check.1).map_or(0, |check| check.0);
        let row = if refusal == 0 { row(way, &azimuths, &elevations, rows as usize, speaker) } else { 0 };
        [vec![refusal], (row as u32).to_be_bytes().to_vec()].concat()
    }

    /// One key for a row: what is least wins, and of equal ones the first.
    fn row(way: &str, azimuths: &[i16], elevations: &[i16], rows: usize, speaker: Place) -> usize {
        let key = |i: usize| {
            let (azimuth, elevation) = (azimuths[i], elevations.get(i).copied().unwrap_or(0));
            let (mut up, mut round) = (i64::from(height(elevation, speaker.1)), i64::from(way_round(azimuth, speaker.0)));
            let turn = (i64::from(elevation) - i64::from(speaker.1)).rem_euclid(3600);
            match way {
                "azimuth alone" => up = 0,
                "elevation alone" => round = 0,
                "elevation the short way of a turn" => up = turn.min(3600 - turn),
                "elevation without its sign" => up = (i64::from(elevation).abs() - i64::from(speaker.1).abs()).abs(),
                "elevation in 16 bits" => up = i64::from(elevation.wrapping_sub(speaker.1).unsigned_abs()),
                "azimuth without a way round" => round = (i64::from(azimuth) - i64::from(speaker.0)).abs(),
                _ => (),
            }
            match way {
                "azimuth first" => 100_000 * round + up,
                "the sum of both" => up + round,
                "half a turn is a tenth" => 1800 * up + round,
                _ => 100_000 * up + round,
            }
        };
        let rows = match way {
            "one row more" => (rows + 1).min(8),
            "all rows" => 8,
            _ => rows,
        };
        let nearest = if way == "the later row" { (0..rows).rev().min_by_key(|i| key(*i)) } else { (0..rows).min_by_key(|i| key(*i)) };
        nearest.unwrap()
    }

    fn shown(way: &str) -> usize {
        let mut wrong = 0;
        choosing(&mut Random::new(1, "row choice"), 400, &mut |case| {
            let bytes = answer(way, &case.request[5..]);
            wrong += usize::from((case.judge)(&Answer { operation: NEAREST, bytes }).wrong.is_some());
        });
        wrong
    }

    #[test]
    fn the_right_choice_passes_and_every_wrong_one_is_found() {
        assert_eq!(shown(""), 0);
        for way in WRONG {
            assert!(shown(way) > 0, "{way}");
        }
    }

    #[test]
    fn requests_and_answers_are_those_of_the_page() {
        let case = nearest(&[0, 450, 0, 0, 0, 0, 0, 0], &[100, -100, 0, 0, 0, 0, 0, 0], 2, (225, -900));
        let asked = "08 0000002e 08 08 0000000000000002 00e1 fc7c 0000 01c2 0000 0000 0000 0000 0000 0000 0064 ff9c 0000 0000 0000 0000 0000 0000";
        assert_eq!(case.request, bytes_of(asked));
        assert!(passes_alone(&case, NEAREST, &bytes_of("00 00000001")));
        let case = nearest(&[1], &[2, 3], 1, (0, 901));
        assert_eq!(case.request, bytes_of("08 00000014 01 02 0000000000000001 0000 0385 0001 0002 0003"));
        assert!(passes_alone(&case, NEAREST, &bytes_of("03 00000000")));
    }

    #[test]
    fn the_worked_choices_are_those_written_down() {
        for (rows, speaker, row) in CHOSEN {
            let case = chosen(rows, *speaker, *row);
            assert!(passes_alone(&case, NEAREST, &[0, 0, 0, 0, *row as u8]), "{rows:?}, {speaker:?}");
        }
    }
}
