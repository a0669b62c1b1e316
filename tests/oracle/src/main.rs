//! Writes requests for the program `probe`, and judges its answers (docs/PROBE.md). What is right comes from
//! the processor's own arithmetic and from independent computations written here, never from the port.
//!
//!     oracle requests N SEED > requests     N requests of each kind, the same for the same SEED
//!     oracle judge N SEED < answers         says which answers to them are wrong, and counts
//!     oracle differences                    says what the Rust does where documents 01 and 02 ask for something else
//!     oracle play L N                       plays N frames by the Rust's convolver, with filters of L taps
//!     oracle mirror N SEED PROGRAM          asks the program for scenes and for their mirror images, and counts
mod angles;
mod bank;
mod binaural;
mod blocks;
mod choice;
mod convolver;
mod differences;
mod drills;
mod exact;
mod filing;
mod frame;
mod gains;
mod malformed;
mod mirror;
mod numbers;
mod panner;
mod random;
mod recording;
mod replay;
mod rings;
mod rows;
mod rust;
mod script;
mod setup;
mod speed;
mod turning;
#[cfg(test)]
mod wrong_banks;

use frame::{Case, Sink, Verdict};
use random::Random;
use std::collections::BTreeMap;
use std::io::{self, Read, Write};
use std::process::ExitCode;

/// A kind of request has a name, and makes cases.
struct Kind {
    name: &'static str,
    make: fn(&mut Random, usize, &mut Sink),
}

const KINDS: &[Kind] = &[
    Kind { name: "widen", make: numbers::widen },
    Kind { name: "narrow", make: numbers::narrow },
    Kind { name: "root", make: numbers::root },
    Kind { name: "sine", make: angles::sine },
    Kind { name: "cosine", make: angles::cosine },
    Kind { name: "bank read", make: filing::reading },
    Kind { name: "bank write", make: filing::writing },
    Kind { name: "row choice", make: choice::choosing },
    Kind { name: "rows", make: rows::cases },
    Kind { name: "harmonics", make: gains::coefficients },
    Kind { name: "weighted coefficients", make: gains::weighted },
    Kind { name: "stereo gains", make: gains::stereo },
    Kind { name: "surround gains", make: gains::surround },
    Kind { name: "panner block", make: panner::cases },
    Kind { name: "decoder matrix", make: gains::decoder_matrix },
    Kind { name: "decoder block", make: blocks::decode },
    Kind { name: "binaural block", make: binaural::cases },
    Kind { name: "convolver block", make: convolver::process },
    Kind { name: "convolver reset", make: convolver::reset },
    Kind { name: "new surround", make: setup::surround },
    Kind { name: "new ambisonic", make: setup::ambisonic },
    Kind { name: "script", make: drills::cases },
    Kind { name: "replay", make: replay::cases },
    Kind { name: "to version 2", make: turning::to_version_2 },
    Kind { name: "to version 1", make: turning::to_version_1 },
    Kind { name: "convolve", make: rings::cases },
    Kind { name: "malformed", make: malformed::inside },
];

/// What became of the requests of a kind.
#[derive(Default)]
struct Tally {
    all: usize,
    wrong: usize,
    worst: Option<f64>,
    aside: usize,
}

/// Hands on every case as it is made, with the name of its kind. A request that the input ends in can only stand last.
fn cases(count: usize, seed: u64, take: &mut dyn FnMut(&'static str, Case)) {
    for kind in KINDS {
        (kind.make)(&mut Random::new(seed, kind.name), count, &mut |case| take(kind.name, case));
    }
    take("malformed", malformed::at_the_end());
}

fn requests(count: usize, seed: u64) -> io::Result<()> {
    let mut out = io::BufWriter::new(io::stdout().lock());
    let mut written = Ok(());
    cases(count, seed, &mut |_, case| {
        if written.is_ok() {
            written = out.write_all(&case.request);
        }
    });
    written?;
    out.flush()
}

fn judge(count: usize, seed: u64) -> io::Result<bool> {
    let mut answers = io::BufReader::new(io::stdin().lock());
    let mut tally: BTreeMap<&str, Tally> = BTreeMap::new();
    cases(count, seed, &mut |name, case| {
        let entry = tally.entry(name).or_default();
        entry.all += 1;
        let verdict = match frame::take(&mut answers) {
            Some(answer) => (case.judge)(&answer),
            None => Verdict { wrong: Some("no answer".to_string()), ..Verdict::default() },
        };
        entry.aside += verdict.aside;
        entry.worst = entry.worst.into_iter().chain(verdict.error).reduce(f64::max);
        if let Some(wrong) = verdict.wrong {
            entry.wrong += 1;
            if entry.wrong <= 20 {
                println!("{name}: {wrong}; request {}", frame::hex(&case.request));
            }
        }
    });
    let mut rest = Vec::new();
    answers.read_to_end(&mut rest)?;
    let mut right = rest.is_empty();
    if !right {
        println!("{} bytes after the last answer", rest.len());
    }
    for (name, entry) in &tally {
        let worst = entry.worst.map(|e| format!(", at most 2^{e:.2} from the exact number")).unwrap_or_default();
        let aside = if entry.aside > 0 { format!(", {} planes right and not the Rust's", entry.aside) } else { String::new() };
        println!("{name}: {} requests, {} differ{worst}{aside}", entry.all, entry.wrong);
        right &= entry.wrong == 0;
    }
    Ok(right)
}

fn main() -> ExitCode {
    let words: Vec<String> = std::env::args().skip(1).collect();
    if words == ["differences"] {
        differences::print();
        return ExitCode::SUCCESS;
    }
    let numbers = || Some((words.get(1)?.parse().ok()?, words.get(2)?.parse().ok()?));
    let done = match (words.first().map(String::as_str), numbers()) {
        (Some("requests"), Some((count, seed))) => requests(count, seed).map(|()| true),
        (Some("judge"), Some((count, seed))) => judge(count, seed),
        (Some("mirror"), Some((count, seed))) if words.len() > 3 => mirror::run(count, seed, &words[3..]),
        (Some("play"), Some((length, frames))) => {
            println!("{:?}", speed::play(length, frames as usize));
            Ok(true)
        }
        _ => {
            eprintln!(
                "usage: oracle requests N SEED > requests; oracle judge N SEED < answers; oracle differences; oracle play L N; oracle mirror N SEED PROGRAM"
            );
            return ExitCode::from(2);
        }
    };
    match done {
        Ok(true) => ExitCode::SUCCESS,
        Ok(false) => ExitCode::FAILURE,
        Err(error) => {
            eprintln!("oracle: {error}");
            ExitCode::from(2)
        }
    }
}

#[cfg(test)]
mod tests {
    use super::*;

    /// Requests are read whole up to 65,536 bytes of arguments: no kind makes a longer one but that of longer ones.
    #[test]
    fn no_request_is_longer_than_is_read() {
        cases(1000, 1, &mut |name, case| assert!(name == "malformed" || case.request.len() <= 5 + 65536, "{name}"));
    }

    #[test]
    fn kinds_have_names_of_their_own() {
        for (i, kind) in KINDS.iter().enumerate() {
            assert!(KINDS[..i].iter().all(|earlier| earlier.name != kind.name), "{}", kind.name);
        }
    }
}
