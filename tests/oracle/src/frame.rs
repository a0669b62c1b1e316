//! Requests and answers as bytes: an operation, four bytes of length, and what follows, big-endian.
use std::io::Read;

/// What is wrong with an answer, if anything; how far it is from the exact number, as a power of two, where it is held
/// to one; and how many of its planes are right and not the Rust's, a difference that docs/DIFFERENCES.md lists.
#[derive(Default)]
pub struct Verdict {
    pub wrong: Option<String>,
    pub error: Option<f64>,
    pub aside: usize,
}

/// A request, and the judge of an answer to it.
pub struct Case {
    pub request: Vec<u8>,
    pub judge: Box<dyn Fn(&Answer) -> Verdict>,
}

/// Takes the cases of a kind as they are made, so that no more than one is held.
pub type Sink<'a> = dyn FnMut(Case) + 'a;

pub fn send(sink: &mut Sink, cases: impl IntoIterator<Item = Case>) {
    cases.into_iter().for_each(sink);
}

pub struct Answer {
    pub operation: u8,
    pub bytes: Vec<u8>,
}

pub fn request(operation: u8, arguments: &[u8]) -> Vec<u8> {
    let mut bytes = vec![operation];
    bytes.extend((arguments.len() as u32).to_be_bytes());
    bytes.extend(arguments);
    bytes
}

/// A case whose answer is known byte for byte.
pub fn exactly(request: Vec<u8>, operation: u8, bytes: Vec<u8>) -> Case {
    let judge = move |answer: &Answer| {
        let right = answer.operation == operation && answer.bytes == bytes;
        let wrong = (!right).then(|| format!("expected {operation} {}, got {} {}", hex(&bytes), answer.operation, hex(&answer.bytes)));
        Verdict { wrong, ..Verdict::default() }
    };
    Case { request, judge: Box::new(judge) }
}

/// A case whose answer is judged: the verdict, or why it is wrong.
pub fn judged(request: Vec<u8>, judge: impl Fn(&Answer) -> Result<Verdict, String> + 'static) -> Case {
    let told = move |answer: &Answer| {
        let wrong = |why| Verdict { wrong: Some(format!("{why}: {} {}", answer.operation, hex(&answer.bytes))), ..Verdict::default() };
        judge(answer).unwrap_or_else(wrong)
    };
    Case { request, judge: Box::new(told) }
}

/// Takes the next answer off the front, if there is a whole one.
pub fn take(answers: &mut impl Read) -> Option<Answer> {
    let mut head = [0; 5];
    answers.read_exact(&mut head).ok()?;
    let length = u32::from_be_bytes(head[1..].try_into().unwrap());
    let mut bytes = Vec::new();
    answers.take(u64::from(length)).read_to_end(&mut bytes).ok()?;
    (bytes.len() as u64 == u64::from(length)).then_some(Answer { operation: head[0], bytes })
}

/// The bytes of a float, every NaN as one.
pub fn f32_bytes(x: f32) -> [u8; 4] {
    if x.is_nan() { 0x7fc0_0000u32.to_be_bytes() } else { x.to_bits().to_be_bytes() }
}

pub fn f64_bytes(x: f64) -> [u8; 8] {
    if x.is_nan() { 0x7ff8_0000_0000_0000u64.to_be_bytes() } else { x.to_bits().to_be_bytes() }
}

/// Whether an answer passes, and neither another operation, nor one byte less or more, nor any one byte changed.
#[cfg(test)]
pub fn passes_alone(case: &Case, operation: u8, bytes: &[u8]) -> bool {
    let passes = |operation: u8, bytes: &[u8]| (case.judge)(&Answer { operation, bytes: bytes.to_vec() }).wrong.is_none();
    let mut changed = bytes.to_vec();
    let no_change_passes = (0..bytes.len()).all(|i| {
        [1, 0x80, 0xff].iter().all(|off| {
            changed[i] ^= off;
            let is_wrong = !passes(operation, &changed);
            changed[i] ^= off;
            is_wrong
        })
    });
    passes(operation, bytes) && no_change_passes && !passes(0, bytes) && !passes(operation, &bytes[1..]) && !passes(operation, &[bytes, &[0]].concat())
}

pub fn hex(bytes: &[u8]) -> String {
    let shown: String = bytes.iter().take(64).map(|b| format!("{b:02x}")).collect();
    if bytes.len() > 64 { format!("{shown}.. ({} bytes)", bytes.len()) } else { shown }
}

#[cfg(test)]
mod tests {
    use super::*;

    #[test]
    fn a_request_is_operation_length_and_arguments() {
        assert_eq!(request(7, &[1, 2, 3]), [7, 0, 0, 0, 3, 1, 2, 3]);
        assert_eq!(request(255, &[]), [255, 0, 0, 0, 0]);
        assert_eq!(request(1, &[9; 258])[..5], [1, 0, 0, 1, 2]);
    }

    #[test]
    fn answers_are_taken_whole_one_after_the_other() {
        let bytes = [request(7, &[1, 2, 3]), request(0, &[]), request(9, &[5])].concat();
        let mut rest = &bytes[..];
        for (operation, right) in [(7, &[1u8, 2, 3][..]), (0, &[]), (9, &[5])] {
            let answer = take(&mut rest).unwrap();
            assert_eq!((answer.operation, &answer.bytes[..]), (operation, right));
        }
        assert!(take(&mut rest).is_none());
        // One that is cut anywhere is none.
        for cut in 0..8 {
            assert!(take(&mut &bytes[..cut]).is_none(), "{cut}");
        }
    }

    #[test]
    fn an_answer_that_is_known_passes_alone() {
        let case = exactly(request(7, &[]), 7, vec![0, 1, 2]);
        let passes = |operation: u8, bytes: &[u8]| (case.judge)(&Answer { operation, bytes: bytes.to_vec() }).wrong.is_none();
        assert!(passes(7, &[0, 1, 2]));
        assert!(!passes(8, &[0, 1, 2]) && !passes(7, &[0, 1, 3]) && !passes(7, &[0, 1]) && !passes(7, &[0, 1, 2, 0]) && !passes(7, &[]));
    }

    #[test]
    fn every_nan_is_one_and_every_other_float_itself() {
        for bits in [0x7fc0_0000, 0xffc0_0000, 0x7f80_0001, 0xffff_ffff] {
            assert_eq!(f32_bytes(f32::from_bits(bits)), [0x7f, 0xc0, 0, 0]);
        }
        for bits in [0, 0x8000_0000, 1, 0x7f80_0000, 0xff80_0000, 0x3f80_0001u32] {
            assert_eq!(f32_bytes(f32::from_bits(bits)), bits.to_be_bytes());
        }
        for bits in [0x7ff8_0000_0000_0000, 0xfff8_0000_0000_0000, 0x7ff0_0000_0000_0001, u64::MAX] {
            assert_eq!(f64_bytes(f64::from_bits(bits)), [0x7f, 0xf8, 0, 0, 0, 0, 0, 0]);
        }
        for bits in [0, 1 << 63, 1, 0x7ff0_0000_0000_0000, 0xfff0_0000_0000_0000, 0x3ff0_0000_0000_0001u64] {
            assert_eq!(f64_bytes(f64::from_bits(bits)), bits.to_be_bytes());
        }
    }
}
