//! Drives a trial program with requests from a seed and compares its responses, byte for byte, with our own.
//!
//! A new process for each batch, through pipes. Each batch ends in another way (the input just ends, an unknown job, a
//! cut request, a list too long), after which nothing may be answered.

use crate::answer::MOST_PLACES;
use crate::hostile;
use crate::rng::Rng;
use crate::state_b::State;
use crate::tally::Tally;
use crate::trial::{response, Count, Request, MOST_BYTES, MOST_POINTS, OF_B};
use std::io::{self, Read, Write};
use std::process::{Command, Stdio};
use std::thread;

/// Requests of a process.
const BATCH: u64 = 1_000;

/// Differences that are printed.
pub(crate) const SHOWN: u64 = 10;

/// Compares the first `count` requests; writes differences, a tally and `N passed, M failed`. True if none failed.
pub fn compare(seed: u64, count: u64, jobs: &[u8], command: &[String], to: &mut impl Write) -> io::Result<bool> {
    let mut told = Told::default();
    for first in (0..count).step_by(BATCH as usize) {
        let last = count.min(first + BATCH);
        let requests: Vec<Request> = (first..last).map(|index| hostile::request(seed, index, jobs)).collect();
        told.batch(
            &format!("seed {seed}"),
            first,
            &requests,
            &ending(&mut Rng::of_request(!seed, first)),
            command,
            to,
        )?;
    }
    told.end(to)
}

/// The same for requests that are given, in one process.
pub fn compare_all(requests: &[Request], command: &[String], to: &mut impl Write) -> io::Result<bool> {
    let mut told = Told::default();
    told.batch("those given", 0, requests, &[], command, to)?;
    told.end(to)
}

/// What has been compared so far.
#[derive(Default)]
struct Told {
    count: u64,
    failed: u64,
    tally: Tally,
}

impl Told {
    /// One process: requests of a name, numbered from the first, and what ends them.
    fn batch(
        &mut self,
        name: &str,
        first: u64,
        requests: &[Request],
        ending: &[u8],
        command: &[String],
        to: &mut impl Write,
    ) -> io::Result<()> {
        let mut input: Vec<u8> = requests.iter().flat_map(Request::to_bytes).collect();
        input.extend(ending);
        // The other program works while we do.
        let tally = &mut self.tally;
        let (expected, got) = thread::scope(|scope| {
            let other = scope.spawn(|| run(command, &input));
            let expected: Vec<Vec<u8>> = requests.iter().map(|request| answered(request.clone(), tally)).collect();
            (expected, other.join().expect("no panic"))
        });
        self.count += requests.len() as u64;
        for (number, text) in differences(requests, &expected, &got) {
            self.failed += 1;
            if self.failed <= SHOWN {
                writeln!(to, "request {} of {name}: {text}", first + number as u64)?;
            }
        }
        Ok(())
    }

    fn end(self, to: &mut impl Write) -> io::Result<bool> {
        writeln!(to, "{}\n{} passed, {} failed", self.tally, self.count - self.failed, self.failed)?;
        Ok(self.failed == 0)
    }
}

/// The requests of a batch that were not answered as expected: their numbers, and what is different.
fn differences(requests: &[Request], expected: &[Vec<u8>], got: &Got) -> Vec<(usize, String)> {
    let mut found = Vec::new();
    let mut rest = &got.output[..];
    for (number, (request, expected)) in requests.iter().zip(expected).enumerate() {
        let (response, after) = rest.split_at(rest.len().min(expected.len()));
        rest = after;
        if response != expected {
            found.push((number, format!("{}\n{}", described(request), difference(request, expected, response))));
        }
    }
    // What comes too much, and a crash, count against the last request of the batch.
    let last = requests.len() - 1;
    if (!rest.is_empty() || got.trouble.is_some()) && found.last().is_none_or(|(number, _)| *number != last) {
        found.push((last, format!("after it {} bytes too many; trouble: {:?}", rest.len(), got.trouble)));
    }
    found
}

/// Our response to a request.
fn answered(mut request: Request, tally: &mut Tally) -> Vec<u8> {
    let answer = request.call();
    tally.add(&request, &answer);
    response(&request, answer)
}

/// What another program did.
#[derive(Default)]
pub(crate) struct Got {
    pub(crate) output: Vec<u8>,
    /// Why it could not be run, or that it was killed.
    pub(crate) trouble: Option<String>,
}

/// Runs a program on this input.
pub(crate) fn run(command: &[String], input: &[u8]) -> Got {
    let spawned = Command::new(&command[0]).args(&command[1..]).stdin(Stdio::piped()).stdout(Stdio::piped()).spawn();
    let mut child = match spawned {
        Ok(child) => child,
        Err(error) => return Got { trouble: Some(format!("{}: {error}", command[0])), ..Got::default() },
    };
    let mut stdin = child.stdin.take().expect("a pipe");
    let mut stdout = child.stdout.take().expect("a pipe");
    let mut output = Vec::new();
    let read = thread::scope(|scope| {
        // A program that has ended reads no more: a broken pipe is no trouble.
        scope.spawn(move || stdin.write_all(input));
        stdout.read_to_end(&mut output)
    });
    let trouble = match (read, child.wait()) {
        (Err(error), _) | (_, Err(error)) => Some(error.to_string()),
        (_, Ok(status)) if status.code().is_none() => Some(status.to_string()),
        _ => None,
    };
    Got { output, trouble }
}

/// Bytes that end a run: none, or something that is no request, and then a good request that may not be answered.
fn ending(rng: &mut Rng) -> Vec<u8> {
    let good = Request::Encode { code: 9, word: vec![1; 5], out: vec![2; 5] }.to_bytes();
    let (bytes, points) = (vec![1; MOST_BYTES + 1], vec![1; MOST_POINTS + 1]);
    let (none, few) = (vec![], vec![]);
    match rng.below(13) {
        0 => vec![],
        1 => {
            // In the place of a job byte, or before one.
            let skipped = rng.below(2);
            [vec![rng.pick(&[0, 17, 64, 128, 255])], good[skipped..].to_vec(), good].concat()
        }
        2 => {
            let whole = hostile::request(rng.draw(), 0, &[1, 2, 3, 4, 5, 6]).to_bytes();
            whole[..rng.between(1, whole.len() - 1)].to_vec()
        }
        3 => vec![1, 1, 255, 255, 255, 255],
        4 => [Request::Decode { code: 1, word: bytes, out: few }.to_bytes(), good].concat(),
        5 => [Request::Decode { code: 1, word: few, out: bytes }.to_bytes(), good].concat(),
        6 => [Request::SendA { mode: 1, frame: few, i: points, q: none }.to_bytes(), good].concat(),
        7 => [Request::ReceiveA { mode: 1, i: none, q: points, area: few }.to_bytes(), good].concat(),
        8 => {
            let whole = hostile::request(rng.draw(), 0, &[7, 8]).to_bytes();
            whole[..rng.between(1, whole.len() - 1)].to_vec()
        }
        9 => {
            let (i, q, out_q) = (none.clone(), none.clone(), none);
            [Request::DecideA { mode: 1, i, q, out_i: points, out_q }.to_bytes(), good].concat()
        }
        10 => {
            let (i, q, out_i) = (none.clone(), none.clone(), none);
            let scheme = vec![2; 210];
            [Request::DecideB { mode: 0, length: 1, scheme, i, q, out_i, out_q: points }.to_bytes(), good].concat()
        }
        11 => {
            let state = vec![0; rng.pick(&[0, 1, 325, 327, 652])];
            [Request::StepB { state, i: none.clone(), q: none, area: few }.to_bytes(), good].concat()
        }
        _ => {
            // Cut in the fields of its opening. A stream that is cut in its calls may be answered in part.
            let opening = Request::StreamB { mode: 0, length: 1, scheme: vec![2; 210], area: few, calls: vec![] };
            let whole = opening.to_bytes();
            whole[..rng.between(1, whole.len() - 9)].to_vec()
        }
    }
}

/// A request in a line: its job, and the lengths of its lists.
pub fn described(request: &Request) -> String {
    let job = request.name();
    match request {
        Request::Encode { code, word, out } | Request::Decode { code, word, out } => {
            format!("{job}, code {code}, word of {}, out of {}", word.len(), out.len())
        }
        Request::SendA { mode, frame, i, q } => {
            format!("{job}, mode {mode}, frame of {}, I of {}, Q of {}", frame.len(), i.len(), q.len())
        }
        Request::ReceiveA { mode, i, q, area } => {
            format!("{job}, mode {mode}, I of {}, Q of {}, area of {}", i.len(), q.len(), area.len())
        }
        Request::SendB { mode, frame, scheme, i, q } => {
            let lists = format!("frame of {}, scheme of {}", frame.len(), scheme.len());
            format!("{job}, mode {mode}, {lists}, I of {}, Q of {}", i.len(), q.len())
        }
        Request::ReceiveB { mode, length, scheme, i, q, area } => {
            let lists = format!("I of {}, Q of {}, area of {}", i.len(), q.len(), area.len());
            format!("{job}, mode {mode}, frame length {length}, scheme of {}, {lists}", scheme.len())
        }
        Request::DecideA { mode, i, q, out_i, out_q } => {
            format!("{job}, mode {mode}, {}", decided_lists([i, q, out_i, out_q]))
        }
        Request::DecideB { mode, length, scheme, i, q, out_i, out_q } => {
            let lists = decided_lists([i, q, out_i, out_q]);
            format!("{job}, mode {mode}, frame length {length}, scheme of {}, {lists}", scheme.len())
        }
        Request::StreamB { mode, length, scheme, area, calls } => {
            let lists = format!("scheme of {}, area of {}", scheme.len(), area.len());
            format!("{job}, mode {mode}, frame length {length}, {lists}, {} calls", calls.len())
        }
        Request::StepB { state, i, q, area } => {
            let state = State::of_bytes(state).map_or("no state".to_string(), |state| state.to_string());
            format!("{job}, {state}, I of {}, Q of {}, area of {}", i.len(), q.len(), area.len())
        }
    }
}

/// The lengths of the lists that a decision reads and writes.
fn decided_lists([i, q, out_i, out_q]: [&Vec<i16>; 4]) -> String {
    format!("I of {}, Q of {}, out I of {}, out Q of {}", i.len(), q.len(), out_i.len(), out_q.len())
}

/// Both heads, and the first byte where the responses part.
pub(crate) fn difference(request: &Request, expected: &[u8], got: &[u8]) -> String {
    let at = expected.iter().zip(got).position(|(e, g)| e != g).unwrap_or(got.len().min(expected.len()));
    let mut heads = format!("  expected {}\n  got      {}", head(request, expected), head(request, got));
    if let Some((number, begin)) = call_at(request, at) {
        let call = |response: &[u8]| head_of(&eights_of(&OF_B), response.get(begin..).unwrap_or_default());
        heads +=
            &format!("\n  expected of call {number} {}\n  got      of call {number} {}", call(expected), call(got));
    }
    format!("{heads}\n  of {} bytes, {} came; first difference at {}", expected.len(), got.len(), part(request, at))
}

/// What a job's response has after its number, eight bytes each: the place, and its counts.
fn eights(request: &Request) -> Vec<&'static str> {
    eights_of(request.counts())
}

fn eights_of(counts: &[Count]) -> Vec<&'static str> {
    ["place"].into_iter().chain(counts.iter().map(|(name, _)| *name)).collect()
}

/// The call of a stream whose answer the byte at an offset belongs to: its number, and where its answer begins.
fn call_at(request: &Request, at: usize) -> Option<(usize, usize)> {
    let Request::StreamB { area, calls, .. } = request else {
        return None;
    };
    let opening = 1 + 8 * eights(request).len();
    let each = 1 + 8 * eights_of(&OF_B).len() + 4 + area.len();
    let number = at.checked_sub(opening)? / each;
    (number < calls.len()).then_some((number, opening + number * each))
}

/// The lists of mended places that it has after them.
fn lists_of_places(request: &Request) -> &'static [&'static str] {
    [&[][..], &["places"], &["first places", "second places"]][request.lists_of_places()]
}

/// Number, place, counts and lists of mended places of a response, as far as it has them.
fn head(request: &Request, response: &[u8]) -> String {
    let eights = eights(request);
    let mut text = head_of(&eights, response);
    let after = response.get(1 + 8 * eights.len()..).unwrap_or_default();
    for (name, list) in lists_of_places(request).iter().zip(after.chunks_exact(2 * MOST_PLACES)) {
        let places: Vec<u16> = list.chunks(2).map(|two| u16::from_le_bytes([two[0], two[1]])).collect();
        text += &format!(" {name} {places:?}");
    }
    text
}

/// Number, and the values of these names behind it, as far as it has them.
fn head_of(eights: &[&str], response: &[u8]) -> String {
    let Some(number) = response.first() else {
        return "nothing".to_string();
    };
    let mut text = format!("number {number}");
    for (name, eight) in eights.iter().zip(response[1..].chunks_exact(8)) {
        text += &format!(" {name} {}", u64::from_le_bytes(eight.try_into().expect("eight bytes")));
    }
    text
}

/// Which part of the answer to a call of a stream the byte at an offset belongs to.
fn part_of_call(at: usize) -> String {
    let eights = eights_of(&OF_B);
    let area = 1 + 8 * eights.len() + 4;
    match at {
        0 => "the number".to_string(),
        _ if at >= area => format!("area[{}]", at - area),
        _ => format!("in {}", eights.get((at - 1) / 8).unwrap_or(&"the count of area")),
    }
}

/// Which part of a response the byte at an offset belongs to.
fn part(request: &Request, at: usize) -> String {
    if let Some((number, begin)) = call_at(request, at) {
        return format!("byte {at}, call {number}, {}", part_of_call(at - begin));
    }
    if at == 0 {
        return "byte 0, the number".to_string();
    }
    let eights = eights(request);
    if let Some(name) = eights.get((at - 1) / 8) {
        return format!("byte {at}, in {name}");
    }
    let mut begin = 1 + 8 * eights.len();
    for name in lists_of_places(request) {
        if at < begin + 2 * MOST_PLACES {
            return format!("byte {at}, {name}[{}]", (at - begin) / 2);
        }
        begin += 2 * MOST_PLACES;
    }
    let lists: Vec<(&str, usize, usize)> = match request {
        Request::Encode { out, .. } | Request::Decode { out, .. } => vec![("out", 1, out.len())],
        Request::ReceiveA { area, .. } | Request::ReceiveB { area, .. } => vec![("area", 1, area.len())],
        Request::SendA { i, q, .. } | Request::SendB { i, q, .. } => vec![("I", 2, i.len()), ("Q", 2, q.len())],
        Request::DecideA { out_i, out_q, .. } | Request::DecideB { out_i, out_q, .. } => {
            vec![("out I", 2, out_i.len()), ("out Q", 2, out_q.len())]
        }
        Request::StreamB { .. } => vec![],
        Request::StepB { state, area, .. } => vec![("state", 1, state.len()), ("area", 1, area.len())],
    };
    for (name, width, count) in lists {
        if at < begin + 4 {
            return format!("byte {at}, in the count of {name}");
        }
        if at < begin + 4 + width * count {
            return format!("byte {at}, {name}[{}]", (at - begin - 4) / width);
        }
        begin += 4 + width * count;
    }
    format!("byte {at}, the end")
}

#[cfg(test)]
mod tests {
    use super::*;
    use crate::answer::Counts;
    use crate::trial::Call;
    use crate::{payload_a, payload_b};

    fn compared(script: &str, count: u64) -> (bool, String) {
        let command: Vec<String> = ["sh", "-c", script].map(String::from).to_vec();
        let mut text = Vec::new();
        let all = compare(1, count, &[1, 2], &command, &mut text).unwrap();
        (all, String::from_utf8(text).unwrap())
    }

    #[test]
    fn a_program_that_answers_nothing_fails_every_request() {
        let (all, text) = compared("exit 0", 7);
        assert!(!all && text.ends_with("0 passed, 7 failed\n"), "{text}");
        let (all, text) = compared("cat > /dev/null; kill -9 $$", 3);
        assert!(!all && text.ends_with("0 passed, 3 failed\n"), "{text}");
    }

    #[test]
    fn a_program_that_is_not_there_fails_every_request() {
        let mut text = Vec::new();
        assert!(!compare(1, 5, &[1], &["./no-such-program".to_string()], &mut text).unwrap());
        assert!(text.ends_with(b"0 passed, 5 failed\n"));
    }

    #[test]
    fn endings_are_never_answered() {
        let mut rng = Rng::new(1);
        for _ in 0..60 {
            let mut output = Vec::new();
            crate::trial::run(&mut &ending(&mut rng)[..], &mut output).unwrap();
            assert!(output.is_empty());
        }
    }

    #[test]
    fn too_much_output_and_a_crash_count_against_the_last_request() {
        let requests = vec![Request::Encode { code: 0, word: vec![], out: vec![] }; 3];
        let expected: Vec<Vec<u8>> = requests.iter().map(|r| answered(r.clone(), &mut Tally::default())).collect();
        let mut got = Got { output: expected.concat(), trouble: None };
        assert_eq!(differences(&requests, &expected, &got), []);
        got.trouble = Some("killed".to_string());
        assert_eq!(differences(&requests, &expected, &got)[0].0, 2);
        got = Got { output: [expected.concat(), vec![0]].concat(), trouble: None };
        assert_eq!(differences(&requests, &expected, &got)[0].0, 2);
        got.output[0] = 7;
        let numbers: Vec<usize> = differences(&requests, &expected, &got).iter().map(|d| d.0).collect();
        assert_eq!(numbers, [0, 2]);
    }

    #[test]
    fn differences_are_named() {
        let request = Request::ReceiveA { mode: 1, i: vec![], q: vec![], area: vec![5; 3] };
        let expected = answered(request.clone(), &mut Tally::default());
        let mut got = expected.clone();
        got[103] = 6;
        assert!(difference(&request, &expected, &got).ends_with("at byte 103, area[2]"));
        got[97] = 6;
        assert!(difference(&request, &expected, &got).ends_with("at byte 97, in the count of area"));
        got[9] = 7;
        assert!(difference(&request, &expected, &got).contains("number 3 place 0 mended 7 protected 0 worst 0"));
    }

    #[test]
    fn counts_that_differ_are_named() {
        let a = Request::ReceiveA { mode: 1, i: vec![], q: vec![], area: vec![] };
        let b = Request::ReceiveB { mode: 1, length: 0, scheme: vec![], i: vec![], q: vec![], area: vec![] };
        let decode = Request::Decode { code: 1, word: vec![], out: vec![] };
        let send = Request::SendA { mode: 1, frame: vec![], i: vec![], q: vec![] };
        let all: [(Request, &[&str]); 4] = [
            (a, &["place", "mended", "protected", "worst"]),
            (b, &["place", "mended", "worst"]),
            (decode, &["place", "mended"]),
            (send, &["place"]),
        ];
        for (request, names) in all {
            assert_eq!(part(&request, 0), "byte 0, the number");
            for (number, name) in names.iter().enumerate() {
                for at in [8 * number + 1, 8 * number + 8] {
                    assert_eq!(part(&request, at), format!("byte {at}, in {name}"));
                }
            }
            assert!(names.iter().all(|name| !part(&request, 8 * names.len() + 1).ends_with(name)));
        }
    }

    #[test]
    fn decided_points_that_differ_are_named() {
        let (i, q, out_i, out_q) = (vec![64; 512], vec![0; 513], vec![7; 512], vec![8; 514]);
        let a = Request::DecideA { mode: 1, i, q, out_i, out_q };
        let (i, q, out_i, out_q) = (vec![64; 256], vec![0; 257], vec![7; 512], vec![8; 514]);
        let b = Request::DecideB { mode: 0, length: 2, scheme: vec![4; 210], i, q, out_i, out_q };
        let lists = "I of 512, Q of 513, out I of 512, out Q of 514";
        assert_eq!(described(&a), format!("decide A, mode 1, {lists}"));
        let lists = "scheme of 210, I of 256, Q of 257, out I of 512, out Q of 514";
        assert_eq!(described(&b), format!("decide B, mode 0, frame length 2, {lists}"));
        for request in [a, b] {
            let expected = answered(request.clone(), &mut Tally::default());
            // Nine bytes of number and place, then the lists and their counts.
            assert_eq!(expected.len(), 9 + 4 + 2 * 512 + 4 + 2 * 514);
            for (at, text) in [
                (0, "byte 0, the number"),
                (8, "byte 8, in place"),
                (9, "byte 9, in the count of out I"),
                (13, "byte 13, out I[0]"),
                (14, "byte 14, out I[0]"),
                (1_036, "byte 1036, out I[511]"),
                (1_040, "byte 1040, in the count of out Q"),
                (1_041, "byte 1041, out Q[0]"),
                (2_068, "byte 2068, out Q[513]"),
            ] {
                let mut got = expected.clone();
                got[at] ^= 1;
                let difference = difference(&request, &expected, &got);
                assert!(difference.ends_with(text), "{difference}");
                assert!(difference.contains("  expected number 0 place 0\n"), "{difference}");
            }
            assert_eq!(part(&request, expected.len()), "byte 2069, the end");
        }
    }

    #[test]
    fn calls_of_a_stream_are_named() {
        let call = Call { i: vec![], q: vec![], after: None };
        let request =
            Request::StreamB { mode: 0, length: 2, scheme: vec![2; 210], area: vec![5; 3], calls: vec![call; 2] };
        let expected = answered(request.clone(), &mut Tally::default());
        // Nine bytes of the opening, and of each call 25 of its answer, the area's count, and its three bytes.
        assert_eq!(expected.len(), 9 + 2 * 32);
        for (at, text) in [
            (0, "byte 0, the number"),
            (8, "byte 8, in place"),
            (9, "byte 9, call 0, the number"),
            (25, "byte 25, call 0, in mended"),
            (26, "byte 26, call 0, in worst"),
            (34, "byte 34, call 0, in the count of area"),
            (40, "byte 40, call 0, area[2]"),
            (41, "byte 41, call 1, the number"),
            (42, "byte 42, call 1, in place"),
            (72, "byte 72, call 1, area[2]"),
            (73, "byte 73, the end"),
        ] {
            assert_eq!(part(&request, at), text);
        }
        let mut got = expected.clone();
        got[42] = 7;
        let text = difference(&request, &expected, &got);
        assert!(text.contains("expected of call 1 number 3 place 0 mended 0 worst 0\n"), "{text}");
        assert!(text.contains("got      of call 1 number 3 place 7 mended 0 worst 0\n"), "{text}");
        assert!(text.ends_with("byte 42, call 1, in place"), "{text}");
    }

    /// The difference that a receiver makes which answers this in the place of the worst.
    fn with_worst(mut request: Request, worst: u64) -> String {
        let counts = request.call().unwrap();
        let wrong = Counts { worst, ..counts };
        difference(&request, &response(&request, Ok(counts)), &response(&request, Ok(wrong)))
    }

    #[test]
    fn a_count_of_another_block_than_the_worst_is_named() {
        // 1, 3 and 2 hits in the three blocks.
        let (i, q) = payload_b::tests::hit(1, &[6; 177], &[2; 210], &[7, 508, 700, 1015, 1016, 1523]);
        let b = Request::ReceiveB { mode: 1, length: 177, scheme: vec![2; 210], i, q, area: vec![9; 177] };
        let heads = "  expected number 0 place 0 mended 6 worst 3\n  got      number 0 place 0 mended 6 worst 2\n";
        let text = with_worst(b, 2);
        assert_eq!(text, format!("{heads}  of 206 bytes, 206 came; first difference at byte 17, in worst"));
        // 2 and 1 in the two halves.
        let (i, q) = payload_a::tests::hit(1, &payload_a::with_check(&[6; 58]), &[0, 300, 393], &[0]);
        let text = with_worst(Request::ReceiveA { mode: 1, i, q, area: vec![9; 58] }, 1);
        assert!(text.contains("expected number 0 place 0 mended 3 protected 1 worst 2 first places"), "{text}");
        assert!(text.contains("got      number 0 place 0 mended 3 protected 1 worst 1 first places"), "{text}");
        assert!(text.ends_with("at byte 25, in worst"), "{text}");
    }

    #[test]
    fn places_that_differ_are_named() {
        let request = Request::ReceiveA { mode: 1, i: vec![], q: vec![], area: vec![5; 3] };
        let expected = answered(request.clone(), &mut Tally::default());
        let zeros = "0, 0, 0, 0, 0, 0, 0, 0, 0, 0, 0, 0, 0, 0, 0";
        for (at, name) in [(33, "first places[0]"), (64, "first places[15]"), (65, "second places[0]")] {
            let mut got = expected.clone();
            got[at] = 1;
            let text = difference(&request, &expected, &got);
            assert!(text.ends_with(&format!("at byte {at}, {name}")), "{text}");
        }
        let mut got = expected.clone();
        (got[96], got[65]) = (1, 3);
        let text = difference(&request, &expected, &got[..97]);
        let lists = format!(" first places [0, {zeros}] second places [3, {}, 256]\n", &zeros[3..]);
        assert!(text.contains(&lists), "{text}");
        // A list that is cut is not shown.
        let text = difference(&request, &expected, &got[..96]);
        assert!(text.contains(&format!(" first places [0, {zeros}]\n  of 104 bytes, 96 came;")), "{text}");
        let request = Request::Decode { code: 1, word: vec![], out: vec![5; 3] };
        let expected = answered(request.clone(), &mut Tally::default());
        let mut got = expected.clone();
        got[19] = 7;
        let text = difference(&request, &expected, &got);
        assert!(text.contains(&format!("mended 0 places [0, 7, {}]\n", &zeros[3..])), "{text}");
        assert!(text.ends_with("at byte 19, places[1]"), "{text}");
        assert_eq!(part(&request, 49), "byte 49, in the count of out");
    }
}
