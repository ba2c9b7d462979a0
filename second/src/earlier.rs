//! Drives a trial program across the two rules of the frame check: what it sends must be refused by a receiver of the
//! earlier rule, and what a sender of the earlier rule made must be refused by it.
//!
//! Frames of mode 1 go clean, and again with 16 hits in each half, bits flipped between the code and DQPSK: so that
//! what is mended is checked by the same rule. Whoever accepts them answers these places, full lists of both halves.
//!
//! Two processes for each batch: the first sends the frames, the second receives what the first one sent, and what the
//! earlier rule sends.

use crate::answer::{listed, Answer, Counts, Places, Refusal};
use crate::bits::differing;
use crate::check::{Rule, EARLIER, RULE};
use crate::compare::{difference, run, Got, SHOWN};
use crate::hostile::{bytes_of_a_frame, flip};
use crate::payload_a::{frame_bytes, framed, receive_by, send_by, with_fields, POINTS, SEGMENT};
use crate::rng::Rng;
use crate::trial::{levels, response, Request};
use crate::{dqpsk, grid};
use std::io::{self, Write};

/// Frames of each mode in a batch.
const BATCH: u64 = 250;

/// Hits in each half of a frame that is hit: as many as code 3 mends.
const HITS: usize = 16;

/// What is compared for each frame.
const COMPARED: [&str; 4] = [
    "the points it sent, received here by the earlier rule",
    "the points it sent, received here by the rule of request 6",
    "points sent here by the earlier rule, received by it",
    "the points it sent, received by it",
];

/// The answer to points by the other rule.
const REFUSED: Answer = Err(Refusal::WrongCheck);

/// I and Q.
type Points = (Vec<i16>, Vec<i16>);

/// A whole response, the points that were sent, a comparison that holds: or why not.
type Reply = Result<Vec<u8>, String>;
type Sent = Result<Points, String>;
type Outcome = Result<(), String>;

/// Compares `count` frames of each mode; writes differences and `N passed, M failed`. True if none failed.
pub fn earlier(seed: u64, count: u64, command: &[String], to: &mut impl Write) -> io::Result<bool> {
    drive(seed, count, |input| run(command, input), to)
}

/// The same with anything that answers requests in the place of a command.
fn drive(seed: u64, count: u64, program: impl Fn(&[u8]) -> Got, to: &mut impl Write) -> io::Result<bool> {
    let (mut passed, mut failed) = (0u64, 0u64);
    for first in (0..count).step_by(BATCH as usize) {
        let last = count.min(first.saturating_add(BATCH));
        let frames: Vec<Frame> = (first..last).flat_map(|index| Frame::all(seed, index)).collect();
        for (frame, outcomes) in frames.iter().zip(outcomes(&frames, &program)) {
            for (what, outcome) in COMPARED.iter().zip(outcomes) {
                let Err(text) = outcome else {
                    passed += 1;
                    continue;
                };
                failed += 1;
                if failed <= SHOWN {
                    let Frame { index, mode, hits, .. } = frame;
                    let hits = hits.len();
                    writeln!(to, "frame {index} of mode {mode} of seed {seed}, {hits} hits: {what}:\n{text}")?;
                }
            }
        }
    }
    writeln!(to, "{passed} passed, {failed} failed")?;
    Ok(failed == 0)
}

/// Whether each of the four comparisons of each frame holds, or what is different.
fn outcomes(frames: &[Frame], program: impl Fn(&[u8]) -> Got) -> Vec<[Outcome; 4]> {
    let sends: Vec<Request> = frames.iter().map(Frame::send).collect();
    let replied = frames.iter().zip(replies(&sends, &program));
    let sent: Vec<Sent> = replied.map(|(frame, reply)| Ok(frame.hit(points_of(reply)?))).collect();
    let both = frames.iter().zip(&sent);
    let receives: Vec<Request> = both.clone().flat_map(|(frame, sent)| frame.receives(sent)).collect();
    let received = replies(&receives, &program);
    both.zip(received.chunks(2)).map(|((frame, sent), received)| frame.outcomes(sent, received)).collect()
}

/// The program's replies to these requests. What comes too much, and a crash, count against the last one.
fn replies(requests: &[Request], program: impl Fn(&[u8]) -> Got) -> Vec<Reply> {
    let got = program(&requests.iter().flat_map(Request::to_bytes).collect::<Vec<u8>>());
    let mut rest = &got.output[..];
    let mut replies: Vec<Reply> = Vec::new();
    for request in requests {
        // Its length does not depend on the answer.
        let length = response(request, REFUSED).len();
        let (reply, after) = rest.split_at(rest.len().min(length));
        rest = after;
        let came = reply.len();
        let cut = || format!("  of {length} bytes, {came} came; trouble: {:?}", got.trouble);
        replies.push(if came == length { Ok(reply.to_vec()) } else { Err(cut()) });
    }
    if let (Some(last @ Ok(_)), true) = (replies.last_mut(), !rest.is_empty() || got.trouble.is_some()) {
        *last = Err(format!("  after it {} bytes too many; trouble: {:?}", rest.len(), got.trouble));
    }
    replies
}

/// The points of a reply to job 3 that is accepted with both lists as long as they were lent.
fn points_of(reply: Reply) -> Sent {
    let reply = reply?;
    let (head, mut lists) = reply.split_at(9);
    match (levels(&mut lists), levels(&mut lists)) {
        (Some(i), Some(q)) if head == [0; 9] && i.len() == POINTS && q.len() == POINTS => Ok((i, q)),
        _ => Err(format!("  no points came; its number and place: {head:?}")),
    }
}

/// The places of hits in both halves, among the 840 bits: none is a protected one. And those of each half, in the half.
fn hits(rng: &mut Rng) -> (Vec<usize>, [Places; 2]) {
    const HALF: usize = 2 * SEGMENT;
    let mut halves = [0; 2 * HALF];
    halves.chunks_mut(HALF).for_each(|half| flip(rng, half, HITS));
    let places = [0, HALF].map(|begin| listed(&differing(&halves[begin..begin + HALF], &[0; HALF])));
    (differing(&with_fields(&halves), &with_fields(&[0; 2 * HALF])), places)
}

/// A frame, an area to receive it into, which of its 840 bits are hit on the way, and which places of its halves.
#[derive(Clone)]
struct Frame {
    index: u64,
    mode: u8,
    bytes: Vec<u8>,
    area: Vec<u8>,
    hits: Vec<usize>,
    places: [Places; 2],
}

impl Frame {
    /// The frame of each mode that has this index, and that of mode 1 once more with hits.
    fn all(seed: u64, index: u64) -> [Frame; 3] {
        let mut rng = Rng::of_request(seed, index);
        let [uncoded, coded] = [0, 1].map(|mode| {
            let length = frame_bytes(mode).expect("0 or 1");
            let (bytes, area) = (bytes_of_a_frame(&mut rng, length), rng.bytes(length + 3));
            Frame { index, mode, bytes, area, hits: vec![], places: [listed(&[]); 2] }
        });
        let (hits, places) = hits(&mut rng);
        let hit = Frame { hits, places, ..coded.clone() };
        [uncoded, coded, hit]
    }

    fn send(&self) -> Request {
        Request::SendA { mode: self.mode, frame: self.bytes.clone(), i: vec![9; POINTS], q: vec![-9; POINTS] }
    }

    /// The points after its hits. Points that carry no bits stay as they are: that is what they are refused for.
    fn hit(&self, (mut i, mut q): Points) -> Points {
        if let Ok(mut bits) = framed(&i, &q) {
            self.hits.iter().for_each(|&place| bits[place] ^= 1);
            grid::write(&dqpsk::points(&bits), &mut i, &mut q);
        }
        (i, q)
    }

    /// To receive the points of the earlier rule, and those the program sent, none if none came.
    fn receives(&self, sent: &Sent) -> [Request; 2] {
        let sent = sent.clone().unwrap_or_default();
        [self.by_earlier(), sent].map(|(i, q)| Request::ReceiveA { mode: self.mode, i, q, area: self.area.clone() })
    }

    /// The points of a sender of the earlier rule, hit.
    fn by_earlier(&self) -> Points {
        let (mut i, mut q) = (vec![9; POINTS], vec![-9; POINTS]);
        send_by(EARLIER, self.mode, &self.bytes, &mut i, &mut q).expect("a frame that fits");
        self.hit((i, q))
    }

    /// The response of a receiver of this rule.
    fn received(&self, rule: Rule, (i, q): &Points) -> Vec<u8> {
        let mut area = self.area.clone();
        let answer = receive_by(rule, self.mode, i, q, &mut area);
        response(&self.after(area), answer)
    }

    /// In the order of `COMPARED`, from the points that the program sent and its replies to `receives`.
    fn outcomes(&self, sent: &Sent, received: &[Reply]) -> [Outcome; 4] {
        let mended = self.hits.len() as u64;
        // Both halves are hit alike.
        let accepted = Ok(Counts { mended, worst: mended / 2, places: self.places, ..Counts::default() });
        let here = |rule| sent.clone().map(|points| self.received(rule, &points));
        let there = |number: usize| received[number].clone();
        [
            self.compared(REFUSED, here(EARLIER)),
            self.compared(accepted, here(RULE)),
            self.compared(REFUSED, there(0)),
            self.compared(accepted, sent.clone().and(there(1))),
        ]
    }

    /// Compares a receiver's reply with this answer and the area that goes with it: the frame, or as it was lent.
    fn compared(&self, answer: Answer, reply: Reply) -> Outcome {
        let written = if answer.is_ok() { self.bytes.len() } else { 0 };
        let after = self.after([&self.bytes[..written], &self.area[written..]].concat());
        let (expected, got) = (response(&after, answer), reply?);
        if got == expected {
            Ok(())
        } else {
            Err(difference(&after, &expected, &got))
        }
    }

    /// A call to receive that was made and left this area: a response needs no more of it.
    fn after(&self, area: Vec<u8>) -> Request {
        Request::ReceiveA { mode: self.mode, i: vec![], q: vec![], area }
    }
}

#[cfg(test)]
mod tests {
    use super::*;
    use crate::check::OTHERS;
    use crate::trial::read_request;

    /// A program in the place of a command: it makes every call in this way.
    fn program(call: impl Fn(&mut Request) -> Answer) -> impl Fn(&[u8]) -> Got {
        move |mut input| {
            let mut output = Vec::new();
            while let Some(mut request) = read_request(&mut input) {
                let answer = call(&mut request);
                output.extend(response(&request, answer));
            }
            Got { output, trouble: None }
        }
    }

    fn by(rule: Rule) -> impl Fn(&mut Request) -> Answer {
        move |request| match request {
            Request::SendA { mode, frame, i, q } => send_by(rule, *mode, frame, i, q),
            Request::ReceiveA { mode, i, q, area } => receive_by(rule, *mode, i, q, area),
            _ => unreachable!("only jobs 3 and 4"),
        }
    }

    /// How many passed and failed of the comparisons with five frames of each mode, 20 of mode 0 and 40 of mode 1.
    fn counts(program: impl Fn(&[u8]) -> Got) -> (u64, u64) {
        let mut text = Vec::new();
        let all = drive(1, 5, program, &mut text).unwrap();
        let text = String::from_utf8(text).unwrap();
        let words: Vec<&str> = text.lines().last().unwrap().split(' ').collect();
        assert_eq!((words[1], words[3], words.len()), ("passed,", "failed", 4), "{text}");
        let (passed, failed) = (words[0].parse().unwrap(), words[2].parse().unwrap());
        assert_eq!((passed + failed, failed == 0), (60, all), "{text}");
        (passed, failed)
    }

    #[test]
    fn the_rule_of_request_6_passes_and_no_other_does() {
        assert_eq!(counts(program(Request::call)), (60, 0));
        assert_eq!(counts(program(by(RULE))), (60, 0));
        // Of the earlier rule only what it sends to itself comes through. A rule with one of the two changes agrees
        // with neither, so that only our receiver misses its frames.
        assert_eq!(OTHERS.map(|rule| counts(program(by(rule)))), [(15, 45), (45, 15), (45, 15)]);
    }

    #[test]
    fn receivers_that_are_lax_or_harsh_or_write_before_they_refuse_fail() {
        let lax = |request: &mut Request| request.call().or_else(|_| by(EARLIER)(request));
        assert_eq!(counts(program(lax)), (45, 15));
        let harsh = |request: &mut Request| if request.job() == 3 { request.call() } else { REFUSED };
        assert_eq!(counts(program(harsh)), (45, 15));
        let hasty = |request: &mut Request| {
            let answer = request.call();
            match request {
                Request::ReceiveA { area, .. } if answer.is_err() => area[0] ^= 1,
                _ => {}
            }
            answer
        };
        assert_eq!(counts(program(hasty)), (45, 15));
    }

    #[test]
    fn receivers_that_are_wrong_about_mended_frames_alone_fail() {
        let lax = |request: &mut Request| {
            let mut other = request.clone();
            match (request.call(), by(EARLIER)(&mut other)) {
                (Err(_), Ok(counts)) if counts.mended > 0 => {
                    *request = other;
                    Ok(counts)
                }
                (answer, _) => answer,
            }
        };
        assert_eq!(counts(program(lax)), (55, 5));
        let uncounted = |request: &mut Request| request.call().map(|_| Counts::default());
        assert_eq!(counts(program(uncounted)), (55, 5));
    }

    #[test]
    fn receivers_that_answer_another_worst_fail() {
        let answering = |worst: fn(Counts) -> u64| {
            program(move |request: &mut Request| request.call().map(|counts| Counts { worst: worst(counts), ..counts }))
        };
        assert_eq!(counts(answering(|counts| counts.mended / 2)), (60, 0));
        assert_eq!(counts(answering(|counts| counts.mended)), (55, 5));
        assert_eq!(counts(answering(|_| 0)), (55, 5));
        assert_eq!(counts(answering(|_| 16)), (50, 10));
    }

    #[test]
    fn receivers_that_answer_other_places_fail() {
        let answering = |places: fn([Places; 2]) -> [Places; 2]| {
            program(move |request: &mut Request| {
                request.call().map(|counts| Counts { places: places(counts.places), ..counts })
            })
        };
        assert_eq!(counts(answering(|places| places)), (60, 0));
        assert_eq!(counts(answering(|_| [listed(&[]); 2])), (55, 5));
        assert_eq!(counts(answering(|[first, second]| [second, first])), (55, 5));
        // The second half's counted from the beginning of the first half.
        let on = |[first, second]: [Places; 2]| [first, second.map(|place| if place > 0 { place + 392 } else { 0 })];
        assert_eq!(counts(answering(on)), (55, 5));
    }

    #[test]
    fn sixteen_places_of_each_half_are_hit() {
        let mut rng = Rng::new(1);
        for _ in 0..50 {
            let (hits, places) = hits(&mut rng);
            assert_eq!(hits.len(), 32);
            // A symbol has 420 bits: 10 protected ones, a segment, 10 more, a segment, 8 more.
            let in_symbol = hits.iter().map(|place| place % 420);
            let counted: Vec<usize> = in_symbol.map(|p| if p < 206 { p - 10 } else { p - 20 }).collect();
            assert_eq!([listed(&counted[..16]), listed(&counted[16..])], places);
        }
    }

    #[test]
    fn senders_of_points_that_carry_no_bits_fail() {
        // On an unavailable sub-carrier, and on an available one.
        for index in [0, 1] {
            let stray = |request: &mut Request| {
                let answer = request.call();
                match request {
                    Request::SendA { i, .. } => i[index] = 7,
                    _ => {}
                }
                answer
            };
            assert_eq!(counts(program(stray)), (15, 45));
        }
    }

    #[test]
    fn a_program_that_answers_nothing_or_crashes_fails() {
        assert_eq!(counts(|_| Got::default()), (0, 60));
        let right = program(Request::call);
        // Against the last frame: all but the one with points that were sent here.
        assert_eq!(counts(|input| Got { trouble: Some("killed".to_string()), ..right(input) }), (57, 3));
        assert_eq!(counts(|input| Got { output: [right(input).output, vec![0]].concat(), trouble: None }), (57, 3));
        assert_eq!(counts(|_| Got { output: vec![255; 100_000], trouble: None }), (0, 60));
        for cut in (1..30_000).step_by(97) {
            let short = |input: &[u8]| {
                let output = right(input).output;
                Got { output: output[..output.len().saturating_sub(cut)].to_vec(), trouble: None }
            };
            assert!(counts(short).1 >= 3);
        }
    }

    #[test]
    fn a_program_that_is_not_there_fails() {
        let mut text = Vec::new();
        assert!(!earlier(1, 300, &["./no-such-program".to_string()], &mut text).unwrap());
        assert!(text.ends_with(b"\n0 passed, 3600 failed\n"));
    }

    #[test]
    fn nothing_to_compare_is_nothing_failed() {
        let mut text = Vec::new();
        assert!(drive(1, 0, |_| Got::default(), &mut text).unwrap());
        assert_eq!(text, b"0 passed, 0 failed\n");
    }
}
