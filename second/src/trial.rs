//! The trial program's format (the head of crates/trial/src/main.rt): requests in, the calls made, responses out.
//!
//! Integers are little-endian. A list is a 4-byte count and its elements, a byte each, or two for a level. Lists of
//! mended places are always 16 entries of two bytes, with no count. An unknown job, a list too long for its buffer, a
//! state of a wrong length or a cut request ends the run after the responses so far.
//!
//! Four jobs are beyond the first six:
//!
//! - 7, decide A: mode (1 byte), I, Q, out I, out Q. The response has number, place, out I, out Q.
//! - 8, decide B: mode (1 byte), frame length (8), scheme, I, Q, out I, out Q. The response is that of 7.
//! - 9, stream B: mode (1 byte), frame length (8), scheme, area, count of calls (4), for each call I and Q. The
//!   response has number and place of the opening, then of each call number, place, mended, worst, the area after it.
//! - 16, step B: state (a list of 326 bytes), I, Q, area. The response has number, place, mended, worst, state, area.

use crate::answer::{Answer, Counts};
use crate::{bch, decide, payload_a, payload_b, state_b, stream_b};
use std::io::{self, Read, Write};

/// The longest list of bits, bytes or scheme entries.
pub const MOST_BYTES: usize = 67_300;

/// The longest list of levels.
pub const MOST_POINTS: usize = 65_600;

/// A call with all it is given; lent lists as they stand before it, and once it is made, after it.
#[derive(Clone, Debug, PartialEq, Eq)]
pub enum Request {
    Encode { code: u8, word: Vec<u8>, out: Vec<u8> },
    Decode { code: u8, word: Vec<u8>, out: Vec<u8> },
    SendA { mode: u8, frame: Vec<u8>, i: Vec<i16>, q: Vec<i16> },
    ReceiveA { mode: u8, i: Vec<i16>, q: Vec<i16>, area: Vec<u8> },
    SendB { mode: u8, frame: Vec<u8>, scheme: Vec<u8>, i: Vec<i16>, q: Vec<i16> },
    ReceiveB { mode: u8, length: u64, scheme: Vec<u8>, i: Vec<i16>, q: Vec<i16>, area: Vec<u8> },
    DecideA { mode: u8, i: Vec<i16>, q: Vec<i16>, out_i: Vec<i16>, out_q: Vec<i16> },
    DecideB { mode: u8, length: u64, scheme: Vec<u8>, i: Vec<i16>, q: Vec<i16>, out_i: Vec<i16>, out_q: Vec<i16> },
    StreamB { mode: u8, length: u64, scheme: Vec<u8>, area: Vec<u8>, calls: Vec<Call> },
    StepB { state: Vec<u8>, i: Vec<i16>, q: Vec<i16>, area: Vec<u8> },
}

/// A call of a stream: an OFDM symbol, and once the call is made, its answer and the area after it.
#[derive(Clone, Debug, PartialEq, Eq)]
pub struct Call {
    pub i: Vec<i16>,
    pub q: Vec<i16>,
    pub after: Option<(Answer, Vec<u8>)>,
}

/// A count of an answer: its name, and its value.
pub type Count = (&'static str, fn(&Counts) -> u64);

const MENDED: Count = ("mended", |counts| counts.mended);
const PROTECTED: Count = ("protected", |counts| counts.protected);
const WORST: Count = ("worst", |counts| counts.worst);

/// The counts of an answer of Payload B, of each call of a stream too.
pub const OF_B: [Count; 2] = [MENDED, WORST];

/// The names of jobs 1 to 8.
pub const JOBS: [&str; 8] = ["encode", "decode", "send A", "receive A", "send B", "receive B", "decide A", "decide B"];

impl Request {
    /// Job 1 to 9, or 16.
    pub fn job(&self) -> u8 {
        match self {
            Request::Encode { .. } => 1,
            Request::Decode { .. } => 2,
            Request::SendA { .. } => 3,
            Request::ReceiveA { .. } => 4,
            Request::SendB { .. } => 5,
            Request::ReceiveB { .. } => 6,
            Request::DecideA { .. } => 7,
            Request::DecideB { .. } => 8,
            Request::StreamB { .. } => 9,
            Request::StepB { .. } => 16,
        }
    }

    /// The job's name.
    pub fn name(&self) -> &'static str {
        match self.job() {
            9 => "stream B",
            16 => "step B",
            job => JOBS[job as usize - 1],
        }
    }

    /// The counts that its response has after number and place, in their order.
    pub fn counts(&self) -> &'static [Count] {
        match self {
            Request::Decode { .. } => &[MENDED],
            Request::ReceiveA { .. } => &[MENDED, PROTECTED, WORST],
            Request::ReceiveB { .. } | Request::StepB { .. } => &OF_B,
            _ => &[],
        }
    }

    /// How many lists of mended places its response has: one for decode, two for receive A.
    pub fn lists_of_places(&self) -> usize {
        match self {
            Request::Decode { .. } => 1,
            Request::ReceiveA { .. } => 2,
            _ => 0,
        }
    }

    /// The code or mode it names; a state of a stream has it in its bytes.
    pub fn code_or_mode(&self) -> u8 {
        match self {
            Request::Encode { code, .. } | Request::Decode { code, .. } => *code,
            Request::SendA { mode, .. }
            | Request::ReceiveA { mode, .. }
            | Request::SendB { mode, .. }
            | Request::ReceiveB { mode, .. }
            | Request::DecideA { mode, .. }
            | Request::DecideB { mode, .. }
            | Request::StreamB { mode, .. } => *mode,
            Request::StepB { state, .. } => state_b::State::of_bytes(state).map_or(0, |state| state.mode),
        }
    }

    /// Makes the call. The lent lists are left as the call leaves them. A stream answers its opening, and each of its
    /// calls has its own answer then.
    pub fn call(&mut self) -> Answer {
        match self {
            Request::Encode { code, word, out } => bch::encode(*code, word, out),
            Request::Decode { code, word, out } => bch::decode(*code, word, out),
            Request::SendA { mode, frame, i, q } => payload_a::send(*mode, frame, i, q),
            Request::ReceiveA { mode, i, q, area } => payload_a::receive(*mode, i, q, area),
            Request::SendB { mode, frame, scheme, i, q } => payload_b::send(*mode, frame, scheme, i, q),
            Request::ReceiveB { mode, length, scheme, i, q, area } => {
                payload_b::receive(*mode, *length, scheme, i, q, area)
            }
            Request::DecideA { mode, i, q, out_i, out_q } => decide::decide_a(*mode, i, q, out_i, out_q),
            Request::DecideB { mode, length, scheme, i, q, out_i, out_q } => {
                decide::decide_b(*mode, *length, scheme, i, q, out_i, out_q)
            }
            Request::StreamB { mode, length, scheme, area, calls } => {
                let mut stream = stream_b::open(*mode, *length, scheme);
                let opened = stream.refusal.map_or(Ok(Counts::default()), Err);
                for call in calls {
                    let answer = stream.step(&call.i, &call.q, area);
                    call.after = Some((answer, area.clone()));
                }
                opened
            }
            Request::StepB { state, i, q, area } => state_b::step(state, i, q, area),
        }
    }

    /// The request's bytes.
    pub fn to_bytes(&self) -> Vec<u8> {
        let mut to = vec![self.job()];
        match self {
            Request::Encode { code, word, out } | Request::Decode { code, word, out } => {
                to.push(*code);
                put_bytes(&mut to, word);
                put_bytes(&mut to, out);
            }
            Request::SendA { mode, frame, i, q } => {
                to.push(*mode);
                put_bytes(&mut to, frame);
                put_levels(&mut to, i);
                put_levels(&mut to, q);
            }
            Request::ReceiveA { mode, i, q, area } => {
                to.push(*mode);
                put_levels(&mut to, i);
                put_levels(&mut to, q);
                put_bytes(&mut to, area);
            }
            Request::SendB { mode, frame, scheme, i, q } => {
                to.push(*mode);
                put_bytes(&mut to, frame);
                put_bytes(&mut to, scheme);
                put_levels(&mut to, i);
                put_levels(&mut to, q);
            }
            Request::ReceiveB { mode, length, scheme, i, q, area } => {
                to.push(*mode);
                to.extend(length.to_le_bytes());
                put_bytes(&mut to, scheme);
                put_levels(&mut to, i);
                put_levels(&mut to, q);
                put_bytes(&mut to, area);
            }
            Request::DecideA { mode, i, q, out_i, out_q } => {
                to.push(*mode);
                [i, q, out_i, out_q].into_iter().for_each(|list| put_levels(&mut to, list));
            }
            Request::DecideB { mode, length, scheme, i, q, out_i, out_q } => {
                to.push(*mode);
                to.extend(length.to_le_bytes());
                put_bytes(&mut to, scheme);
                [i, q, out_i, out_q].into_iter().for_each(|list| put_levels(&mut to, list));
            }
            Request::StreamB { mode, length, scheme, area, calls } => {
                to.push(*mode);
                to.extend(length.to_le_bytes());
                put_bytes(&mut to, scheme);
                put_bytes(&mut to, area);
                to.extend((calls.len() as u32).to_le_bytes());
                for call in calls {
                    put_levels(&mut to, &call.i);
                    put_levels(&mut to, &call.q);
                }
            }
            Request::StepB { state, i, q, area } => {
                put_bytes(&mut to, state);
                put_levels(&mut to, i);
                put_levels(&mut to, q);
                put_bytes(&mut to, area);
            }
        }
        to
    }
}

/// Number, place, the counts that the job has, its lists of mended places, and each lent list of a request after its
/// call. A stream has no more of its opening, and of each call its answer and the area.
pub fn response(after: &Request, answer: Answer) -> Vec<u8> {
    let mut to = vec![];
    let counts = put_answer(&mut to, answer, after.counts());
    for place in counts.places[..after.lists_of_places()].iter().flatten() {
        to.extend(place.to_le_bytes());
    }
    match after {
        Request::Encode { out, .. } | Request::Decode { out, .. } => put_bytes(&mut to, out),
        Request::ReceiveA { area, .. } | Request::ReceiveB { area, .. } => put_bytes(&mut to, area),
        Request::SendA { i, q, .. } | Request::SendB { i, q, .. } => {
            put_levels(&mut to, i);
            put_levels(&mut to, q);
        }
        Request::DecideA { out_i, out_q, .. } | Request::DecideB { out_i, out_q, .. } => {
            put_levels(&mut to, out_i);
            put_levels(&mut to, out_q);
        }
        Request::StreamB { calls, .. } => {
            for (answer, area) in calls.iter().filter_map(|call| call.after.as_ref()) {
                put_answer(&mut to, *answer, &OF_B);
                put_bytes(&mut to, area);
            }
        }
        Request::StepB { state, area, .. } => {
            put_bytes(&mut to, state);
            put_bytes(&mut to, area);
        }
    }
    to
}

/// Number, place, and these counts, which are 0 in a refusal. Gives all that there are.
fn put_answer(to: &mut Vec<u8>, answer: Answer, which: &[Count]) -> Counts {
    let (number, place, counts) = match answer {
        Ok(counts) => (0, 0, counts),
        Err(refusal) => (refusal.number(), refusal.place(), Counts::default()),
    };
    to.push(number);
    to.extend(place.to_le_bytes());
    for (_, value) in which {
        to.extend(value(&counts).to_le_bytes());
    }
    counts
}

/// The whole program: a response for each request, until the input ends or is none.
pub fn run(from: &mut impl Read, to: &mut impl Write) -> io::Result<()> {
    while let Some(mut request) = read_request(from) {
        let answer = request.call();
        to.write_all(&response(&request, answer))?;
    }
    to.flush()
}

/// The next request, or none at the end of the input and for anything that is no whole request.
pub fn read_request(from: &mut impl Read) -> Option<Request> {
    let job = byte(from)?;
    if job == 16 {
        let state = bytes(from)?;
        state_b::State::of_bytes(&state)?;
        return Some(Request::StepB { state, i: levels(from)?, q: levels(from)?, area: bytes(from)? });
    }
    if !matches!(job, 1..=9) {
        return None;
    }
    let mode = byte(from)?;
    Some(match job {
        1 => Request::Encode { code: mode, word: bytes(from)?, out: bytes(from)? },
        2 => Request::Decode { code: mode, word: bytes(from)?, out: bytes(from)? },
        3 => Request::SendA { mode, frame: bytes(from)?, i: levels(from)?, q: levels(from)? },
        4 => Request::ReceiveA { mode, i: levels(from)?, q: levels(from)?, area: bytes(from)? },
        5 => Request::SendB { mode, frame: bytes(from)?, scheme: bytes(from)?, i: levels(from)?, q: levels(from)? },
        6 => Request::ReceiveB {
            mode,
            length: u64::from_le_bytes(exactly(from)?),
            scheme: bytes(from)?,
            i: levels(from)?,
            q: levels(from)?,
            area: bytes(from)?,
        },
        7 => Request::DecideA { mode, i: levels(from)?, q: levels(from)?, out_i: levels(from)?, out_q: levels(from)? },
        8 => Request::DecideB {
            mode,
            length: u64::from_le_bytes(exactly(from)?),
            scheme: bytes(from)?,
            i: levels(from)?,
            q: levels(from)?,
            out_i: levels(from)?,
            out_q: levels(from)?,
        },
        _ => Request::StreamB {
            mode,
            length: u64::from_le_bytes(exactly(from)?),
            scheme: bytes(from)?,
            area: bytes(from)?,
            calls: calls(from)?,
        },
    })
}

/// The calls of a stream, any number of them.
fn calls(from: &mut impl Read) -> Option<Vec<Call>> {
    let count = u32::from_le_bytes(exactly(from)?);
    (0..count).map(|_| Some(Call { i: levels(from)?, q: levels(from)?, after: None })).collect()
}

fn exactly<const N: usize>(from: &mut impl Read) -> Option<[u8; N]> {
    let mut bytes = [0; N];
    from.read_exact(&mut bytes).ok()?;
    Some(bytes)
}

fn byte(from: &mut impl Read) -> Option<u8> {
    exactly::<1>(from).map(|[byte]| byte)
}

/// A count that is not above `most`.
fn count(from: &mut impl Read, most: usize) -> Option<usize> {
    let count = u32::from_le_bytes(exactly(from)?) as usize;
    (count <= most).then_some(count)
}

fn bytes(from: &mut impl Read) -> Option<Vec<u8>> {
    let mut list = vec![0; count(from, MOST_BYTES)?];
    from.read_exact(&mut list).ok()?;
    Some(list)
}

/// A list of levels.
pub(crate) fn levels(from: &mut impl Read) -> Option<Vec<i16>> {
    let mut list = vec![0; 2 * count(from, MOST_POINTS)?];
    from.read_exact(&mut list).ok()?;
    Some(list.chunks(2).map(|two| i16::from_le_bytes([two[0], two[1]])).collect())
}

fn put_bytes(to: &mut Vec<u8>, list: &[u8]) {
    to.extend((list.len() as u32).to_le_bytes());
    to.extend_from_slice(list);
}

fn put_levels(to: &mut Vec<u8>, list: &[i16]) {
    to.extend((list.len() as u32).to_le_bytes());
    list.iter().for_each(|level| to.extend(level.to_le_bytes()));
}

#[cfg(test)]
mod tests {
    use super::*;
    use payload_a::tests::hit;
    use payload_b::tests::hit as hit_b;

    fn ran(input: &[u8]) -> Vec<u8> {
        let mut output = Vec::new();
        run(&mut &input[..], &mut output).unwrap();
        output
    }

    #[test]
    fn bytes_of_a_request_and_its_response_by_hand() {
        let request = [2, 1, 2, 0, 0, 0, 1, 0, 3, 0, 0, 0, 9, 8, 7];
        let response = [[2].as_slice(), &[0; 16], &[0; 32], &[3, 0, 0, 0, 9, 8, 7]].concat();
        assert_eq!(ran(&request), response);
    }

    #[test]
    fn bytes_of_a_decode_with_hits_by_hand() {
        // The codeword of zeros of code 3, hit in four places. 258 is 1 * 256 + 2, 391 is 1 * 256 + 135.
        let mut word = vec![0; 392];
        for place in [0, 1, 258, 391] {
            word[place] = 1;
        }
        let request = Request::Decode { code: 3, word, out: vec![9; 393] };
        let head = [0, /* place */ 0, 0, 0, 0, 0, 0, 0, 0, /* mended */ 4, 0, 0, 0, 0, 0, 0, 0];
        let places = [[0, 0], [1, 0], [2, 1], [135, 1]].concat();
        let unused = [0; 2 * 12];
        let response = [&head[..], &places, &unused, &[137, 1, 0, 0], &[0; 392], &[9]].concat();
        assert_eq!(ran(&request.to_bytes()), response);
    }

    /// To receive a message and its check in mode 1, hit in these places of the 784 bits, and in these protected bits.
    fn receive_a(information: &[u8], places: &[usize], fields: &[usize]) -> Request {
        let (i, q) = hit(1, information, places, fields);
        Request::ReceiveA { mode: 1, i, q, area: vec![9; 60] }
    }

    #[test]
    fn bytes_of_a_receive_a_with_hits_by_hand() {
        // Places 0 and 300 of the first half, 1, 258 and 391 of the second; and the first and last protected bits.
        let places = [0, 300, 392 + 1, 392 + 258, 392 + 391];
        let request = receive_a(&payload_a::with_check(&[6; 58]), &places, &[0, 839]);
        let head = [0, /* place */ 0, 0, 0, 0, 0, 0, 0, 0];
        let mended_and_protected = [5, 0, 0, 0, 0, 0, 0, 0, 2, 0, 0, 0, 0, 0, 0, 0];
        let worst = [3, 0, 0, 0, 0, 0, 0, 0];
        let first = [&[0, 0, 44, 1][..], &[0; 2 * 14]].concat();
        let second = [&[1, 0, 2, 1, 135, 1][..], &[0; 2 * 13]].concat();
        let lists = [first, second].concat();
        let response = [&head[..], &mended_and_protected, &worst, &lists, &[60, 0, 0, 0], &[6; 58], &[9, 9]].concat();
        assert_eq!(ran(&request.to_bytes()), response);
    }

    /// To receive a frame of three blocks of 59 bytes, hit in these places of its 1,524 coded bits and 156 of fill.
    fn receive_b(places: &[usize]) -> Request {
        let (i, q) = hit_b(1, &[6; 177], &[2; 210], places);
        Request::ReceiveB { mode: 1, length: 177, scheme: vec![2; 210], i, q, area: vec![9; 179] }
    }

    #[test]
    fn bytes_of_a_receive_b_with_hits_by_hand() {
        // One hit in the first block, three in the second, two in the third, and five in the fill.
        let places = [7, 508, 700, 1015, 1016, 1523, 1524, 1525, 1526, 1600, 1679];
        let head = [0, /* place */ 0, 0, 0, 0, 0, 0, 0, 0];
        let mended_and_worst = [6, 0, 0, 0, 0, 0, 0, 0, 3, 0, 0, 0, 0, 0, 0, 0];
        let response = [&head[..], &mended_and_worst, &[179, 0, 0, 0], &[6; 177], &[9, 9]].concat();
        assert_eq!(ran(&receive_b(&places).to_bytes()), response);
    }

    #[test]
    fn refusals_carry_neither_total_nor_worst() {
        // Two hits in the first block, five in the second.
        let response = [&[9, 1][..], &[0; 7], &[0; 16], &[179, 0, 0, 0], &[0; 177], &[9, 9]].concat();
        assert_eq!(ran(&receive_b(&[0, 507, 508, 509, 510, 511, 512]).to_bytes()), response);
        // Whatever they are refused for.
        let mut numbers = std::collections::BTreeSet::new();
        for index in 0..1_000 {
            let request = crate::hostile::request(6, index, &[4, 6]);
            let response = ran(&request.to_bytes());
            if response[0] != 0 {
                numbers.insert(response[0]);
                assert_eq!(response[9..9 + 8 * request.counts().len()], vec![0; 8 * request.counts().len()]);
            }
        }
        assert_eq!(numbers, [1, 2, 3, 5, 6, 7, 8, 9, 10, 11].into());
    }

    #[test]
    fn refusals_carry_no_places() {
        // 17 hits of code 3.
        let request = Request::Decode { code: 3, word: [[1; 17].as_slice(), &[0; 375]].concat(), out: vec![5; 392] };
        let response = [&[9][..], &[0; 16], &[0; 32], &[136, 1, 0, 0], &[5; 392]].concat();
        assert_eq!(ran(&request.to_bytes()), response);
        // The first half is mended, and then the second half is hopeless, or the check wrong; or all is right but more
        // than 12 protected bits.
        let right = payload_a::with_check(&[6; 58]);
        let mut wrong = right.clone();
        wrong[495] ^= 1;
        let mended = [0, 100, 391];
        let hopeless: Vec<usize> = mended.into_iter().chain(392..392 + 17).collect();
        let fields = payload_a::field_places();
        for (request, number, place) in [
            (receive_a(&right, &hopeless, &fields[..12]), 9, 1),
            (receive_a(&wrong, &mended, &fields[..12]), 10, 0),
            (receive_a(&right, &mended, &fields[..13]), 11, 0),
        ] {
            let response = [&[number, place][..], &[0; 7], &[0; 24], &[0; 64], &[60, 0, 0, 0], &[9; 60]].concat();
            assert_eq!(ran(&request.to_bytes()), response);
        }
    }

    #[test]
    fn responses_of_a_receive_carry_its_counts() {
        let request = Request::ReceiveA { mode: 5, i: vec![], q: vec![-2], area: vec![4] };
        assert_eq!(ran(&request.to_bytes()), [[1].as_slice(), &[0; 32], &[0; 64], &[1, 0, 0, 0, 4]].concat());
        let request = Request::ReceiveB { mode: 0, length: 0, scheme: vec![], i: vec![], q: vec![], area: vec![4] };
        assert_eq!(ran(&request.to_bytes()), [[2].as_slice(), &[0; 24], &[1, 0, 0, 0, 4]].concat());
        let request = Request::SendA { mode: 1, frame: vec![], i: vec![-2], q: vec![] };
        assert_eq!(ran(&request.to_bytes()), [[2].as_slice(), &[0; 8], &[1, 0, 0, 0, 254, 255, 0, 0, 0, 0]].concat());
    }

    #[test]
    fn bytes_of_a_stream_by_hand() {
        // Five bytes of zeros sent as they are scrambled; a call too short, one that is right, one too many.
        let (i, q) = hit_b(0, &[0; 5], &[4; 210], &[]);
        let request = [&[9, 0, 5, 0, 0, 0, 0, 0, 0, 0, 210, 0, 0, 0][..], &[4; 210], &[6, 0, 0, 0], &[9; 6]].concat();
        let lists = |count: usize| {
            [&i[..count], &q[..count]].map(|list| {
                let mut to = vec![];
                put_levels(&mut to, list);
                to
            })
        };
        let calls = [lists(255), lists(256), lists(0)].concat().concat();
        let response = [
            &[0; 9][..],
            &[&[3][..], &[0; 24], &[6, 0, 0, 0], &[9; 6]].concat(),
            &[&[0][..], &[0; 24], &[6, 0, 0, 0, 0, 0, 0, 0, 0, 9]].concat(),
            &[&[6][..], &[0; 24], &[6, 0, 0, 0, 0, 0, 0, 0, 0, 9]].concat(),
        ]
        .concat();
        assert_eq!(ran(&[&request[..], &[3, 0, 0, 0], &calls].concat()), response);
        // No calls: the opening alone, here of an unknown mode.
        assert_eq!(ran(&[&[9, 3][..], &[0; 8], &[0; 4], &[0; 4], &[0; 4]].concat()), [1, 0, 0, 0, 0, 0, 0, 0, 0]);
    }

    #[test]
    fn bytes_of_a_decide_a_by_hand() {
        // All +1 but s(1), at 151, which came as (-3,-64), and s(210) of the second symbol, at 361, as (-1,1).
        let (mut i, mut q) = (vec![60i16; 513], vec![-4i16; 512]);
        ((i[151], q[151]), (i[361], q[361])) = ((-3, -64), (-1, 1));
        let mut request = vec![7, 1];
        [i, q, vec![8; 512], vec![9; 514]].iter().for_each(|list| put_levels(&mut request, list));
        let each = |available: i16| (0..512).map(|n| crate::grid::held_by(n % 256).map_or(0, |_| available)).collect();
        let (mut out_i, mut out_q): (Vec<i16>, Vec<i16>) = (each(1), each(0));
        ((out_i[151], out_q[151]), (out_i[361], out_q[361])) = ((0, -1), (0, 1));
        out_q.extend([9, 9]);
        let mut response = vec![0; 9];
        [out_i, out_q].iter().for_each(|list| put_levels(&mut response, list));
        assert_eq!(ran(&request), response);
        // An unknown mode: the lists as they were.
        let request = [&[7, 2][..], &[0; 8], &[1, 0, 0, 0, 254, 255], &[0; 4]].concat();
        assert_eq!(ran(&request), [&[1][..], &[0; 8], &[1, 0, 0, 0, 254, 255], &[0; 4]].concat());
    }

    #[test]
    fn bytes_of_a_decide_b_by_hand() {
        // A byte of 8QAM: one symbol, all in the middle but s(106), at 1, which came from the corner of the range.
        let (mut i, mut q) = (vec![0i16; 256], vec![0i16; 256]);
        (i[1], q[1], i[0], q[150]) = (i16::MIN, i16::MAX, 5, -5);
        let mut request = [&[8, 0, 1, 0, 0, 0, 0, 0, 0, 0, 210, 0, 0, 0][..], &[3; 210]].concat();
        [i, q, vec![8; 257], vec![9; 256]].iter().for_each(|list| put_levels(&mut request, list));
        let mut out_i: Vec<i16> = (0..256).map(|n| crate::grid::held_by(n).map_or(0, |_| 2)).collect();
        let mut out_q = vec![0; 256];
        (out_i[1], out_q[1]) = (-2, 2);
        out_i.push(8);
        let mut response = vec![0; 9];
        [out_i, out_q].iter().for_each(|list| put_levels(&mut response, list));
        assert_eq!(ran(&request), response);
        // No scheme: 5 at place 210, and the lists as they were.
        let request = [&[8, 0, 1][..], &[0; 7], &[0; 4], &[0; 8], &[0; 4], &[1, 0, 0, 0, 254, 255]].concat();
        assert_eq!(ran(&request), [&[5, 210][..], &[0; 7], &[0; 4], &[1, 0, 0, 0, 254, 255]].concat());
    }

    #[test]
    fn bytes_of_a_step_by_hand() {
        // A state that holds 9 at place 258, and nothing else that is right.
        let state = [&[7; 317][..], &[9, 2, 1], &[0; 6]].concat();
        let request = [&[16, 70, 1, 0, 0][..], &state, &[0; 4], &[0; 4], &[1, 0, 0, 0, 8]].concat();
        let response = [&[9, 2, 1][..], &[0; 6], &[0; 16], &[70, 1, 0, 0], &state, &[1, 0, 0, 0, 8]].concat();
        assert_eq!(ran(&request), response);
        // A list of another length is no state.
        for length in [0, 1, 325, 327, 512] {
            let request = Request::StepB { state: vec![0; length], i: vec![], q: vec![], area: vec![] };
            assert_eq!(ran(&[request.to_bytes(), vec![1, 0, 0, 0, 0, 0, 0, 0, 0, 0]].concat()), []);
        }
    }

    #[test]
    fn requests_are_read_as_they_were_written() {
        for index in 0..300 {
            let request = crate::hostile::request(5, index, &[1, 2, 3, 4, 5, 6, 7, 8, 9, 16]);
            assert_eq!(read_request(&mut &request.to_bytes()[..]), Some(request));
        }
    }

    #[test]
    fn what_is_no_request_ends_the_run() {
        let good = Request::Encode { code: 0, word: vec![], out: vec![] }.to_bytes();
        let once = ran(&good);
        assert_eq!(ran(&[]), []);
        for job in (0..=255).filter(|job| !matches!(job, 1..=9 | 16)) {
            assert_eq!(ran(&[&good, &[job][..], &good].concat()), once);
        }
        for cut in 1..good.len() {
            assert_eq!(ran(&[&good, &good[..cut]].concat()), once);
        }
        let long = |word, out| Request::Encode { code: 0, word: vec![0; word], out: vec![0; out] }.to_bytes();
        assert_eq!(ran(&[&good, &long(MOST_BYTES + 1, 0), &good[..]].concat()), once);
        assert_eq!(ran(&[&good, &long(0, MOST_BYTES + 1), &good[..]].concat()), once);
        assert_eq!(ran(&[&long(MOST_BYTES, 0), &good[..]].concat()).len(), 2 * once.len());
        let send = |i, q| Request::SendA { mode: 9, frame: vec![], i: vec![0; i], q: vec![0; q] }.to_bytes();
        assert_eq!(ran(&[&good, &send(MOST_POINTS + 1, 0), &good[..]].concat()), once);
        assert_eq!(ran(&[&good, &send(0, MOST_POINTS + 1), &good[..]].concat()), once);
        assert!(ran(&send(MOST_POINTS, MOST_POINTS)).len() > 4 * MOST_POINTS);
        for list in 0..4 {
            let decide = |count: usize| {
                let mut lists = [const { Vec::new() }; 4];
                lists[list] = vec![0; count];
                let [i, q, out_i, out_q] = lists;
                let (mode, length, scheme) = (9, 0, vec![]);
                let a =
                    Request::DecideA { mode, i: i.clone(), q: q.clone(), out_i: out_i.clone(), out_q: out_q.clone() };
                [a, Request::DecideB { mode, length, scheme, i, q, out_i, out_q }].map(|request| request.to_bytes())
            };
            assert!(decide(MOST_POINTS + 1).iter().all(|long| ran(&[&good, &long[..], &good].concat()) == once));
            assert!(decide(MOST_POINTS)
                .iter()
                .all(|most| ran(&[&good, &most[..], &good].concat()).len() > 2 * once.len()));
        }
    }
}
