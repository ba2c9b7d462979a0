//! Document 01's "Numbers to try", as far as they can be run, those of the frame check by the rule of request 6, and
//! the facts about codes and tables beside them.

use crate::answer::{listed, Answer, Counts, Refusal};
use crate::bch::{self, Code};
use crate::grid::{carriers, CARRIERS};
use crate::largest::{BLOCK_BYTES, LARGEST};
use crate::points::{constellation, Point};
use crate::rng::Rng;
use crate::{bits, check, field, grid, payload_a, payload_b, poly, scrambler};
use std::io::{self, Write};

/// A line of what was looked at, and whether it holds.
type Line = (String, bool);

/// Prints a line for each number, and `N passed, M failed`. True if none failed.
pub fn numbers(to: &mut impl Write) -> io::Result<bool> {
    let groups =
        [scrambler_and_check(), codes(), flips(), points_and_grid(), payload_a(), symbols(), largest(), forms()];
    let lines = groups.concat();
    for (text, holds) in &lines {
        writeln!(to, "{} {text}", if *holds { "ok    " } else { "FAILED" })?;
    }
    let failed = lines.iter().filter(|line| !line.1).count();
    writeln!(to, "{} passed, {failed} failed", lines.len() - failed)?;
    Ok(failed == 0)
}

fn digits(bits: &[u8]) -> String {
    bits.iter().map(|bit| char::from(b'0' + bit)).collect()
}

fn scrambler_and_check() -> Vec<Line> {
    let first = digits(&scrambler::sequence(16));
    let mut message = vec![0; 464];
    let zero = check::value(&message);
    message[463] = 1;
    let last = check::value(&message);
    let last_bits = [464, 752].into_iter().all(last_bit_counts);
    vec![
        (format!("first 16 scrambler bits: {first}"), first == "1101101011010010"),
        (format!("check of 464 zero bits: {zero:08X}"), zero == 0x3846_7B63),
        (format!("check with only the last bit set: {last:08X}"), last == 0x3C87_66D4),
        ("1000 messages of 464 bits, 1000 of 752: the last bit changes the check by 04C11DB7".to_string(), last_bits),
    ]
}

/// Whether changing only the last bit changes the check by the polynomial, in 1000 messages of this length.
fn last_bit_counts(length: usize) -> bool {
    let mut rng = Rng::new(length as u64);
    (0..1_000).all(|_| {
        let message = rng.bits(length);
        let mut changed = message.clone();
        changed[length - 1] ^= 1;
        check::value(&message) ^ check::value(&changed) == 0x04C1_1DB7
    })
}

fn all_codes() -> [(u8, &'static Code); 3] {
    [1, 2, 3].map(|number| (number, bch::code(number).expect("1 to 3")))
}

/// The octal digits of a polynomial.
fn octal(bits: &[u8]) -> String {
    let lead = vec![0; (3 - bits.len() % 3) % 3];
    let three = [&lead[..], bits].concat();
    three.chunks(3).map(|d| char::from(b'0' + (d[0] << 2 | d[1] << 1 | d[2]))).collect()
}

fn codes() -> Vec<Line> {
    let expected = [
        (508, 472, 4, "1630256304641"),
        (504, 432, 8, "1561350064670543777423345"),
        (392, 248, 16, "1126657202505666323017001652245562614435511600655"),
    ];
    let mut lines = Vec::new();
    for ((number, code), (n, k, t, generator)) in all_codes().into_iter().zip(expected) {
        let mut word = vec![0; code.k];
        word[code.k - 1] = 1;
        let mut out = vec![9; code.n];
        let answer = bch::encode(number, &word, &mut out);
        let tail = octal(&out[code.k - 1..]);
        let zeros = out[..code.k - 1].iter().all(|&bit| bit == 0);
        let text = format!("code {number} ({n},{k}): only the last information bit set: zeros, then {tail} octal");
        let right = tail == generator && (code.n, code.k, code.t) == (n, k, t);
        lines.push((text, answer.is_ok() && zeros && right));
        let at = |j| code.generator.iter().fold(0, |v, &b| field::product(v, field::power(field::A, j)) ^ b as u16);
        let roots = (1..).take_while(|&j| at(j) == 0).count();
        lines.push((format!("code {number}: the generator has the roots a .. a^{roots}, t is {t}"), roots >= 2 * t));
    }
    lines
}

/// Words with t and t+1 flips, and hits in the dropped places.
fn flips() -> Vec<Line> {
    let mut rng = Rng::new(2024);
    let mut lines = Vec::new();
    for (number, code) in all_codes() {
        let (mut back, mut never) = (true, true);
        for _ in 0..1_000 {
            let sent = code.encoded(&rng.bits(code.k));
            let (answer, out, flipped) = decoded_with_flips(&mut rng, number, &sent, code.t);
            let places = [listed(&flipped), listed(&[])];
            back &= answer == Ok(Counts { mended: code.t as u64, places, ..Counts::default() }) && out == sent;
            let (answer, out, _) = decoded_with_flips(&mut rng, number, &sent, code.t + 1);
            never &= answer.is_err() || out != sent;
        }
        let t = code.t;
        let text = format!("code {number}: 1000 codewords with {t} flips come back, count {t}, and their places");
        lines.push((text, back));
        lines.push((format!("code {number}: 1000 with {} flips: never the old codeword", code.t + 1), never));
        lines.push((
            format!("code {number}: 1000 words near a 511-bit codeword with hits in dropped places: refused"),
            (0..1_000).all(|_| dropped_is_refused(&mut rng, number, code)),
        ));
    }
    let seventeen = (0..1_000).all(|round| {
        let sent = all_codes()[2].1.encoded(&rng.bits(248));
        decoded_with_flips(&mut rng, 3, &sent, 17 + round % 2).0 == Err(Refusal::Hopeless(0))
    });
    lines.push(("code 3: 1000 words with 17 or 18 flips: refused".to_string(), seventeen));
    lines
}

/// The answer, what came out, and the places that were flipped, rising.
fn decoded_with_flips(rng: &mut Rng, number: u8, sent: &[u8], count: usize) -> (Answer, Vec<u8>, Vec<usize>) {
    let mut word = sent.to_vec();
    let mut flipped = rng.distinct(count, word.len());
    flipped.sort();
    flipped.iter().for_each(|&place| word[place] ^= 1);
    let mut out = vec![9; word.len()];
    (bch::decode(number, &word, &mut out), out, flipped)
}

fn dropped_is_refused(rng: &mut Rng, number: u8, code: &Code) -> bool {
    let dropped = field::ORDER - code.n;
    let mut information = [vec![0; dropped], rng.bits(code.k)].concat();
    information[rng.below(dropped)] = 1;
    let long = poly::encoded(&information, &code.generator);
    let count = rng.between(0, code.t - 1);
    decoded_with_flips(rng, number, &long[dropped..], count).0 == Err(Refusal::Hopeless(0))
}

fn points_and_grid() -> Vec<Line> {
    let order = carriers();
    let mut lines: Vec<Line> = [(1, 151), (105, 255), (106, 1), (210, 105)]
        .map(|(s, k)| (format!("s({s}) at k={}", order[s - 1]), order[s - 1] == k))
        .to_vec();
    let named: [(u8, &str, Point); 4] =
        [(3, "100", (0, 2)), (3, "010", (0, -2)), (9, "101100101", (-5, 1)), (9, "111100101", (-5, -1))];
    for (bits, label, point) in named {
        let found = constellation(bits).expect("2 to 10").point(u16::from_str_radix(label, 2).expect("bits"));
        lines.push((format!("{}QAM {label} is {found:?}", 1 << bits), found == point));
    }
    for (bits, factor) in (2..=10).zip([2, 6, 10, 24, 42, 96, 170, 384, 682]) {
        let table = constellation(bits).expect("2 to 10");
        let squares: i32 = table.points().iter().map(|&(i, q)| i as i32 * i as i32 + q as i32 * q as i32).sum();
        let back = (0..1 << bits).all(|label| table.label(table.point(label)) == Some(label));
        let text =
            format!("{}QAM: points all different, squares add up to {squares} = {} * {factor}", 1 << bits, 1 << bits);
        lines.push((text, back && squares == factor << bits));
    }
    lines
}

fn payload_a() -> Vec<Line> {
    let mut rng = Rng::new(58);
    let mut lines = Vec::new();
    for mode in [1, 0] {
        let length = payload_a::frame_bytes(mode).expect("a mode");
        let (mut first, mut round) = (true, true);
        for _ in 0..200 {
            let frame = rng.bytes(length);
            let (mut i, mut q) = (vec![9; 512], vec![9; 512]);
            let sent = payload_a::send(mode, &frame, &mut i, &mut q);
            let five: Vec<Point> = grid::read(2, &i, &q).map(|(_, point)| point).take(5).collect();
            first &= five == [(-1, 0), (1, 0), (-1, 0), (1, 0), (0, -1)];
            let mut area = vec![0; length];
            round &= sent.is_ok() && payload_a::receive(mode, &i, &q, &mut area) == Ok(Counts::default());
            round &= area == frame;
        }
        let text = format!("Payload A mode {mode}, 200 frames: first five points (-1,0) (1,0) (-1,0) (1,0) (0,-1)");
        lines.push((text, first));
        lines
            .push((format!("Payload A mode {mode}, 200 frames of {length} bytes: back, mended 0, protected 0"), round));
    }
    lines
}

fn symbols() -> Vec<Line> {
    let plan = payload_b::plan(2, 54, &[2; 210]).expect("a frame that fits");
    let fill = plan.symbols * plan.symbol_bits - plan.coded_bits;
    let text =
        format!("all QPSK, mode 2, 54 bytes: {} bits, {} symbols, {fill} fill bits", plan.coded_bits, plan.symbols);
    vec![(text, (plan.coded_bits, plan.symbols, fill) == (504, 2, 336))]
}

/// The largest frames go there and back; one byte or block more is refused.
fn largest() -> Vec<Line> {
    let mut rng = Rng::new(256);
    let mut lines = Vec::new();
    for (name, bits, lengths) in LARGEST {
        for (mode, length) in (0..).zip(lengths) {
            let block = BLOCK_BYTES[mode as usize];
            let frame = rng.bytes(length + block);
            let (mut i, mut q) = (vec![9; 256 * CARRIERS], vec![9; 256 * CARRIERS]);
            let sent = payload_b::send(mode, &frame[..length], &[bits; 210], &mut i, &mut q);
            let mut area = vec![0; length];
            let got = payload_b::receive(mode, length as u64, &[bits; 210], &i, &q, &mut area);
            let back = sent.is_ok() && got == Ok(Counts::default()) && area == frame[..length];
            let more = payload_b::send(mode, &frame, &[bits; 210], &mut i, &mut q);
            let told = payload_b::receive(mode, frame.len() as u64, &[bits; 210], &i, &q, &mut area);
            let refused = more == Err(Refusal::TooManySymbols) && told == more;
            let text =
                format!("all {name}, mode {mode}: {length} bytes there and back, {} refused with 6", length + block);
            lines.push((text, back && refused));
        }
    }
    lines
}

/// Words of a wrong form.
fn forms() -> Vec<Line> {
    let mut lines = Vec::new();
    for (number, code) in all_codes() {
        let mut out = vec![7; code.n];
        let short = bch::decode(number, &vec![0; code.n - 1], &mut out);
        lines.push((
            format!("code {number}: a word of {} bits: {}", code.n - 1, told(short)),
            short == Err(Refusal::WrongLength),
        ));
        let mut word = vec![0; code.n];
        word[code.k] = 2;
        let two = bch::decode(number, &word, &mut out);
        let text = format!("code {number}: a 2 at index {}: {}", code.k, told(two));
        lines.push((text, two == Err(Refusal::NotABit(code.k)) && out == vec![7; code.n]));
    }
    let frame = bits::to_bytes(&[1; 464]);
    let none = payload_a::send(0, &frame, &mut [0; 512], &mut [0; 512]);
    lines.push((format!("Payload A, 58 bytes in mode 0: {}", told(none)), none == Err(Refusal::WrongLength)));
    lines
}

fn told(answer: Answer) -> String {
    match answer {
        Ok(_) => "accepted".to_string(),
        Err(refusal) => format!("refused {} place {}", refusal.number(), refusal.place()),
    }
}

#[cfg(test)]
mod tests {
    use super::*;

    #[test]
    fn all_numbers_hold() {
        let mut text = Vec::new();
        assert!(numbers(&mut text).unwrap(), "{}", String::from_utf8(text).unwrap());
    }

    #[test]
    fn octal_of_bits() {
        assert_eq!(octal(&[1, 0, 1, 1]), "13");
        assert_eq!(octal(&[1, 1, 1]), "7");
    }
}
