//! Drives a trial program through jobs 7 and 8 over whole grids of noisy points, and compares each point that it decides
//! with the plain search of the table.
//!
//! The coarse grid, for all ten constellations: on each axis all multiples of half a level as far as two levels outside,
//! one sixty-fourth less and one more, and the two least and the two greatest numbers of 16 bits. The fine grid, for
//! DQPSK, 8QAM and 32QAM: every pair as far as one whole number outside the outermost level.
//!
//! A process for each constellation. Requests hold as many pairs as they can; unavailable sub-carriers and the lists lent
//! hold poison.

use crate::compare::{run, Got, SHOWN};
use crate::grid::{self, held_by, AVAILABLE, CARRIERS};
use crate::nearest::{nearest, PARTS};
use crate::noisy::{all, greatest_and_step};
use crate::payload_a;
use crate::payload_b::MOST_SYMBOLS;
use crate::points::Point;
use crate::stray::Legal;
use crate::trial::{self, levels, Request};
use std::io::{self, Write};
use std::thread;

/// The constellations with a fine grid.
const FINE: [Legal; 3] = [Legal::Dqpsk, Legal::Qam(3), Legal::Qam(5)];

/// What stands where nothing is looked at, and in the lists lent.
const POISON: i16 = 12_345;

/// Compares all grids; writes the first differences, a line for each constellation and `N pairs, F failed`. True if none
/// failed. Without a command this program is compared with itself.
pub fn grids(command: Option<&[String]>, to: &mut impl Write) -> io::Result<bool> {
    match command {
        Some(command) => drive(&all(), |input| run(command, input), to),
        None => drive(&all(), own, to),
    }
}

/// This program in the place of a command.
fn own(mut input: &[u8]) -> Got {
    let mut output = Vec::new();
    let trouble = trial::run(&mut input, &mut output).err().map(|error| error.to_string());
    Got { output, trouble }
}

/// The same for some constellations, with anything that answers requests in the place of a command.
fn drive(legals: &[Legal], program: impl Fn(&[u8]) -> Got + Sync, to: &mut impl Write) -> io::Result<bool> {
    let (mut pairs, mut failed) = (0, 0);
    for &legal in legals {
        let (fine, coarse) = (fine(legal), coarse(legal));
        let all = [fine.clone(), coarse].concat();
        let texts = failures(legal, &all, &program);
        for text in texts.iter().take(SHOWN.saturating_sub(failed) as usize) {
            writeln!(to, "{}, {text}", name(legal))?;
        }
        let of_these = if fine.is_empty() { String::new() } else { format!(", {} of them a whole square", fine.len()) };
        writeln!(to, "{}: {} pairs{of_these}, {} failed", name(legal), all.len(), texts.len())?;
        pairs += all.len() as u64;
        failed += texts.len() as u64;
    }
    writeln!(to, "{pairs} pairs, {failed} failed")?;
    Ok(failed == 0)
}

fn name(legal: Legal) -> String {
    match legal {
        Legal::Dqpsk => "DQPSK".to_string(),
        Legal::Qam(2) => "QPSK".to_string(),
        Legal::Qam(bits) => format!("{}QAM", 1 << bits),
    }
}

/// Every pair of a square, for the constellations that have a fine grid.
fn fine(legal: Legal) -> Vec<Point> {
    let edge = edge_of_fine(legal);
    (-edge..=edge).flat_map(|i| (-edge..=edge).map(move |q| (i, q))).filter(|_| FINE.contains(&legal)).collect()
}

fn edge_of_fine(legal: Legal) -> i16 {
    PARTS * (greatest_and_step(legal).0 + 1)
}

/// The pairs of the coarse grid that are not of the fine one.
fn coarse(legal: Legal) -> Vec<Point> {
    let (greatest, step) = greatest_and_step(legal);
    let edge = PARTS * (greatest + 2 * step);
    let near = (-edge..=edge).step_by(PARTS as usize / 2).flat_map(|at| [at - 1, at, at + 1]);
    let ends = [i16::MIN, i16::MIN + 1, i16::MAX - 1, i16::MAX];
    let axis: Vec<i16> = near.chain(ends).collect();
    let is_fine = |at: i16| FINE.contains(&legal) && (-edge_of_fine(legal)..=edge_of_fine(legal)).contains(&at);
    let pairs = axis.iter().flat_map(|&i| axis.iter().map(move |&q| (i, q)));
    pairs.filter(|&(i, q)| !(is_fine(i) && is_fine(q))).collect()
}

/// The pairs that the program does not decide as the search does, each in a line.
fn failures(legal: Legal, pairs: &[Point], program: impl Fn(&[u8]) -> Got + Sync) -> Vec<String> {
    let most = most_symbols(legal) * AVAILABLE;
    let input: Vec<u8> = pairs.chunks(most).flat_map(|chunk| request(legal, chunk).to_bytes()).collect();
    // The other program works while we do.
    let (wanted, got) = thread::scope(|scope| {
        let other = scope.spawn(|| program(&input));
        let wanted: Vec<Point> = pairs.iter().map(|&came| nearest(legal, came)).collect();
        (wanted, other.join().expect("no panic"))
    });
    let mut found = Vec::new();
    let mut rest = &got.output[..];
    for (chunk, wanted) in pairs.chunks(most).zip(wanted.chunks(most)) {
        let length = 9 + 2 * (4 + 2 * symbols(legal, chunk) * CARRIERS);
        let (response, after) = rest.split_at(rest.len().min(length));
        rest = after;
        found.extend(failed(symbols(legal, chunk), chunk, wanted, response));
    }
    // What comes too much, and a crash, count as one more pair, if there is one that has not failed.
    if (!rest.is_empty() || got.trouble.is_some()) && found.len() < pairs.len() {
        found.push(format!("after all pairs {} bytes too many; trouble: {:?}", rest.len(), got.trouble));
    }
    found
}

/// The most symbols of a request.
fn most_symbols(legal: Legal) -> usize {
    if legal == Legal::Dqpsk {
        payload_a::SYMBOLS
    } else {
        MOST_SYMBOLS as usize
    }
}

/// The symbols of a request with these pairs.
fn symbols(legal: Legal, pairs: &[Point]) -> usize {
    if legal == Legal::Dqpsk {
        payload_a::SYMBOLS
    } else {
        pairs.len().div_ceil(AVAILABLE)
    }
}

/// To decide these pairs; what is left of the last symbol has the first of them again.
fn request(legal: Legal, pairs: &[Point]) -> Request {
    let symbols = symbols(legal, pairs);
    let mut points = pairs.to_vec();
    points.resize(symbols * AVAILABLE, pairs[0]);
    let lent = vec![POISON; symbols * CARRIERS];
    let (mut i, mut q) = (lent.clone(), lent.clone());
    grid::write(&points, &mut i, &mut q);
    for index in (0..symbols * CARRIERS).filter(|index| held_by(index % CARRIERS).is_none()) {
        (i[index], q[index]) = (POISON, -POISON);
    }
    let (out_i, out_q) = (lent.clone(), lent);
    match legal {
        Legal::Dqpsk => Request::DecideA { mode: 1, i, q, out_i, out_q },
        // In mode 0 so many bytes need just these symbols.
        Legal::Qam(bits) => {
            let length = (symbols * AVAILABLE * bits as usize / 8) as u64;
            Request::DecideB { mode: 0, length, scheme: vec![bits; AVAILABLE], i, q, out_i, out_q }
        }
    }
}

/// The pairs of a request that are not decided as they should be: all of them, if anything else is wrong.
fn failed(symbols: usize, pairs: &[Point], wanted: &[Point], response: &[u8]) -> Vec<String> {
    let each = pairs.iter().zip(wanted);
    let Some((i, q)) = decided(symbols, response) else {
        let head = &response[..response.len().min(9)];
        return each
            .map(|(came, wanted)| format!("{came:?}: {wanted:?} expected; no grid came, but {head:?}"))
            .collect();
    };
    let decided = grid::read(symbols, &i, &q).map(|(_, point)| point);
    let wrong = each.zip(decided).filter(|((_, wanted), got)| *wanted != got);
    wrong.map(|((came, wanted), got)| format!("{came:?}: {wanted:?} expected, {got:?} came")).collect()
}

/// The points of a response that is accepted, with both lists as long as they were lent and (0,0) where nothing is.
fn decided(symbols: usize, response: &[u8]) -> Option<(Vec<i16>, Vec<i16>)> {
    let (head, mut lists) = response.split_at_checked(9)?;
    let (i, q) = (levels(&mut lists)?, levels(&mut lists)?);
    let whole = head == [0; 9] && lists.is_empty() && [i.len(), q.len()] == [symbols * CARRIERS; 2];
    (whole && grid::check_unavailable(symbols, &i, &q).is_ok()).then_some((i, q))
}

#[cfg(test)]
mod tests {
    use super::*;
    use crate::answer::{Answer, Counts, Refusal};
    use crate::nearest::in_order;
    use crate::noisy;
    use crate::trial::{read_request, response};
    use std::collections::BTreeSet;

    const SMALL: [Legal; 2] = [Legal::Dqpsk, Legal::Qam(2)];

    /// A program in the place of a command: it makes every call in this way.
    fn program(call: impl Fn(&mut Request) -> Answer + Sync) -> impl Fn(&[u8]) -> Got + Sync {
        move |mut input| {
            let mut output = Vec::new();
            while let Some(mut request) = read_request(&mut input) {
                let answer = call(&mut request);
                output.extend(response(&request, answer));
            }
            Got { output, trouble: None }
        }
    }

    /// How many pairs were compared, and how many of them failed.
    fn counts(legals: &[Legal], program: impl Fn(&[u8]) -> Got + Sync) -> (u64, u64) {
        let mut text = Vec::new();
        let all = drive(legals, program, &mut text).unwrap();
        let text = String::from_utf8(text).unwrap();
        let words: Vec<&str> = text.lines().last().unwrap().split(' ').collect();
        assert_eq!((words[1], words[3], words.len()), ("pairs,", "failed", 4), "{text}");
        let (pairs, failed) = (words[0].parse().unwrap(), words[2].parse().unwrap());
        assert_eq!(failed == 0, all, "{text}");
        (pairs, failed)
    }

    /// A program that decides each point in this way.
    fn deciding(point: impl Fn(Legal, Point) -> Point + Sync) -> impl Fn(&[u8]) -> Got + Sync {
        program(move |request| {
            let (symbols, legal, i, q, out_i, out_q) = match request {
                Request::DecideA { i, q, out_i, out_q, .. } => (2, Legal::Dqpsk, i, q, out_i, out_q),
                Request::DecideB { scheme, i, q, out_i, out_q, .. } => {
                    (i.len() / CARRIERS, Legal::Qam(scheme[0]), i, q, out_i, out_q)
                }
                _ => unreachable!("only jobs 7 and 8"),
            };
            let points: Vec<Point> = grid::read(symbols, i, q).map(|(_, came)| point(legal, came)).collect();
            grid::write(&points, out_i, out_q);
            Ok(Counts::default())
        })
    }

    #[test]
    fn pairs_by_their_numbers() {
        // On each axis of the coarse grid: three for each half of a level, and four ends.
        for (legal, (outermost, step)) in
            all().into_iter().zip([(1, 1), (1, 2), (2, 2), (3, 2), (5, 2), (7, 2), (11, 2), (15, 2), (23, 2), (31, 2)])
        {
            let axis = 3 * (4 * (outermost + 2 * step) + 1) + 4;
            let pairs: BTreeSet<Point> = fine(legal).into_iter().chain(coarse(legal)).collect();
            assert_eq!(pairs.len(), fine(legal).len() + coarse(legal).len(), "a pair stands twice");
            let side = 2 * edge_of_fine(legal) as usize + 1;
            assert_eq!(fine(legal).len(), if FINE.contains(&legal) { side * side } else { 0 });
            if !FINE.contains(&legal) {
                assert_eq!(pairs.len(), axis * axis);
            }
            assert!(pairs.len() >= axis * axis && pairs.len() < 650_000);
            let edge = outermost as i16 + 2 * step as i16;
            for (i, q) in (-edge..=edge).flat_map(|i| (-edge..=edge).map(move |q| (i, q))) {
                assert!(pairs.contains(&(64 * i, 64 * q)));
            }
            for end in [i16::MIN, i16::MAX, -64 * edge - 1, 64 * edge + 1] {
                assert!([i16::MIN, 0, 33, i16::MAX].iter().all(|&other| pairs.contains(&(end, other))));
            }
        }
    }

    #[test]
    fn every_kind_of_point_stands_in_the_coarse_grid() {
        for legal in [Legal::Qam(4), Legal::Qam(7), Legal::Qam(9)] {
            let found: BTreeSet<noisy::Kind> = coarse(legal).iter().map(|&came| noisy::kind_of(legal, came)).collect();
            assert_eq!(found.into_iter().collect::<Vec<_>>(), noisy::kinds(legal));
        }
    }

    #[test]
    fn requests_are_accepted_and_as_few_as_can_be() {
        for legal in all() {
            for count in [1, 209, 210, 211, 420, 421, 53_760] {
                let count = count.min(most_symbols(legal) * AVAILABLE);
                let mut request = request(legal, &vec![(5, -5); count]);
                assert_eq!(request.call(), Ok(Counts::default()), "{legal:?}, {count} pairs");
            }
        }
    }

    #[test]
    fn this_program_passes() {
        let legals = [Legal::Dqpsk, Legal::Qam(2), Legal::Qam(3), Legal::Qam(4), Legal::Qam(7)];
        let (pairs, failed) = counts(&legals, own);
        assert!(pairs > 200_000 && failed == 0);
        assert_eq!(counts(&SMALL, deciding(nearest)).1, 0);
    }

    #[test]
    fn wrong_decisions_fail() {
        // The last at a tie.
        let last = |legal, came| {
            let least = nearest(legal, came);
            let distance = |point: Point| {
                let off = |level: i16, came: i16| (64 * level as i64 - came as i64).pow(2);
                off(point.0, came.0) + off(point.1, came.1)
            };
            *in_order(legal).iter().rev().find(|&&point| distance(point) == distance(least)).unwrap()
        };
        for legal in [Legal::Dqpsk, Legal::Qam(2), Legal::Qam(3)] {
            let (pairs, failed) = counts(&[legal], deciding(last));
            assert!(failed > 100 && failed < pairs / 4, "{legal:?}: {failed} of {pairs}");
        }
        // One pair alone.
        let one = |legal, came| if came == (i16::MIN, i16::MAX) { in_order(legal)[0] } else { nearest(legal, came) };
        assert_eq!(counts(&SMALL, deciding(one)).1, 2);
        // With differences of 16 bits, which wrap round at the ends of the range alone.
        let wrapped = |legal, came: Point| {
            let off = |level: i16, came: i16| ((64 * level).wrapping_sub(came) as i64).pow(2);
            *in_order(legal).iter().min_by_key(|point| off(point.0, came.0) + off(point.1, came.1)).unwrap()
        };
        let (_, failed) = counts(&SMALL, deciding(wrapped));
        assert!(failed > 100 && failed < 1_000, "{failed}");
        // Each level by itself, and from a hole to the left.
        let rounding = |legal, came: Point| {
            let nearest_level = |came: i16| {
                let levels = noisy::levels(legal).iter().rev();
                *levels.min_by_key(|&&level| (64 * level as i64 - came as i64).abs()).unwrap()
            };
            let (i, q) = (nearest_level(came.0), nearest_level(came.1));
            if noisy::is_point(legal, (i, q)) {
                (i, q)
            } else {
                (i - 2, q)
            }
        };
        let (pairs, failed) = counts(&[Legal::Qam(5)], deciding(rounding));
        assert!(failed > 10_000 && failed < pairs / 4, "{failed}");
    }

    #[test]
    fn whatever_else_is_wrong_fails_all_pairs_of_the_request() {
        let (pairs, _) = counts(&SMALL, own);
        assert_eq!(counts(&SMALL, program(|_| Err(Refusal::NoRoom))), (pairs, pairs));
        assert_eq!(counts(&SMALL, program(|_| Ok(Counts::default()))), (pairs, pairs));
        let unavailable = |request: &mut Request| {
            let answer = request.call();
            if let Request::DecideA { out_q, .. } | Request::DecideB { out_q, .. } = request {
                out_q[130] = 1;
            }
            answer
        };
        assert_eq!(counts(&SMALL, program(unavailable)), (pairs, pairs));
    }

    #[test]
    fn a_program_that_answers_nothing_or_too_much_or_crashes_fails() {
        let (pairs, _) = counts(&SMALL, own);
        assert_eq!(counts(&SMALL, |_| Got::default()), (pairs, pairs));
        assert_eq!(counts(&SMALL, |input| Got { trouble: Some("killed".to_string()), ..own(input) }), (pairs, 2));
        assert_eq!(
            counts(&SMALL, |input| Got { output: [own(input).output, vec![0]].concat(), trouble: None }),
            (pairs, 2)
        );
        assert_eq!(counts(&SMALL, |input| run(&["./no-such-program".to_string()], input)), (pairs, pairs));
        let cut = |input: &[u8]| {
            let mut output = own(input).output;
            output.pop();
            Got { output, trouble: None }
        };
        assert!(counts(&SMALL, cut).1 > 0);
    }

    #[test]
    fn lines_of_the_report() {
        let mut text = Vec::new();
        assert!(drive(&SMALL, own, &mut text).unwrap());
        let text = String::from_utf8(text).unwrap();
        let lines: Vec<&str> = text.lines().collect();
        assert_eq!(lines.len(), 3);
        assert!(
            lines[0].starts_with("DQPSK: ") && lines[0].ends_with(" pairs, 66049 of them a whole square, 0 failed")
        );
        assert_eq!(lines[1], "QPSK: 4489 pairs, 0 failed");
    }
}
