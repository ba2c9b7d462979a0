//! The stream of Payload B held against what this program does in other ways.
//!
//! - Each call of a stream: what the first symbols of the whole grid give, all at once (checks 7, 8 and 9 of document
//!   01 over them, and the blocks complete in them).
//! - A stream with all its symbols: the whole form, and the counts of sending the frame again.
//! - Each stream: steps from its states by job 16, one after the other.
//! - Each state of job 16: what a sound state is, by numbers.

use crate::answer::{Answer, Counts, Refusal};
use crate::grid::{self, CARRIERS};
use crate::payload_b::{plan, unmapped, Plan};
use crate::points::constellation;
use crate::state_b::{self, State};
use crate::stream_b::{open, Stream};
use crate::tally::Tally;
use crate::trial::{Call, Request};
use crate::{again, bits, compare, hostile, scrambler};
use std::collections::BTreeMap;
use std::fmt;
use std::io::{self, Write};

/// Up to so many symbols, every call is held against the whole grid; of longer streams the first, the middle and the
/// last symbol, and the one that is refused.
const SHORT: usize = 12;

/// What was compared.
#[derive(Default)]
struct Compared {
    calls: u64,
    grids: u64,
    wholes: u64,
    steps: u64,
    states: u64,
    /// Symbols refused by one number that a later one would refuse too, by both.
    rivals: BTreeMap<(u8, u8), u64>,
    /// Streams that end refused, by their number and the whole form's.
    both: BTreeMap<(u8, u8), u64>,
    /// Open states that fail one clause of soundness alone, by clause.
    alone: [u64; CLAUSES.len()],
}

/// Streams and single steps from the seed, `count` of each. Writes differences, what was compared, a tally, and
/// `N passed, M failed`. True if none failed.
pub fn streams(seed: u64, count: u64, to: &mut impl Write) -> io::Result<bool> {
    let (mut compared, mut tally, mut failed) = (Compared::default(), Tally::default(), 0);
    for (job, index) in [9, 16].into_iter().flat_map(|job| (0..count).map(move |index| (job, index))) {
        let before = hostile::request(seed, index, &[job]);
        let mut after = before.clone();
        let answer = after.call();
        tally.add(&after, &answer);
        let held = match job {
            9 => compared.stream(&before, &after, answer),
            _ => compared.step(&before, &after, answer),
        };
        if let Err(text) = held {
            failed += 1;
            if failed > compare::SHOWN {
                continue;
            }
            writeln!(to, "request {index} of seed {seed}, job {job}: {}\n  {text}", compare::described(&before))?;
        }
    }
    writeln!(to, "{count} streams, {count} single steps; {compared}")?;
    writeln!(to, "{tally}\n{} passed, {failed} failed", 2 * count - failed)?;
    Ok(failed == 0)
}

impl fmt::Display for Compared {
    fn fmt(&self, f: &mut fmt::Formatter) -> fmt::Result {
        let Compared { calls, grids, wholes, steps, states, .. } = self;
        write!(f, "{calls} calls, {grids} of them held against the whole grid, {steps} against single steps")?;
        write!(f, "\n{wholes} streams held against the whole form, {states} states against what a sound one is")?;
        write!(f, "\nrefused with one number in a symbol that has a later one too:{}", Pairs(&self.rivals))?;
        write!(f, "\nrefused with one number, and by the whole form with another or the same:{}", Pairs(&self.both))?;
        write!(f, "\nforged in one alone:")?;
        CLAUSES.iter().zip(self.alone).try_for_each(|(name, count)| write!(f, " {name}: {count};"))
    }
}

/// Pairs of numbers, and how many of each.
struct Pairs<'a>(&'a BTreeMap<(u8, u8), u64>);

impl fmt::Display for Pairs<'_> {
    fn fmt(&self, f: &mut fmt::Formatter) -> fmt::Result {
        self.0.iter().try_for_each(|((one, other), count)| write!(f, " {one} and {other}: {count};"))
    }
}

/// Nothing, or what is different.
type Held = Result<(), String>;

fn same<T: PartialEq>(what: impl FnOnce() -> String, one: &T, other: &T) -> Held {
    if one == other {
        Ok(())
    } else {
        Err(what())
    }
}

impl Compared {
    fn stream(&mut self, before: &Request, after: &Request, answer: Answer) -> Held {
        let (Request::StreamB { mode, length, scheme, area: lent, .. }, Request::StreamB { calls, .. }) =
            (before, after)
        else {
            unreachable!("job 9");
        };
        self.calls += calls.len() as u64;
        self.chained(&open(*mode, *length, scheme), lent, calls)?;
        match plan(*mode, *length, scheme) {
            Err(refusal) => {
                same(|| "the opening".to_string(), &answer, &Err(refusal))?;
                let repeated = Some((Err(refusal), lent.clone()));
                let all = calls.iter().all(|call| call.after == repeated);
                same(|| "a call after a refused opening".to_string(), &all, &true)
            }
            Ok(plan) => {
                same(|| "the opening".to_string(), &answer, &Ok(Counts::default()))?;
                self.by_grid(&plan, scheme, lent, calls)?;
                self.by_whole(*mode, *length, scheme, lent, &taken(&plan, lent, calls))
            }
        }
    }

    /// Job 16 again and again, from the state that the opening gives: the same answers and areas, and the state that
    /// the stream itself has.
    fn chained(&mut self, opened: &Stream, lent: &[u8], calls: &[Call]) -> Held {
        let (mut stream, mut streams_area) = (opened.clone(), lent.to_vec());
        let (mut state, mut area) = (State::of(opened).to_bytes(), lent.to_vec());
        for (number, call) in calls.iter().enumerate() {
            let mut request = Request::StepB { state, i: call.i.clone(), q: call.q.clone(), area };
            let answer = request.call();
            let _ = stream.step(&call.i, &call.q, &mut streams_area);
            let Request::StepB { state: next, area: left, .. } = request else {
                unreachable!("job 16");
            };
            (state, area) = (next, left);
            self.steps += 1;
            same(|| format!("call {number} by job 16"), &Some((answer, area.clone())), &call.after)?;
            same(|| format!("the state after call {number}"), &state, &State::of(&stream).to_bytes())?;
        }
        Ok(())
    }

    /// Each call by the first symbols of the whole grid.
    fn by_grid(&mut self, plan: &Plan, scheme: &[u8], lent: &[u8], calls: &[Call]) -> Held {
        let (mut i, mut q) = (vec![], vec![]);
        let (mut refused, mut area) = (None, lent.to_vec());
        let mut seen = 0;
        for (number, call) in calls.iter().enumerate() {
            let short = call.i.len() < CARRIERS || call.q.len() < CARRIERS || lent.len() < plan.length;
            let answer = match refused {
                Some(refusal) => Err(refusal),
                None if seen == plan.symbols => Err(Refusal::TooManySymbols),
                None if short => Err(Refusal::NoRoom),
                None => {
                    i.extend(&call.i[..CARRIERS]);
                    q.extend(&call.q[..CARRIERS]);
                    seen += 1;
                    let told = matches!(call.after, Some((Ok(_), _)));
                    let looked = plan.symbols <= SHORT || !told || [1, plan.symbols / 2, plan.symbols].contains(&seen);
                    if !looked {
                        continue;
                    }
                    self.grids += 1;
                    let found = first_symbols(plan, scheme, seen, &i, &q);
                    match found {
                        Ok((counts, bytes)) => {
                            area = [&bytes, &lent[bytes.len()..]].concat();
                            Ok(counts)
                        }
                        Err(refusal) => {
                            area = [&vec![0; plan.length], &lent[plan.length..]].concat();
                            refused = Some(refusal);
                            if let Some(rival) = rival(plan, scheme, seen, refusal, &i, &q) {
                                *self.rivals.entry((refusal.number(), rival.number())).or_default() += 1;
                            }
                            // None of the symbols before it would have been refused.
                            let earlier = first_symbols(plan, scheme, seen - 1, &i, &q).is_ok();
                            same(|| format!("the symbols before call {number}"), &earlier, &true)?;
                            Err(refusal)
                        }
                    }
                }
            };
            let Some((told, left)) = &call.after else {
                return Err(format!("call {number} has no answer"));
            };
            same(|| format!("call {number} answers {told:?}, by the grid {answer:?}"), told, &answer)?;
            // What is not looked at leaves the area as the call before did.
            if plan.symbols <= SHORT || answer.is_ok() || refused.is_some() {
                same(|| format!("the area after call {number}"), left, &area)?;
            }
        }
        Ok(())
    }

    /// A stream with all its symbols: accepted just when the whole form accepts them, with its area and counts.
    fn by_whole(&mut self, mode: u8, length: u64, scheme: &[u8], lent: &[u8], calls: &[&Call]) -> Held {
        let Some(last) = calls.last() else {
            return Ok(());
        };
        self.wholes += 1;
        let joined =
            |list: fn(&Call) -> &[i16]| calls.iter().flat_map(|call| list(call)[..CARRIERS].to_vec()).collect();
        let (i, q) = (joined(|call| &call.i), joined(|call| &call.q));
        let mut whole = Request::ReceiveB { mode, length, scheme: scheme.to_vec(), i, q, area: lent.to_vec() };
        let received = whole.call();
        let Some((told, left)) = &last.after else {
            return Err("a call has no answer".to_string());
        };
        same(
            || format!("the stream ends with {told:?}, the whole form {received:?}"),
            &told.is_ok(),
            &received.is_ok(),
        )?;
        if let (Err(one), Err(other)) = (told, received) {
            *self.both.entry((one.number(), other.number())).or_default() += 1;
        }
        let Ok(counts) = told else {
            return Ok(());
        };
        same(|| "counts of stream and whole form".to_string(), told, &received)?;
        let blocks = again::blocks(&whole);
        let again = (blocks.iter().sum(), blocks.iter().max().copied().unwrap_or(0));
        same(|| "counts by sending again".to_string(), &(counts.mended, counts.worst), &again)?;
        let Request::ReceiveB { area, .. } = whole else {
            unreachable!("job 6");
        };
        same(|| "areas of stream and whole form".to_string(), left, &area)
    }

    fn count_alone(&mut self, state: &State) {
        let failed: Vec<usize> = (0..CLAUSES.len()).filter(|&clause| !clauses(state)[clause]).collect();
        if let [clause] = failed[..] {
            self.alone[clause] += 1;
        }
    }

    fn step(&mut self, before: &Request, after: &Request, answer: Answer) -> Held {
        let (Request::StepB { state, area, i, q }, Request::StepB { state: state_after, area: area_after, .. }) =
            (before, after)
        else {
            unreachable!("job 16");
        };
        self.states += 1;
        let fields = State::of_bytes(state).ok_or("no state")?;
        let sound = sound(&fields);
        let opened = State { number: 0, place: 0, ..fields.clone() };
        let made = opened.stream().is_some();
        same(|| format!("a stream is made of it: {made}; sound by numbers: {sound}"), &made, &sound)?;
        let unchanged = state == state_after && area == area_after;
        let expected = match (fields.number, fields.place) {
            (0, 0) if sound => None,
            (0, 0) => {
                self.count_alone(&fields);
                Some(Refusal::Forged)
            }
            (number, place) => Some(Refusal::of(number, place).unwrap_or(Refusal::Forged)),
        };
        if let Some(refusal) = expected {
            same(|| format!("{refusal:?} is expected, {answer:?} comes"), &answer, &Err(refusal))?;
            return same(|| "something changed".to_string(), &unchanged, &true);
        }
        let plan = plan(fields.mode, fields.size, &fields.scheme).map_err(|_| "no plan")?;
        let short = i.len() < CARRIERS || q.len() < CARRIERS || area.len() < plan.length;
        let next = State::of_bytes(state_after).ok_or("no state")?;
        let ended = fields.seen == plan.symbols as u64;
        same(|| "6 just after the last symbol".to_string(), &(answer == Err(Refusal::TooManySymbols)), &ended)?;
        same(|| "3 just without room".to_string(), &(answer == Err(Refusal::NoRoom)), &(short && !ended))?;
        match answer {
            Err(Refusal::TooManySymbols | Refusal::NoRoom) => same(|| "it changed".to_string(), &unchanged, &true),
            Err(refusal) => {
                let zeroed = [&vec![0; plan.length], &area[plan.length..]].concat();
                same(|| "the area after a refusal".to_string(), area_after, &zeroed)?;
                let stopped = State { number: refusal.number(), place: refusal.place(), ..fields };
                same(|| "the state after a refusal".to_string(), &next, &stopped)
            }
            Ok(counts) => {
                same(|| "the counts".to_string(), &(counts.mended, counts.worst), &(next.mended, next.worst))?;
                same(|| "a sound state".to_string(), &self::sound(&next), &true)?;
                let kept = State {
                    scheme: fields.scheme,
                    mode: fields.mode,
                    size: fields.size,
                    seen: fields.seen + 1,
                    number: 0,
                    place: 0,
                    ..next.clone()
                };
                same(|| "the state after".to_string(), &next, &kept)
            }
        }
    }
}

/// The calls that took the frame's symbols, or would have, if there were as many as it needs; else none.
fn taken<'a>(plan: &Plan, lent: &[u8], calls: &'a [Call]) -> Vec<&'a Call> {
    let enough = |call: &&Call| call.i.len() >= CARRIERS && call.q.len() >= CARRIERS && lent.len() >= plan.length;
    let all: Vec<&Call> = calls.iter().filter(enough).take(plan.symbols).collect();
    if all.len() == plan.symbols {
        all
    } else {
        vec![]
    }
}

/// What the first symbols of a whole grid give, all at once: counts and bytes of the blocks complete in them, or the
/// first refusal in the order of document 01.
fn first_symbols(plan: &Plan, scheme: &[u8], count: usize, i: &[i16], q: &[i16]) -> Result<(Counts, Vec<u8>), Refusal> {
    grid::check_unavailable(count, i, q)?;
    let received = unmapped(count, scheme, i, q)?;
    let (information, places) = plan.decoded(whole_blocks(plan, &received))?;
    Ok((Counts::of_blocks(&places), bits::to_bytes(&scrambler::scrambled(&information))))
}

/// The bits of the frame's blocks that are complete in these.
fn whole_blocks<'a>(plan: &Plan, received: &'a [u8]) -> &'a [u8] {
    &received[..(received.len() / plan.block_bits()).min(plan.blocks()) * plan.block_bits()]
}

/// The refusal by a later number that the last of these symbols has too: for 7 an 8, or else a 9; for 8 a 9 of a block
/// that ends before the stray point.
fn rival(plan: &Plan, scheme: &[u8], count: usize, refusal: Refusal, i: &[i16], q: &[i16]) -> Option<Refusal> {
    let (mut i, mut q) = (i.to_vec(), q.to_vec());
    let mut bits = plan.coded_bits;
    match refusal {
        Refusal::Filled(_) => {
            for index in (0..i.len()).filter(|index| grid::held_by(index % CARRIERS).is_none()) {
                (i[index], q[index]) = (0, 0);
            }
        }
        Refusal::Stray(first) => {
            let before = &scheme[..grid::held_by(first % CARRIERS)? - 1];
            bits = (count - 1) * plan.symbol_bits + before.iter().map(|&bits| bits as usize).sum::<usize>();
            while let Err(Refusal::Stray(index)) = unmapped(count, scheme, &i, &q) {
                (i[index], q[index]) = constellation(scheme[grid::held_by(index % CARRIERS)? - 1])?.point(0);
            }
        }
        _ => return None,
    }
    match unmapped(count, scheme, &i, &q) {
        Err(stray) => Some(stray),
        Ok(received) => plan.decoded(whole_blocks(plan, &received[..received.len().min(bits)])).err(),
    }
}

/// What a sound state must hold.
const CLAUSES: [&str; 8] = ["1, 2, 5 and 6", "seen", "count", "register", "zeros behind", "t", "least", "most"];

/// Which of these a state holds, refusal apart: by the numbers of blocks and bits, and the scrambler's stages shifted
/// one after the other. If it fails the first, nothing is said of the others.
fn clauses(state: &State) -> [bool; CLAUSES.len()] {
    let Ok(plan) = plan(state.mode, state.size, &state.scheme) else {
        return [false, true, true, true, true, true, true, true];
    };
    let (n, bytes, t) = [(8, 1, 0), (508, 59, 4), (504, 54, 8)][state.mode as usize];
    let blocks = state.size as u128 / bytes;
    let received = plan.symbol_bits as u128 * state.seen as u128;
    let done = (received / n).min(blocks);
    let count = if done < blocks { received % n } else { 0 };
    let mut stages = 0b010010011011000u16;
    for _ in 0..8 * bytes * done {
        stages = (stages << 1 | (stages >> 13 ^ stages >> 14) & 1) & 0x7FFF;
    }
    let behind = state_b::bits(&state.block).split_off(state.count.min(512) as usize);
    [
        true,
        state.seen <= plan.symbols as u64,
        state.count as u128 == count,
        state.register == stages,
        behind.iter().all(|&bit| bit == 0),
        state.worst <= t,
        state.worst <= state.mended,
        state.mended as u128 <= state.worst as u128 * done,
    ]
}

/// Whether an opening and steps give a state, refusal apart.
fn sound(state: &State) -> bool {
    clauses(state).iter().all(|&holds| holds)
}

#[cfg(test)]
mod tests {
    use super::*;

    #[test]
    fn streams_agree_with_everything_else() {
        let mut text = Vec::new();
        let all = streams(1, 400, &mut text).unwrap();
        assert!(all, "{}", String::from_utf8(text).unwrap());
    }
}
