//! Requests from a seed, most of them meant to break something. Each depends on the seed and its index alone.
//!
//! A request begins whole: a true word, burst or frame. Then come the faults it is aimed at, a fault for each refusal
//! number, often none or one, sometimes several, so that the order of the checks shows too.

mod bursts;
mod forged;
mod frames;
mod grids;
mod lent;
mod noisy;
mod strays;
mod streams;
mod words;

use crate::rng::Rng;
use crate::trial::Request;

/// How many requests each job gets: of 53, if they are those of jobs 1 to 6.
fn share(job: u8) -> usize {
    match job {
        2 => 20,
        4 => 9,
        6 | 8 | 9 | 16 => 12,
        _ => 4,
    }
}

/// The request of this index, of one of these jobs.
pub fn request(seed: u64, index: u64, jobs: &[u8]) -> Request {
    let mut rng = Rng::of_request(seed, index);
    let drawn: Vec<u8> = jobs.iter().flat_map(|&job| vec![job; share(job)]).collect();
    match rng.pick(&drawn) {
        1 => words::encode(&mut rng),
        2 => words::decode(&mut rng),
        3 => bursts::send(&mut rng),
        4 => bursts::receive(&mut rng),
        5 => frames::send(&mut rng),
        6 => frames::receive(&mut rng),
        7 => noisy::decide_a(&mut rng),
        8 => noisy::decide_b(&mut rng),
        9 => streams::stream(&mut rng),
        _ => streams::step(&mut rng),
    }
}

/// The refusal numbers a request is aimed at.
struct Faults(Vec<u8>);

impl Faults {
    /// None in two sixths, one in two sixths, one or two in a sixth, any in a sixth.
    fn aim(rng: &mut Rng, numbers: &[u8]) -> Faults {
        match rng.below(6) {
            0 | 1 => Faults(vec![]),
            2 | 3 => Faults(vec![rng.pick(numbers)]),
            4 => Faults(vec![rng.pick(numbers), rng.pick(numbers)]),
            _ => Faults::any_of(rng, numbers),
        }
    }

    /// Each of them once in three times, whatever the others are.
    fn any_of(rng: &mut Rng, numbers: &[u8]) -> Faults {
        Faults(numbers.iter().copied().filter(|_| rng.once_in(3)).collect())
    }

    fn has(&self, number: u8) -> bool {
        self.0.contains(&number)
    }
}

/// A mode or code that is none: the first ones beyond, the last one, or any.
fn unknown(rng: &mut Rng, known: std::ops::RangeInclusive<u8>) -> u8 {
    let beyond = known.end() + 1;
    let number = match rng.below(4) {
        0 => beyond,
        1 => 255,
        2 => 0,
        _ => rng.between(beyond as usize, 255) as u8,
    };
    if known.contains(&number) {
        beyond
    } else {
        number
    }
}

/// Bytes of a frame: any, or all alike.
pub(crate) fn bytes_of_a_frame(rng: &mut Rng, length: usize) -> Vec<u8> {
    match rng.below(8) {
        0 => vec![0; length],
        1 => vec![255; length],
        _ => rng.bytes(length),
    }
}

/// Flips `count` different bits.
pub fn flip(rng: &mut Rng, bits: &mut [u8], count: usize) {
    for place in rng.distinct(count, bits.len()) {
        bits[place] ^= 1;
    }
}

/// Which of `count` things are meant: none, or at least one of them.
fn some_of(rng: &mut Rng, count: usize, any: bool) -> Vec<bool> {
    let chosen = if any { rng.between(1, (1 << count) - 1) } else { 0 };
    (0..count).map(|thing| chosen >> thing & 1 == 1).collect()
}

/// A place among `count`: the first, the last, or any.
fn place(rng: &mut Rng, count: usize) -> usize {
    match rng.below(4) {
        0 => 0,
        1 => count - 1,
        _ => rng.below(count),
    }
}

#[cfg(test)]
mod tests {
    use super::*;
    use crate::again::blocks;
    use crate::answer::NUMBERS;
    use crate::noisy;
    use crate::stray::{Kind, Legal};
    use crate::tally::{protected::RESTS, Tally};
    use std::collections::BTreeMap;

    #[test]
    fn the_same_seed_gives_the_same_requests() {
        for index in 0..50 {
            assert_eq!(request(9, index, &[1, 2, 3, 4, 5, 6]), request(9, index, &[1, 2, 3, 4, 5, 6]));
        }
        assert_ne!(request(9, 1, &[2]), request(9, 2, &[2]));
        assert_ne!(request(9, 1, &[2]), request(10, 1, &[2]));
    }

    #[test]
    fn every_refusal_of_every_job_comes_often() {
        let tally = Tally::of(1, 6_000, &[1, 2, 3, 4, 5, 6, 7, 8]);
        let numbers: [&[usize]; 8] = [
            &[0, 1, 2, 3, 4],
            &[0, 1, 2, 3, 4, 9],
            &[0, 1, 2, 3],
            &[0, 1, 3, 7, 8, 9, 10, 11],
            &[0, 1, 2, 3, 5, 6],
            &[0, 1, 2, 3, 5, 6, 7, 8, 9],
            &[0, 1, 3],
            &[0, 1, 2, 3, 5, 6],
        ];
        for (job, numbers) in numbers.iter().enumerate() {
            for number in 0..NUMBERS {
                let seen = tally.seen[job][number];
                assert_eq!(numbers.contains(&number), seen > 0, "job {} number {number}: {seen}", job + 1);
                assert!(seen == 0 || seen >= 5);
            }
        }
    }

    #[test]
    fn every_answer_of_streams_and_single_steps_comes_often() {
        let streams = Tally::of(1, 3_000, &[9, 16]).streams;
        for (row, numbers) in [
            (0, &[0, 1, 2, 5, 6][..]),
            (1, &[0, 3, 6, 7, 8, 9]),
            (2, &[1, 2, 5, 6, 7, 8, 9]),
            (3, &[0, 1, 2, 3, 5, 6, 7, 8, 9, 16]),
        ] {
            for number in 0..=255 {
                let seen = streams.count(row, number);
                // A single step repeats any refusal that was written into its state.
                assert!(numbers.contains(&number) || seen == 0 || (row == 3 && matches!(number, 4 | 10 | 11)));
                assert!(!numbers.contains(&number) || seen >= 20, "row {row} number {number}: {seen}");
            }
        }
        for (number, part) in [7, 8, 9].into_iter().flat_map(|number| [0, 1, 2].map(|part| (number, part))) {
            assert!(streams.refused(number, part) >= 10, "number {number}, part {part}");
        }
    }

    #[test]
    fn every_kind_of_noisy_point_and_ties_come_on_both_halves() {
        for (job, all) in [(7, vec![Legal::Dqpsk]), (8, (2..=10).map(Legal::Qam).collect())] {
            let tally = Tally::of(1, 1_000, &[job]);
            for legal in all {
                for (kind, half) in noisy::kinds(legal).into_iter().flat_map(|kind| [(kind, 0), (kind, 1)]) {
                    let seen = tally.noisy.count(legal, |h, k| (h, k) == (half, kind));
                    assert!(seen >= 100, "{legal:?}, half {half}, {kind:?}: {seen}");
                }
                let ties = tally.noisy.ties(legal);
                assert!(ties.iter().all(|&count| count >= 100), "{legal:?}: {ties:?}");
            }
        }
    }

    #[test]
    fn each_of_the_lists_of_a_decision_is_the_only_short_one_now_and_then() {
        let mut alone = [[0; 4]; 2];
        for index in 0..4_000 {
            let mut request = request(4, index, &[7, 8]);
            let refused = request.call() == Err(crate::answer::Refusal::NoRoom);
            let (lists, need) = match &request {
                Request::DecideA { i, q, out_i, out_q, .. } => ([i, q, out_i, out_q], 512),
                Request::DecideB { mode, length, scheme, i, q, out_i, out_q } => {
                    let plan = crate::payload_b::plan(*mode, *length, scheme);
                    ([i, q, out_i, out_q], plan.map_or(0, |plan| 256 * plan.symbols))
                }
                _ => unreachable!("only jobs 7 and 8"),
            };
            let short: Vec<usize> = (0..4).filter(|&list| lists[list].len() < need).collect();
            if let (true, &[only]) = (refused, &short[..]) {
                alone[request.job() as usize - 7][only] += 1;
            }
        }
        assert!(alone.iter().flatten().all(|&count| count >= 15), "{alone:?}");
    }

    #[test]
    fn every_kind_of_stray_point_decides_answers_on_both_halves() {
        for (job, all) in [(4, vec![Legal::Dqpsk]), (6, (2..=10).map(Legal::Qam).collect())] {
            let tally = Tally::of(1, 5_000, &[job]);
            for (legal, half) in all.iter().flat_map(|&legal| [(legal, 0), (legal, 1)]) {
                for kind in legal.kinds() {
                    let seen = tally.strays.count(legal, |h, k| (h, k) == (half, kind));
                    assert!(seen > 0, "{legal:?}, half {half}, {kind:?}");
                }
            }
        }
    }

    #[test]
    fn holes_decide_answers_among_the_committed_requests() {
        let tally = Tally::of(1, 1_500, &[1, 2, 3, 4, 5, 6]);
        for bits in [5, 7, 9] {
            assert!(tally.strays.count(Legal::Qam(bits), |_, kind| kind == Kind::Hole) > 0, "{bits} bits");
        }
    }

    /// The jobs whose answers have lists of mended places, and their codes, or the mode.
    const WITH_LISTS: [(u8, u8); 4] = [(2, 1), (2, 2), (2, 3), (4, 1)];

    #[test]
    fn every_count_and_full_lists_come_among_the_committed_requests() {
        let tally = Tally::of(1, 1_500, &[1, 2, 3, 4, 5, 6]);
        for (code, t) in [(1, 4), (2, 8), (3, 16)] {
            assert_eq!(tally.reached[&(2, code)].mended, (0..=t).collect());
        }
        for from in WITH_LISTS {
            assert!(tally.reached[&from].lists.seen().iter().all(|list| list.full > 0), "{from:?}");
        }
    }

    #[test]
    fn both_ends_of_a_word_are_mended_in_every_list() {
        let tally = Tally::of(1, 5_000, &[1, 2, 3, 4, 5, 6]);
        for from in WITH_LISTS {
            let lists = tally.reached[&from].lists.seen();
            assert_eq!(lists.len(), from.0 as usize / 2);
            assert!(lists.iter().all(|list| list.first > 0 && list.last > 0), "{from:?}");
        }
    }

    /// The jobs and modes that have blocks, and how many bits of a block are mended.
    const WITH_BLOCKS: [((u8, u8), u64); 3] = [((4, 1), 16), ((6, 1), 4), ((6, 2), 8)];

    /// Holds the worst blocks to stand at least so often in each place.
    fn worst_stand_everywhere(tally: &Tally, least: u64) {
        for (from, _) in WITH_BLOCKS {
            let worst = &tally.reached[&from].worst;
            assert!([worst.first, worst.last, worst.several].iter().all(|&count| count >= least), "{from:?}{worst}");
            // Payload A has but two halves.
            assert!(if from.0 == 4 { worst.middle == 0 } else { worst.middle >= least }, "{from:?}{worst}");
        }
    }

    #[test]
    fn the_worst_block_stands_everywhere_and_has_every_count() {
        worst_stand_everywhere(&Tally::of(1, 1_500, &[1, 2, 3, 4, 5, 6]), 3);
        let tally = Tally::of(1, 5_000, &[4, 6]);
        worst_stand_everywhere(&tally, 20);
        for (from, t) in WITH_BLOCKS {
            assert_eq!(tally.reached[&from].worst.counts, (0..=t).collect());
        }
    }

    /// What a receiver may answer in the place of the worst: its name, and its value from the counts of the blocks.
    type Wrong = (&'static str, fn(&[u64]) -> u64);

    const WRONG_WORSTS: [Wrong; 8] = [
        ("none", |_| 0),
        ("the first block's", |blocks| blocks[0]),
        ("the last block's", |blocks| blocks[blocks.len() - 1]),
        ("the last's that was hit", |blocks| blocks.iter().rev().find(|&&count| count > 0).map_or(0, |&count| count)),
        ("the least", |blocks| blocks.iter().min().map_or(0, |&count| count)),
        ("the mean", |blocks| blocks.iter().sum::<u64>().div_ceil(blocks.len() as u64)),
        ("the total", |blocks| blocks.iter().sum()),
        ("how many blocks were hit", |blocks| blocks.iter().filter(|&&count| count > 0).count() as u64),
    ];

    #[test]
    fn every_wrong_worst_shows_among_the_committed_requests() {
        let mut shown: BTreeMap<((u8, u8), &str), u64> = BTreeMap::new();
        for index in 0..1_500 {
            let mut request = request(1, index, &[1, 2, 3, 4, 5, 6]);
            let Ok(counts) = request.call() else {
                continue;
            };
            let (from, blocks) = ((request.job(), request.code_or_mode()), blocks(&request));
            if blocks.is_empty() {
                continue;
            }
            for (name, wrong) in WRONG_WORSTS {
                *shown.entry((from, name)).or_default() += (wrong(&blocks) != counts.worst) as u64;
            }
        }
        assert_eq!(shown.len(), WITH_BLOCKS.len() * WRONG_WORSTS.len());
        assert!(shown.values().all(|&count| count >= 5), "{shown:?}");
    }

    /// The fewest bursts of a row of `RESTS` in which this number of protected bits differed.
    fn fewest(tally: &Tally, differing: u64) -> u64 {
        let of_row =
            |(mode, rest, _)| tally.protected.count(|b| (b.mode, b.rest, b.differing) == (mode, rest, differing));
        RESTS.map(of_row).into_iter().min().expect("rows")
    }

    #[test]
    fn every_count_of_protected_bits_decides_answers_in_both_modes() {
        let tally = Tally::of(1, 20_000, &[4]);
        for mode in [0, 1] {
            assert_eq!(tally.reached[&(4, mode)].protected, (0..=12).collect());
            assert_eq!(tally.protected.of_noise(mode), (13..=56).collect());
        }
        assert!([0, 1, 2, 12, 13, 56].iter().all(|&differing| fewest(&tally, differing) >= 20), "{tally}");
    }

    #[test]
    fn both_edges_of_noise_come_among_the_committed_requests() {
        let tally = Tally::of(1, 1_500, &[1, 2, 3, 4, 5, 6]);
        assert!([12, 13].iter().all(|&differing| fewest(&tally, differing) > 0), "{tally}");
        assert!([0, 1].iter().all(|&mode| tally.protected.of_noise(mode).contains(&56)), "{tally}");
    }

    #[test]
    fn requests_are_of_moderate_size() {
        let total: usize = (0..4_000).map(|index| request(2, index, &[1, 2, 3, 4, 5, 6]).to_bytes().len()).sum();
        assert!(total / 4_000 < 6_000, "{}", total / 4_000);
    }

    #[test]
    fn jobs_can_be_chosen() {
        assert!((0..200).all(|index| [2, 5].contains(&request(3, index, &[2, 5]).job())));
    }
}
