//! What the requests of a seed bring up: each refusal number of each job and its places; of the words, bursts and
//! frames that came as far as the decoder, by code or mode, how many, which counts, which blocks were the worst, and
//! which lists of mended places; the protected bits that differed; the kinds of stray points; the kinds of noisy points
//! that were decided; and what streams were answered.

mod lists;
mod noisy;
pub mod protected;
mod strays;
mod streams;
mod worst;

use crate::answer::{Answer, Refusal, NUMBERS};
use crate::trial::{Request, JOBS};
use crate::{again, hostile};
use lists::Lists;
use noisy::Noisy;
use protected::Protected;
use std::collections::{BTreeMap, BTreeSet};
use std::fmt;
use strays::Strays;
use streams::Streams;
use worst::Worst;

#[derive(Default)]
pub struct Tally {
    /// How often, by job - 1 and number.
    pub seen: [[u64; NUMBERS]; JOBS.len()],
    /// At which places, by job - 1 and number.
    places: [[BTreeSet<u64>; NUMBERS]; JOBS.len()],
    /// What came as far as the decoder, by job and by code or mode.
    pub reached: BTreeMap<(u8, u8), Reached>,
    /// The bursts of Payload A that came as far as their protected bits.
    pub protected: Protected,
    /// The stray points that were refused.
    pub strays: Strays,
    /// The noisy points that were decided.
    pub noisy: Noisy,
    /// Jobs 9 and 16, which stand in none of the others.
    pub streams: Streams,
}

pub struct Reached {
    calls: u64,
    /// Counts of accepted answers.
    pub mended: BTreeSet<u64>,
    pub protected: BTreeSet<u64>,
    pub worst: Worst,
    /// Lists of accepted answers.
    pub lists: Lists,
}

impl Reached {
    /// Nothing yet, of a job in this code or mode.
    fn of(job: u8, choice: u8) -> Reached {
        let lists = Lists::of(job, choice);
        Reached { calls: 0, mended: BTreeSet::new(), protected: BTreeSet::new(), worst: Worst::default(), lists }
    }
}

impl Tally {
    /// The tally of the first `count` requests.
    pub fn of(seed: u64, count: u64, jobs: &[u8]) -> Tally {
        let mut tally = Tally::default();
        for index in 0..count {
            let mut request = hostile::request(seed, index, jobs);
            let answer = request.call();
            tally.add(&request, &answer);
        }
        tally
    }

    pub fn add(&mut self, request: &Request, answer: &Answer) {
        let job = request.job();
        if matches!(job, 9 | 16) {
            return self.streams.add(request, answer);
        }
        let (number, place) = answer.map_or_else(|refusal| (refusal.number(), refusal.place()), |_| (0, 0));
        self.seen[job as usize - 1][number as usize] += 1;
        self.places[job as usize - 1][number as usize].insert(place);
        // After the checks a decoding job is accepted, or refused with 9 or 10.
        if matches!(job, 2 | 4 | 6) && matches!(number, 0 | 9 | 10) {
            let choice = request.code_or_mode();
            let reached = self.reached.entry((job, choice)).or_insert_with(|| Reached::of(job, choice));
            reached.calls += 1;
            if let Ok(counts) = answer {
                reached.mended.insert(counts.mended);
                reached.protected.insert(counts.protected);
                reached.worst.add(counts.worst, &again::blocks(request));
                reached.lists.add(counts);
            }
        }
        if job == 4 && matches!(number, 0 | 9 | 10 | 11) {
            self.protected.add(request, answer);
        }
        if let Err(Refusal::Stray(index)) = *answer {
            self.strays.add(request, index);
        }
        if matches!(job, 7 | 8) && number == 0 {
            self.noisy.add(request);
        }
    }

    /// The jobs that have a row: 7 and 8 only if they came.
    fn rows(&self) -> impl Iterator<Item = usize> + '_ {
        (0..JOBS.len()).filter(|&job| job < 6 || self.seen[job].iter().any(|&count| count > 0))
    }
}

impl fmt::Display for Tally {
    fn fmt(&self, f: &mut fmt::Formatter) -> fmt::Result {
        let head = |f: &mut fmt::Formatter, title| {
            write!(f, "{title:12}")?;
            (0..NUMBERS).try_for_each(|number| write!(f, "{number:>8}"))
        };
        head(f, "number")?;
        for job in self.rows() {
            write!(f, "\n{:12}", JOBS[job])?;
            self.seen[job].iter().try_for_each(|count| write!(f, "{count:>8}"))?;
        }
        writeln!(f)?;
        head(f, "places")?;
        for job in self.rows() {
            write!(f, "\n{:12}", JOBS[job])?;
            self.places[job].iter().try_for_each(|places| write!(f, "{:>8}", places.len()))?;
        }
        for ((job, choice), reached) in &self.reached {
            let name = JOBS[*job as usize - 1];
            let what = if *job == 2 { "code" } else { "mode" };
            write!(
                f,
                "\n{name}, {what} {choice}: {} came as far as the decoder; mended {}",
                reached.calls,
                Runs(&reached.mended)
            )?;
            if *job == 4 {
                write!(f, "; protected {}", Runs(&reached.protected))?;
            }
            if *job != 2 {
                write!(f, "{}", reached.worst)?;
            }
            write!(f, "{}", reached.lists)?;
        }
        write!(f, "{}{}{}{}", self.protected, self.strays, self.noisy, self.streams)
    }
}

/// Numbers in rising order, runs of them as `first..last`.
struct Runs<'a>(&'a BTreeSet<u64>);

impl fmt::Display for Runs<'_> {
    fn fmt(&self, f: &mut fmt::Formatter) -> fmt::Result {
        let mut runs: Vec<(u64, u64)> = Vec::new();
        for &number in self.0 {
            match runs.last_mut() {
                Some((_, last)) if *last + 1 == number => *last = number,
                _ => runs.push((number, number)),
            }
        }
        let texts: Vec<String> = runs
            .iter()
            .map(|(first, last)| if first == last { first.to_string() } else { format!("{first}..{last}") })
            .collect();
        f.write_str(&texts.join(", "))
    }
}

#[cfg(test)]
mod tests {
    use super::*;

    #[test]
    fn counts_every_request_once() {
        let tally = Tally::of(1, 300, &[1, 2, 3, 4, 5, 6]);
        assert_eq!(tally.seen.iter().flatten().sum::<u64>(), 300);
        let reached: u64 = tally.reached.values().map(|reached| reached.calls).sum();
        let decoded: u64 = [1, 3, 5]
            .iter()
            .map(|&job| [0, 9, 10].iter().map(|&number: &usize| tally.seen[job][number]).sum::<u64>())
            .sum();
        assert_eq!(reached, decoded);
        assert_eq!(Tally::of(1, 300, &[2, 7, 8]).seen.iter().flatten().sum::<u64>(), 300);
    }

    #[test]
    fn only_jobs_that_came_have_further_rows() {
        let lines = |jobs| Tally::of(1, 100, jobs).to_string();
        assert!(!lines(&[1, 2, 3, 4, 5, 6]).contains("decide"));
        assert!(lines(&[7]).contains("decide A") && !lines(&[7]).contains("decide B"));
        assert!(lines(&[1, 8]).contains("decide B") && !lines(&[1, 8]).contains("decide A"));
    }

    #[test]
    fn runs_of_numbers() {
        assert_eq!(Runs(&BTreeSet::from([0, 1, 2, 5, 7, 8])).to_string(), "0..2, 5, 7..8");
        assert_eq!(Runs(&BTreeSet::new()).to_string(), "");
    }
}
