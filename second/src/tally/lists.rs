//! The lists of mended places that were answered: how many had as many places as the code mends, how many had place 0,
//! and how many the word's last place.

use crate::answer::{Counts, Places};
use crate::bch::{self, Code};
use std::fmt;

/// How many, for each of the lists that a job answers in one code or mode.
pub struct Lists(Vec<Seen>);

/// How many lists had t places, place 0, and the last place; and what these lists are called, and of which code.
pub struct Seen {
    name: &'static str,
    code: &'static Code,
    pub full: u64,
    pub first: u64,
    pub last: u64,
}

impl Lists {
    /// Those of a job in this code or mode.
    pub fn of(job: u8, choice: u8) -> Lists {
        let (names, number): (&[&'static str], u8) = match (job, choice) {
            (2, number) => (&["lists"], number),
            (4, 1) => (&["first lists", "second lists"], 3),
            _ => (&[], 0),
        };
        let code = bch::code(number);
        let seen = |&name| code.map(|code| Seen { name, code, full: 0, first: 0, last: 0 });
        Lists(names.iter().filter_map(seen).collect())
    }

    pub fn add(&mut self, counts: &Counts) {
        let lists = &counts.places[..self.0.len()];
        // A mended place that no list shows is place 0, alone in its word: a list of zeros and a count. If there are
        // more lists of zeros than such places, the answer does not say whose they are, and they are not counted.
        let hidden = counts.mended as usize - lists.iter().map(shown).sum::<usize>();
        let zeros = lists.iter().filter(|list| shown(list) == 0).count();
        for (seen, list) in self.0.iter_mut().zip(lists) {
            let first = if shown(list) > 0 { list[0] == 0 } else { hidden == zeros };
            seen.full += (shown(list) == seen.code.t) as u64;
            seen.first += first as u64;
            seen.last += (list[..shown(list)].last() == Some(&(seen.code.n as u16 - 1))) as u64;
        }
    }

    pub fn seen(&self) -> &[Seen] {
        &self.0
    }
}

/// How many places a list shows: all up to the last that is not 0.
fn shown(list: &Places) -> usize {
    list.iter().rposition(|&place| place != 0).map_or(0, |last| last + 1)
}

impl fmt::Display for Lists {
    fn fmt(&self, f: &mut fmt::Formatter) -> fmt::Result {
        for Seen { name, code, full, first, last } in &self.0 {
            let (t, end) = (code.t, code.n - 1);
            write!(f, "; {name} with {t} places {full}, with place 0 {first}, with place {end} {last}")?;
        }
        Ok(())
    }
}

#[cfg(test)]
mod tests {
    use super::*;
    use crate::answer::listed;

    fn told(job: u8, choice: u8, answers: &[[&[usize]; 2]]) -> String {
        let mut lists = Lists::of(job, choice);
        for places in answers {
            let mended = places.iter().map(|places| places.len() as u64).sum();
            lists.add(&Counts { mended, places: places.map(listed), ..Counts::default() });
        }
        lists.to_string()
    }

    #[test]
    fn the_ends_of_a_word_and_full_lists_are_seen() {
        let answers: [[&[usize]; 2]; 5] = [[&[], &[]], [&[0], &[]], [&[0, 1, 2, 507], &[]], [&[507], &[]], [&[3], &[]]];
        assert_eq!(told(2, 1, &answers), "; lists with 4 places 1, with place 0 2, with place 507 2");
        let full: Vec<usize> = (376..392).collect();
        assert_eq!(told(2, 3, &[[&full, &[]]]), "; lists with 16 places 1, with place 0 0, with place 391 1");
    }

    #[test]
    fn the_halves_are_told_apart_where_the_answer_does() {
        let alone = |first, second| {
            let zeros = format!("; first lists with 16 places 0, with place 0 {first}, with place 391 0");
            zeros + &format!("; second lists with 16 places 0, with place 0 {second}, with place 391 0")
        };
        assert_eq!(told(4, 1, &[[&[0], &[0]]]), alone(1, 1));
        assert_eq!(told(4, 1, &[[&[0], &[5]], [&[0, 7], &[]]]), alone(2, 0));
        assert_eq!(told(4, 1, &[[&[0, 9], &[0]], [&[8], &[0]]]), alone(1, 2));
        assert_eq!(told(4, 1, &[[&[0], &[]], [&[], &[0]], [&[], &[]]]), alone(0, 0));
    }

    #[test]
    fn other_jobs_and_mode_0_have_no_lists() {
        assert_eq!([(1, 1), (3, 1), (4, 0), (6, 1), (6, 2)].map(|(job, choice)| told(job, choice, &[])), [""; 5]);
    }
}
