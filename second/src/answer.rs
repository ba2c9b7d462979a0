//! What a job answers: its counts, the worst block's of request 8 among them, and the mended places of request 10; or a
//! refusal with a number and a place. The numbers are document 01's 1 to 10, request 3's 11, and 16 for a state of a
//! stream that no stream has.

/// Why a job was refused. The cases stand in the order of their numbers, not in the order of the checks.
#[derive(Clone, Copy, Debug, PartialEq, Eq)]
pub enum Refusal {
    /// The coding mode or the code is unknown.
    Unknown,
    /// The frame or word has a wrong length.
    WrongLength,
    /// A lent buffer of points or output is too short.
    NoRoom,
    /// The element at this index is neither 0 nor 1.
    NotABit(usize),
    /// The scheme has no 210 entries (place 210), or this entry lies outside 2..10.
    BadScheme(usize),
    /// More than 256 OFDM symbols are needed.
    TooManySymbols,
    /// The unavailable sub-carrier at this grid index is not (0,0).
    Filled(usize),
    /// The point at this grid index is not of its constellation.
    Stray(usize),
    /// No codeword lies within t of this block.
    Hopeless(usize),
    /// The frame check is wrong.
    WrongCheck,
    /// More than 12 of the 56 protected bits of Payload A differ.
    Noise,
    /// No opening and no steps of a stream give this state.
    Forged,
}

/// How many numbers the jobs 1 to 6 have, with 0 for accepted.
pub const NUMBERS: usize = 12;

impl Refusal {
    /// The refusal of this number and place, if there is one: where no place is named, only 0 will do.
    pub fn of(number: u8, place: u64) -> Option<Refusal> {
        let p = place as usize;
        let refusal = match number {
            1 => Refusal::Unknown,
            2 => Refusal::WrongLength,
            3 => Refusal::NoRoom,
            4 => Refusal::NotABit(p),
            5 => Refusal::BadScheme(p),
            6 => Refusal::TooManySymbols,
            7 => Refusal::Filled(p),
            8 => Refusal::Stray(p),
            9 => Refusal::Hopeless(p),
            10 => Refusal::WrongCheck,
            11 => Refusal::Noise,
            16 => Refusal::Forged,
            _ => return None,
        };
        (refusal.place() == place).then_some(refusal)
    }

    /// Its number, 1 to 11, or 16.
    pub fn number(self) -> u8 {
        match self {
            Refusal::Unknown => 1,
            Refusal::WrongLength => 2,
            Refusal::NoRoom => 3,
            Refusal::NotABit(_) => 4,
            Refusal::BadScheme(_) => 5,
            Refusal::TooManySymbols => 6,
            Refusal::Filled(_) => 7,
            Refusal::Stray(_) => 8,
            Refusal::Hopeless(_) => 9,
            Refusal::WrongCheck => 10,
            Refusal::Noise => 11,
            Refusal::Forged => 16,
        }
    }

    /// Its place: 0 where none is named.
    pub fn place(self) -> u64 {
        match self {
            Refusal::NotABit(p)
            | Refusal::BadScheme(p)
            | Refusal::Filled(p)
            | Refusal::Stray(p)
            | Refusal::Hopeless(p) => p as u64,
            _ => 0,
        }
    }
}

/// The entries of a list of mended places: as many as code 3 mends.
pub const MOST_PLACES: usize = 16;

/// The mended places of a word: indices in the word as it came, rising, none twice. Unused entries are 0.
pub type Places = [u16; MOST_PLACES];

/// The list of these places, at most 16, in their order.
pub fn listed(places: &[usize]) -> Places {
    let mut list = [0; MOST_PLACES];
    for (entry, &place) in list[..places.len()].iter_mut().zip(places) {
        *entry = place as u16;
    }
    list
}

/// The counts of an accepted answer, and its lists of mended places. Jobs that report none leave them 0.
#[derive(Clone, Copy, Debug, Default, PartialEq, Eq)]
pub struct Counts {
    /// Bits mended, over all blocks.
    pub mended: u64,
    /// Protected bits of Payload A that differ.
    pub protected: u64,
    /// Bits mended in the worst block of a burst or frame.
    pub worst: u64,
    /// The mended places. Decode has those of its word in the first list; receive A in mode 1 has those of its first
    /// half and of its second, each counted from 0 in its half. All other lists are all 0.
    pub places: [Places; 2],
}

impl Counts {
    /// The total and the worst of blocks with these mended places. Without blocks, 0 and 0.
    pub fn of_blocks(blocks: &[Vec<usize>]) -> Counts {
        let each = blocks.iter().map(|places| places.len() as u64);
        Counts { mended: each.clone().sum(), worst: each.max().unwrap_or(0), ..Counts::default() }
    }
}

pub type Answer = Result<Counts, Refusal>;

/// Accepts, or refuses for this reason: lets a job list its checks in their order, a line each.
pub fn check(holds: bool, otherwise: Refusal) -> Result<(), Refusal> {
    if holds {
        Ok(())
    } else {
        Err(otherwise)
    }
}

#[cfg(test)]
mod tests {
    use super::*;

    #[test]
    fn numbers_and_places() {
        assert_eq!(Refusal::NotABit(7).number(), 4);
        assert_eq!(Refusal::NotABit(7).place(), 7);
        assert_eq!(Refusal::BadScheme(210).place(), 210);
        assert_eq!(Refusal::WrongCheck.number(), 10);
        assert_eq!(Refusal::WrongCheck.place(), 0);
        assert_eq!(Refusal::Noise.number() as usize, NUMBERS - 1);
        assert_eq!(Refusal::Noise.place(), 0);
    }

    #[test]
    fn refusals_by_number_and_place() {
        for (number, place) in (0..=255).flat_map(|number| [0, 1, 210, u64::MAX].map(|place| (number, place))) {
            let named = matches!(number, 4 | 5 | 7 | 8 | 9);
            let plain = matches!(number, 1 | 2 | 3 | 6 | 10 | 11 | 16) && place == 0;
            let refusal = Refusal::of(number, place);
            assert_eq!(refusal.is_some(), named || plain);
            assert!(refusal.is_none_or(|refusal| (refusal.number(), refusal.place()) == (number, place)));
        }
    }

    #[test]
    fn the_worst_of_blocks_is_their_largest_count() {
        let counted = |hits: &[usize]| {
            let blocks: Vec<Vec<usize>> = hits.iter().map(|&count| (0..count).collect()).collect();
            let counts = Counts::of_blocks(&blocks);
            assert_eq!(counts, Counts { mended: counts.mended, worst: counts.worst, ..Counts::default() });
            (counts.mended, counts.worst)
        };
        assert_eq!([counted(&[]), counted(&[0]), counted(&[0, 0])], [(0, 0); 3]);
        assert_eq!([counted(&[3, 1, 2]), counted(&[1, 3, 2]), counted(&[2, 1, 3])], [(6, 3); 3]);
        assert_eq!([counted(&[2, 2]), counted(&[1, 2, 1]), counted(&[0, 2, 2, 0])], [(4, 2); 3]);
    }

    #[test]
    fn lists_end_in_zeros() {
        assert_eq!(listed(&[]), [0; 16]);
        assert_eq!(listed(&[0]), [0; 16]);
        assert_eq!(listed(&[0, 507]), [0, 507, 0, 0, 0, 0, 0, 0, 0, 0, 0, 0, 0, 0, 0, 0]);
        let full: Vec<usize> = (376..392).collect();
        assert_eq!(listed(&full), [376, 377, 378, 379, 380, 381, 382, 383, 384, 385, 386, 387, 388, 389, 390, 391]);
    }
}
