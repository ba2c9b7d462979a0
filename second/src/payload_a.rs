//! Payload A (clause 7.4): a signalling frame of 58 bytes coded, or 94 uncoded, as two OFDM symbols of DQPSK.
//!
//! Sending: frame, check, scrambler, code 3 twice (mode 1), protected fields, DQPSK, grid. Receiving undoes each.

use crate::answer::{check, listed, Answer, Counts, Refusal};
use crate::bch::{self, Code};
use crate::bits::{self, differ};
use crate::check::{Rule, RULE};
use crate::points::Point;
use crate::{check as frame_check, dqpsk, grid, scrambler};

/// OFDM symbols of a frame, and elements of each list of points.
pub const SYMBOLS: usize = 2;
pub const POINTS: usize = SYMBOLS * grid::CARRIERS;

/// Bits of a segment; four segments make the 784 bits of clause 7.4.5.
pub const SEGMENT: usize = 196;

/// Table 6.
const FIELD_1: &[u8] = &[1, 1, 1, 1, 1, 1, 1, 1, 1, 0];
const FIELD_2: &[u8] = &[1; 10];
const FIELD_3: &[u8] = &[1; 8];

/// The most protected bits that may differ: with more the points are noise (request 3).
pub const MOST_DIFFERING: u64 = 12;

/// Bytes of a frame in this mode, if there is such a mode.
pub fn frame_bytes(mode: u8) -> Option<usize> {
    match mode {
        0 => Some(94),
        1 => Some(58),
        _ => None,
    }
}

/// Sends a frame into the first 512 elements of each list.
pub fn send(mode: u8, frame: &[u8], i: &mut [i16], q: &mut [i16]) -> Answer {
    send_by(RULE, mode, frame, i, q)
}

/// Receives the first 512 elements of each list into the first 58 or 94 bytes of the area.
pub fn receive(mode: u8, i: &[i16], q: &[i16], area: &mut [u8]) -> Answer {
    receive_by(RULE, mode, i, q, area)
}

/// Sends with the frame check by this rule.
pub fn send_by(rule: Rule, mode: u8, frame: &[u8], i: &mut [i16], q: &mut [i16]) -> Answer {
    let length = frame_bytes(mode).ok_or(Refusal::Unknown)?;
    check(frame.len() == length, Refusal::WrongLength)?;
    check(i.len() >= POINTS && q.len() >= POINTS, Refusal::NoRoom)?;
    let sent = coded(mode, &scrambler::scrambled(&with_check_by(rule, frame)));
    grid::write(&dqpsk::points(&with_fields(&sent)), i, q);
    Ok(Counts::default())
}

/// Receives with the frame check by this rule.
pub fn receive_by(rule: Rule, mode: u8, i: &[i16], q: &[i16], area: &mut [u8]) -> Answer {
    let length = frame_bytes(mode).ok_or(Refusal::Unknown)?;
    check(i.len() >= POINTS && q.len() >= POINTS && area.len() >= length, Refusal::NoRoom)?;
    let (received, protected) = without_fields(&framed(i, q)?);
    check(protected <= MOST_DIFFERING, Refusal::Noise)?;
    let (information, halves) = decoded(mode, &received)?;
    let plain = scrambler::scrambled(&information);
    let (message, sum) = plain.split_at(8 * length);
    check(frame_check::of_by(rule, message) == sum, Refusal::WrongCheck)?;
    area[..length].copy_from_slice(&bits::to_bytes(message));
    let places = [listed(&halves[0]), listed(&halves[1])];
    Ok(Counts { protected, places, ..Counts::of_blocks(&halves) })
}

/// The frame's bits and their check (clause 7.4.2).
pub fn with_check(frame: &[u8]) -> Vec<u8> {
    with_check_by(RULE, frame)
}

/// The frame's bits and their check by this rule.
pub fn with_check_by(rule: Rule, frame: &[u8]) -> Vec<u8> {
    let message = bits::of_bytes(frame);
    let sum = frame_check::of_by(rule, &message);
    [message, sum].concat()
}

/// The code of this mode's two blocks (clause 7.4.4), if it has one.
fn code(mode: u8) -> Option<&'static Code> {
    bch::code(3).filter(|_| mode == 1)
}

/// The 784 bits: as they are (mode 0), or two blocks of 248 coded (mode 1).
pub fn coded(mode: u8, information: &[u8]) -> Vec<u8> {
    code(mode).map_or(information.to_vec(), |code| code.encoded_blocks(information))
}

/// The information bits of the 784 received, and the mended places of each half, counted from 0 in the half.
fn decoded(mode: u8, received: &[u8]) -> Result<(Vec<u8>, [Vec<usize>; 2]), Refusal> {
    let Some(code) = code(mode) else {
        return Ok((received.to_vec(), [vec![], vec![]]));
    };
    let (information, halves) = code.mended_blocks(received)?;
    Ok((information, halves.try_into().expect("two blocks")))
}

/// The four segments with the protected fields around them (Figure 11): 840 bits.
pub fn with_fields(sent: &[u8]) -> Vec<u8> {
    sent.chunks(2 * SEGMENT)
        .flat_map(|two| {
            let (first, second) = two.split_at(SEGMENT);
            [FIELD_1, first, FIELD_2, second, FIELD_3].concat()
        })
        .collect()
}

/// Where the 56 protected bits stand in the 840.
pub fn field_places() -> Vec<usize> {
    (0..840).filter(|place| matches!(place % 420, 0..=9 | 206..=215 | 412..=419)).collect()
}

/// The four segments of 840 bits, and how many of the 56 protected bits differ.
pub fn without_fields(framed: &[u8]) -> (Vec<u8>, u64) {
    let (mut segments, mut differing) = (Vec::new(), 0);
    for symbol in framed.chunks(framed.len() / SYMBOLS) {
        let mut rest = symbol;
        let mut take = |count: usize| {
            let (part, after) = rest.split_at(count);
            rest = after;
            part
        };
        differing += differ(take(FIELD_1.len()), FIELD_1);
        segments.extend_from_slice(take(SEGMENT));
        differing += differ(take(FIELD_2.len()), FIELD_2);
        segments.extend_from_slice(take(SEGMENT));
        differing += differ(take(FIELD_3.len()), FIELD_3);
    }
    (segments, differing as u64)
}

/// The points of 840 bits on a grid of their own, I and Q.
pub fn on_grid(framed: &[u8]) -> (Vec<i16>, Vec<i16>) {
    let (mut i, mut q) = (vec![0; POINTS], vec![0; POINTS]);
    grid::write(&dqpsk::points(framed), &mut i, &mut q);
    (i, q)
}

/// Checks 7 and 8, and the 840 bits of the points.
pub fn framed(i: &[i16], q: &[i16]) -> Result<Vec<u8>, Refusal> {
    grid::check_unavailable(SYMBOLS, i, q)?;
    Ok(dqpsk::bits(&legal_points(i, q)?))
}

/// Check 8, and the 420 points in s order.
fn legal_points(i: &[i16], q: &[i16]) -> Result<Vec<Point>, Refusal> {
    grid::read(SYMBOLS, i, q)
        .map(|(index, point)| if dqpsk::is_legal(point) { Ok(point) } else { Err(Refusal::Stray(index)) })
        .collect()
}

#[cfg(test)]
pub(crate) mod tests {
    use super::*;
    use crate::rng::Rng;

    fn sent(mode: u8, frame: &[u8]) -> (Vec<i16>, Vec<i16>) {
        let (mut i, mut q) = (vec![77; POINTS], vec![77; POINTS]);
        send(mode, frame, &mut i, &mut q).unwrap();
        (i, q)
    }

    #[test]
    fn first_five_points_of_document_01() {
        let mut rng = Rng::new(6);
        for mode in [0, 1] {
            let (i, q) = sent(mode, &rng.bytes(frame_bytes(mode).unwrap()));
            let first: Vec<Point> = grid::read(2, &i, &q).map(|(_, p)| p).take(5).collect();
            assert_eq!(first, [(-1, 0), (1, 0), (-1, 0), (1, 0), (0, -1)]);
        }
    }

    #[test]
    fn clean_round_trip() {
        let mut rng = Rng::new(7);
        for round in 0..200 {
            let mode = round % 2;
            let frame = rng.bytes(frame_bytes(mode).unwrap());
            let (i, q) = sent(mode, &frame);
            let mut area = vec![0xEE; frame.len() + 2];
            assert_eq!(receive(mode, &i, &q, &mut area), Ok(Counts::default()));
            assert_eq!((&area[..frame.len()], &area[frame.len()..]), (&frame[..], &[0xEE; 2][..]));
        }
    }

    /// The points of a message and its check, hit in these places of the 784 bits, and then in these of the 840.
    pub(crate) fn hit(mode: u8, information: &[u8], places: &[usize], fields: &[usize]) -> (Vec<i16>, Vec<i16>) {
        let mut sent = coded(mode, &scrambler::scrambled(information));
        places.iter().for_each(|&p| sent[p] ^= 1);
        let mut framed = with_fields(&sent);
        fields.iter().for_each(|&p| framed[p] ^= 1);
        on_grid(&framed)
    }

    #[test]
    fn sixteen_hits_in_each_half_are_mended_and_counted() {
        let mut rng = Rng::new(8);
        for first in 0..=17 {
            for second in [0, 1, 15, 16, 17] {
                let frame = rng.bytes(58);
                let mut places = rng.distinct(first, 392);
                places.extend(rng.distinct(second, 392).iter().map(|p| p + 392));
                let (i, q) = hit(1, &with_check(&frame), &places, &[0, 419, 420, 839, 206]);
                let mut area = vec![1; 58];
                let answer = receive(1, &i, &q, &mut area);
                if first <= 16 && second <= 16 {
                    places.sort();
                    let second_half: Vec<usize> = places[first..].iter().map(|p| p - 392).collect();
                    let lists = [listed(&places[..first]), listed(&second_half)];
                    let (mended, worst) = ((first + second) as u64, first.max(second) as u64);
                    assert_eq!(answer, Ok(Counts { mended, protected: 5, worst, places: lists }));
                    assert_eq!(area, frame);
                } else {
                    assert_eq!(answer, Err(Refusal::Hopeless(if first > 16 { 0 } else { 1 })));
                    assert_eq!(area, [1; 58]);
                }
            }
        }
    }

    /// The lists of a frame hit in these places of the 784 bits, which is mended.
    fn lists(places: &[usize]) -> [[u16; 16]; 2] {
        let (i, q) = hit(1, &with_check(&[7; 58]), places, &[]);
        let mut area = vec![1; 58];
        let counts = receive(1, &i, &q, &mut area).unwrap();
        assert_eq!((counts.mended, counts.protected, area), (places.len() as u64, 0, vec![7; 58]));
        counts.places
    }

    #[test]
    fn places_are_counted_in_each_half() {
        assert_eq!(lists(&[]), [[0; 16]; 2]);
        assert_eq!(lists(&[391]), [listed(&[391]), [0; 16]]);
        assert_eq!(lists(&[392 + 391]), [[0; 16], listed(&[391])]);
        assert_eq!(lists(&[0, 5, 392, 393]), [listed(&[0, 5]), listed(&[0, 1])]);
        assert_eq!(lists(&[391, 392, 783]), [listed(&[391]), listed(&[0, 391])]);
        // On both sides of the protected field between two segments.
        assert_eq!(lists(&[195, 196, 392 + 195, 392 + 196]), [listed(&[195, 196]); 2]);
        let full: Vec<usize> = (0..16).map(|hit| 26 * hit + 1).collect();
        let both: Vec<usize> = full.iter().copied().chain(full.iter().map(|place| 392 + place)).collect();
        assert_eq!(lists(&both), [listed(&full); 2]);
        assert_eq!(lists(&both[..16]), [listed(&full), [0; 16]]);
        assert_eq!(lists(&both[16..]), [[0; 16], listed(&full)]);
    }

    #[test]
    fn of_a_single_hit_at_place_0_the_answer_does_not_say_in_which_half() {
        assert_eq!((lists(&[0]), lists(&[392]), lists(&[0, 392])), ([[0; 16]; 2], [[0; 16]; 2], [[0; 16]; 2]));
    }

    #[test]
    fn the_worst_half_is_counted_whichever_it_is() {
        let mut rng = Rng::new(11);
        let first = [(1, 0), (16, 0), (16, 15), (9, 4), (2, 1)];
        let second = [(0, 1), (0, 16), (15, 16), (4, 9), (1, 2)];
        let both = [(0, 0), (1, 1), (7, 7), (16, 16)];
        for (one, two) in [&first[..], &second, &both].concat() {
            let mut places = rng.distinct(one, 392);
            places.extend(rng.distinct(two, 392).iter().map(|p| p + 392));
            // Protected bits count in neither half.
            for differing in [0, 12] {
                let (i, q) = hit(1, &with_check(&[7; 58]), &places, &field_places()[..differing]);
                let counts = receive(1, &i, &q, &mut [0; 58]).unwrap();
                assert_eq!((counts.mended, counts.protected), ((one + two) as u64, differing as u64));
                assert_eq!(counts.worst, if one > two { one } else { two } as u64, "{one} and {two}");
            }
        }
    }

    #[test]
    fn uncoded_frames_have_no_places_and_neither_total_nor_worst() {
        let frame = [8; 94];
        let (i, q) = hit(0, &with_check(&frame), &[], &[0, 206, 839]);
        let mut area = vec![1; 94];
        let counts = Counts { protected: 3, ..Counts::default() };
        assert_eq!(receive(0, &i, &q, &mut area), Ok(counts));
        assert_eq!(area, frame);
    }

    #[test]
    fn refusals_in_order() {
        let frame = [3; 58];
        let (mut i, mut q) = sent(1, &frame);
        let mut area = vec![9; 58];
        assert_eq!(send(2, &frame, &mut [], &mut []), Err(Refusal::Unknown));
        assert_eq!(send(0, &frame, &mut [], &mut []), Err(Refusal::WrongLength));
        assert_eq!(send(1, &frame, &mut [0; 512], &mut [0; 511]), Err(Refusal::NoRoom));
        assert_eq!(send(1, &frame, &mut [0; 511], &mut [0; 512]), Err(Refusal::NoRoom));
        assert_eq!(receive(255, &i, &q, &mut area), Err(Refusal::Unknown));
        assert_eq!(receive(0, &i, &q, &mut area), Err(Refusal::NoRoom));
        assert_eq!(receive(1, &i, &q[1..], &mut area), Err(Refusal::NoRoom));
        assert_eq!(receive(0, &i, &q, &mut [0; 94]), Err(Refusal::WrongCheck));
        q[256 + 1] = 5;
        assert_eq!(receive(1, &i, &q, &mut area), Err(Refusal::Stray(257)));
        i[256 + 151] = -1;
        q[256 + 151] = -1;
        assert_eq!(receive(1, &i, &q, &mut area), Err(Refusal::Stray(407)));
        i[1] = 1;
        q[1] = 1;
        assert_eq!(receive(1, &i, &q, &mut area), Err(Refusal::Stray(1)));
        q[511 - 105] = 1;
        assert_eq!(receive(1, &i, &q, &mut area), Err(Refusal::Filled(406)));
        assert_eq!(area, [9; 58]);
    }

    #[test]
    fn a_wrong_check_in_a_codeword_is_refused_with_10() {
        let mut rng = Rng::new(9);
        let mut information = with_check(&rng.bytes(58));
        information[495] ^= 1;
        let (i, q) = hit(1, &information, &[], &[]);
        assert_eq!(receive(1, &i, &q, &mut [0; 58]), Err(Refusal::WrongCheck));
    }

    #[test]
    fn protected_bits_are_those_around_the_segments() {
        let (zeros, ones) = (with_fields(&[0; 784]), with_fields(&[1; 784]));
        let same: Vec<usize> = (0..840).filter(|&place| zeros[place] == ones[place]).collect();
        assert_eq!((field_places().len(), field_places()), (56, same));
    }

    /// Bursts of a mode: whether the check is right, how many hits each half has, and why they are refused with all
    /// protected bits right, if they are.
    fn bursts(mode: u8) -> &'static [(bool, [usize; 2], Option<Refusal>)] {
        if mode == 0 {
            return &[
                (true, [0, 0], None),
                (true, [1, 0], Some(Refusal::WrongCheck)),
                (true, [17, 17], Some(Refusal::WrongCheck)),
                (false, [0, 0], Some(Refusal::WrongCheck)),
            ];
        }
        &[
            (true, [0, 0], None),
            (true, [1, 0], None),
            (true, [0, 15], None),
            (true, [16, 16], None),
            (true, [17, 0], Some(Refusal::Hopeless(0))),
            (true, [16, 17], Some(Refusal::Hopeless(1))),
            (false, [0, 0], Some(Refusal::WrongCheck)),
            (false, [16, 16], Some(Refusal::WrongCheck)),
            (false, [0, 20], Some(Refusal::Hopeless(1))),
        ]
    }

    #[test]
    fn twelve_protected_bits_may_differ_and_more_are_refused_with_11_before_9_and_10() {
        let mut rng = Rng::new(10);
        for (mode, length) in [(0, 94), (1, 58)] {
            let each = bursts(mode).iter().flat_map(|burst| (0..=56).map(move |differing| (burst, differing)));
            for (&(right, [first, second], otherwise), differing) in each {
                let frame = rng.bytes(length);
                let mut information = with_check(&frame);
                information[8 * length + rng.below(32)] ^= !right as u8;
                let mut places = rng.distinct(first, 392);
                places.extend(rng.distinct(second, 392).iter().map(|p| p + 392));
                let fields: Vec<usize> = rng.distinct(differing, 56).iter().map(|&n| field_places()[n]).collect();
                let (i, q) = hit(mode, &information, &places, &fields);
                let mut area = vec![0xEE; length + 2];
                let answer = receive(mode, &i, &q, &mut area).map(|counts| (counts.mended, counts.protected));
                let refusal = if differing > 12 { Some(Refusal::Noise) } else { otherwise };
                let accepted = Ok(((first + second) as u64, differing as u64));
                assert_eq!(
                    answer,
                    refusal.map_or(accepted, Err),
                    "mode {mode}, {first} and {second} hits, {differing} in the fields"
                );
                let written = if refusal.is_none() { length } else { 0 };
                assert_eq!(area, [&frame[..written], &vec![0xEE; length + 2 - written]].concat());
            }
        }
    }

    #[test]
    fn each_of_the_56_protected_bits_counts() {
        let places = field_places();
        for (mode, length) in [(0, 94), (1, 58)] {
            let information = with_check(&vec![5; length]);
            let received = |fields: &[usize]| {
                let (i, q) = hit(mode, &information, &[], fields);
                receive(mode, &i, &q, &mut vec![0; length]).map(|counts| counts.protected)
            };
            for first in 0..56 {
                let thirteen: Vec<usize> = (first..first + 13).map(|number| places[number % 56]).collect();
                assert_eq!(received(&thirteen[..1]), Ok(1));
                assert_eq!(received(&thirteen[1..]), Ok(12));
                assert_eq!(received(&thirteen[..12]), Ok(12));
                assert_eq!(received(&thirteen), Err(Refusal::Noise));
            }
        }
    }

    #[test]
    fn bits_beside_the_fields_are_not_protected() {
        let beside = [10, 205, 216, 411, 430, 625, 636, 831];
        let fields = [&field_places()[22..34], &beside].concat();
        let (i, q) = hit(1, &with_check(&[5; 58]), &[], &fields);
        let counts = receive(1, &i, &q, &mut [0; 58]).unwrap();
        assert_eq!((counts.mended, counts.protected), (8, 12));
        let (i, q) = hit(0, &with_check(&[5; 94]), &[], &fields);
        assert_eq!(receive(0, &i, &q, &mut [0; 94]), Err(Refusal::WrongCheck));
    }

    #[test]
    fn points_that_do_not_turn_are_noise() {
        // Bits of zeros: all protected bits differ but the last of field 1 in each symbol.
        let (i, q) = on_grid(&[0; 840]);
        assert!(grid::read(2, &i, &q).all(|(_, point)| point == (1, 0)));
        assert_eq!(without_fields(&[0; 840]), (vec![0; 784], 54));
        for mode in [0, 1] {
            assert_eq!(receive(mode, &i, &q, &mut [0; 94]), Err(Refusal::Noise));
        }
    }

    #[test]
    fn number_11_goes_behind_1_3_7_and_8() {
        for (mode, length) in [(0, 94), (1, 58)] {
            for differing in [13, 56] {
                // Hopeless in both halves, or with a wrong check.
                let places: Vec<usize> = (0..20).chain(392..412).collect();
                let (mut i, mut q) =
                    hit(mode, &with_check(&vec![5; length]), &places, &field_places()[56 - differing..]);
                let mut area = vec![9; length];
                assert_eq!(receive(mode, &i, &q, &mut area), Err(Refusal::Noise));
                assert_eq!(receive(2, &i, &q, &mut area), Err(Refusal::Unknown));
                assert_eq!(receive(mode, &i[..511], &q, &mut area), Err(Refusal::NoRoom));
                assert_eq!(receive(mode, &i, &q[..511], &mut area), Err(Refusal::NoRoom));
                assert_eq!(receive(mode, &i, &q, &mut area[1..]), Err(Refusal::NoRoom));
                // The last point in s order, the first one, and the last and first unavailable sub-carriers.
                (i[256 + 105], q[256 + 105]) = (1, 1);
                assert_eq!(receive(mode, &i, &q, &mut area), Err(Refusal::Stray(361)));
                (i[151], q[151]) = (0, 0);
                assert_eq!(receive(mode, &i, &q, &mut area), Err(Refusal::Stray(151)));
                q[256 + 150] = 1;
                assert_eq!(receive(mode, &i, &q, &mut area), Err(Refusal::Filled(406)));
                i[0] = -1;
                assert_eq!(receive(mode, &i, &q, &mut area), Err(Refusal::Filled(0)));
                assert_eq!(area, vec![9; length]);
            }
        }
    }
}
