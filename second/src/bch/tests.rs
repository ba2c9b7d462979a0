//! What the codes and the decoder must do, and two other ways to see it: the definition of a root, and for code 1 a
//! search of every word within t.

use super::*;
use crate::bits::differ;
use crate::field;
use crate::rng::Rng;
use std::collections::HashMap;

/// The generators' octal forms, printed beside the equations and again in document 01.
const OCTAL: [&str; 3] =
    ["1630256304641", "1561350064670543777423345", "1126657202505666323017001652245562614435511600655"];

fn octal_bits(digits: &str) -> Vec<u8> {
    let bits: Vec<u8> = digits.bytes().flat_map(|d| (0..3).rev().map(move |i| (d - b'0') >> i & 1)).collect();
    let first = bits.iter().position(|&b| b == 1).unwrap();
    bits[first..].to_vec()
}

/// The value of a polynomial at x, by Horner's rule and the field's own product.
fn value_at(bits: &[u8], x: u16) -> u16 {
    bits.iter().fold(0, |v, &b| field::product(v, x) ^ b as u16)
}

fn flipped(word: &[u8], places: &[usize]) -> Vec<u8> {
    let mut word = word.to_vec();
    places.iter().for_each(|&p| word[p] ^= 1);
    word
}

fn all_codes() -> [(u8, &'static Code); 3] {
    [1, 2, 3].map(|number| (number, code(number).unwrap()))
}

#[test]
fn lengths_and_octal_forms() {
    for ((number, code), (n, k)) in all_codes().into_iter().zip([(508, 472), (504, 432), (392, 248)]) {
        assert_eq!((code.n, code.k), (n, k));
        assert_eq!(code.generator, octal_bits(OCTAL[number as usize - 1]));
    }
    assert!(code(0).is_none() && (4..=255).all(|number| code(number).is_none()));
}

#[test]
fn generators_have_the_roots_and_code_3_two_more() {
    for (number, code) in all_codes() {
        let roots: Vec<usize> =
            (1..=2 * code.t + 4).filter(|&j| value_at(&code.generator, field::power(field::A, j)) == 0).collect();
        let last = if number == 3 { 34 } else { 2 * code.t };
        assert_eq!(roots[..last], (1..=last).collect::<Vec<_>>());
        assert!(!roots.contains(&(last + 1)));
        // They divide x^511 - 1, so each is the generator of a cyclic code of length 511.
        let mut cyclic = vec![0; 512];
        (cyclic[0], cyclic[511]) = (1, 1);
        assert!(poly::remainder(&cyclic, &code.generator).iter().all(|&b| b == 0));
    }
}

#[test]
fn syndromes_are_the_values_at_the_powers_of_a() {
    let mut rng = Rng::new(11);
    for (_, code) in all_codes() {
        for _ in 0..20 {
            let word = rng.bits(code.n);
            let values: Vec<u16> = (1..=2 * code.t).map(|j| value_at(&word, field::power(field::A, j))).collect();
            assert_eq!(all_syndromes(&code.odd_syndromes(&word)[..code.t]), values);
        }
    }
}

/// The places of the matrix as rows of 144 bits; their rank by elimination.
fn rank(mut rows: Vec<Vec<u8>>) -> usize {
    let mut rank = 0;
    for column in 0..rows[0].len() {
        if let Some(pivot) = (rank..rows.len()).find(|&r| rows[r][column] == 1) {
            rows.swap(rank, pivot);
            let upper = rows[rank].clone();
            for row in rows[rank + 1..].iter_mut().filter(|row| row[column] == 1) {
                row.iter_mut().zip(&upper).for_each(|(x, u)| *x ^= u);
            }
            rank += 1;
        }
    }
    rank
}

#[test]
fn zero_syndromes_are_the_codewords_and_no_other_words() {
    for (_, code) in all_codes() {
        let bits_of = |row: &[u16; MOST]| row.iter().flat_map(|x| (0..9).map(move |i| (x >> i & 1) as u8)).collect();
        assert_eq!(rank(code.parity.iter().map(bits_of).collect()), code.n - code.k);
        for place in 0..code.k {
            let word = code.encoded(&flipped(&vec![0; code.k], &[place]));
            assert_eq!(code.odd_syndromes(&word), [0; MOST]);
        }
    }
}

#[test]
fn last_information_bit_gives_the_generator() {
    for (number, code) in all_codes() {
        let mut word = vec![0; code.k];
        word[code.k - 1] = 1;
        let mut out = vec![9; code.n];
        encode(number, &word, &mut out).unwrap();
        assert!(out[..code.k - 1].iter().all(|&b| b == 0));
        assert_eq!(out[code.k - 1..], code.generator);
    }
}

#[test]
fn up_to_t_flips_come_back_and_more_never_give_the_old_word() {
    let mut rng = Rng::new(1);
    for (number, code) in all_codes() {
        for count in 0..=code.t + 4 {
            for _ in 0..40 {
                let sent = code.encoded(&rng.bits(code.k));
                let word = flipped(&sent, &rng.distinct(count, code.n));
                let mut out = vec![7; code.n + 3];
                let answer = decode(number, &word, &mut out);
                assert_eq!(out[code.n..], [7, 7, 7]);
                match answer {
                    Ok(counts) => {
                        assert_eq!(counts.mended as usize, differ(&word, &out));
                        assert_eq!(count <= code.t, out[..code.n] == sent);
                        assert_eq!(code.encoded(&out[..code.k]), out[..code.n]);
                    }
                    Err(refusal) => {
                        assert!(count > code.t);
                        assert_eq!(refusal, Refusal::Hopeless(0));
                        assert!(out.iter().all(|&b| b == 7));
                    }
                }
            }
        }
    }
}

/// The first list of a decoded word, once all that request 10 says of the lists is seen to hold.
fn places_of(number: u8, word: &[u8]) -> Option<[u16; 16]> {
    let mut out = vec![7; word.len()];
    let counts = decode(number, word, &mut out).ok()?;
    let [list, other] = counts.places;
    let (used, unused) = list.split_at(counts.mended as usize);
    assert!(used.windows(2).all(|two| two[0] < two[1]), "{list:?}");
    assert!(unused.iter().chain(&other).all(|&entry| entry == 0), "{list:?} {other:?}");
    let places: Vec<usize> = used.iter().map(|&place| place as usize).collect();
    assert_eq!(flipped(word, &places), out);
    assert_eq!(code(number).unwrap().odd_syndromes(&out), [0; MOST]);
    Some(list)
}

#[test]
fn places_are_those_that_were_hit() {
    let mut rng = Rng::new(5);
    for (number, code) in all_codes() {
        for count in 0..=code.t + 4 {
            for _ in 0..40 {
                let mut places = rng.distinct(count, code.n);
                places.sort();
                let word = flipped(&code.encoded(&rng.bits(code.k)), &places);
                let list = places_of(number, &word);
                assert!(count > code.t || list == Some(listed(&places)), "{places:?} {list:?}");
            }
        }
    }
}

#[test]
fn places_of_words_that_go_astray_lead_to_the_other_codeword() {
    let mut rng = Rng::new(6);
    let code = code(1).unwrap();
    let astray = (0..500)
        .filter(|_| {
            let hits = rng.distinct(5, code.n);
            places_of(1, &flipped(&code.encoded(&rng.bits(code.k)), &hits)).is_some()
        })
        .count();
    assert!(astray > 5, "{astray}");
}

#[test]
fn every_single_place_is_answered() {
    let mut rng = Rng::new(7);
    for (number, code) in all_codes() {
        let sent = code.encoded(&rng.bits(code.k));
        for place in 0..code.n {
            assert_eq!(places_of(number, &flipped(&sent, &[place])), Some(listed(&[place])));
        }
    }
}

#[test]
fn places_at_both_ends_of_a_word() {
    let mut rng = Rng::new(8);
    for (number, code) in all_codes() {
        let (sent, last) = (code.encoded(&rng.bits(code.k)), code.n - 1);
        // Of place 0 alone only the count tells.
        let mut out = vec![7; code.n];
        let alone = Counts { mended: 1, ..Counts::default() };
        assert_eq!(decode(number, &flipped(&sent, &[0]), &mut out), Ok(alone));
        assert_eq!(decode(number, &sent, &mut out), Ok(Counts::default()));
        for places in [vec![], vec![0], vec![last], vec![0, last], vec![0, 1], vec![last - 1, last]] {
            assert_eq!(places_of(number, &flipped(&sent, &places)), Some(listed(&places)));
        }
    }
}

#[test]
fn full_lists_of_code_3() {
    let mut rng = Rng::new(9);
    let code = code(3).unwrap();
    let mut any = rng.distinct(16, code.n);
    any.sort();
    let sixteen = |place: fn(usize) -> usize| (0..16).map(place).collect::<Vec<usize>>();
    for places in [any, sixteen(|hit| hit), sixteen(|hit| 376 + hit), sixteen(|hit| 26 * hit + 1)] {
        let list = places_of(3, &flipped(&code.encoded(&rng.bits(code.k)), &places)).unwrap();
        assert_eq!(list.map(usize::from).to_vec(), places);
    }
}

#[test]
fn code_3_refuses_17_and_18_flips() {
    let mut rng = Rng::new(2);
    let code = code(3).unwrap();
    for count in [17, 18] {
        for _ in 0..300 {
            let word = flipped(&code.encoded(&rng.bits(code.k)), &rng.distinct(count, code.n));
            assert_eq!(decode(3, &word, &mut vec![0; code.n]), Err(Refusal::Hopeless(0)));
        }
    }
}

#[test]
fn hits_in_dropped_places_are_refused() {
    let mut rng = Rng::new(3);
    for (number, code) in all_codes() {
        let dropped = ORDER - code.n;
        for _ in 0..300 {
            let beyond = rng.between(1, code.t.min(dropped));
            let mut information = rng.bits(dropped + code.k);
            information[..dropped].fill(0);
            rng.distinct(beyond, dropped).into_iter().for_each(|p| information[p] = 1);
            let long = poly::encoded(&information, &code.generator);
            let inside = rng.between(0, code.t - beyond);
            let word = flipped(&long[dropped..], &rng.distinct(inside, code.n));
            assert_eq!(decode(number, &word, &mut vec![0; code.n]), Err(Refusal::Hopeless(0)));
        }
    }
}

/// Places in one of two lists and not in the other, rising.
fn in_one_of(p: &[usize], q: &[usize]) -> Vec<usize> {
    let mut places: Vec<usize> = p.iter().filter(|place| !q.contains(place)).copied().collect();
    places.extend(q.iter().filter(|place| !p.contains(place)));
    places.sort();
    places
}

/// For code 1 every remainder that two or fewer flips leave: with it, whether any word at all lies within 4 of a given
/// one can be seen by trying all of them. No field, no syndromes, no locator.
#[test]
fn code_1_agrees_with_a_search_of_all_words_within_t() {
    let code = code(1).unwrap();
    let number_of = |bits: &[u8]| bits.iter().fold(0u64, |v, &b| v << 1 | b as u64);
    let single: Vec<u64> =
        (0..code.n).map(|p| number_of(&poly::remainder(&flipped(&vec![0; code.n], &[p]), &code.generator))).collect();
    let mut few: HashMap<u64, Vec<usize>> = HashMap::from([(0, vec![])]);
    for p in 0..code.n {
        few.insert(single[p], vec![p]);
        for q in 0..p {
            few.insert(single[p] ^ single[q], vec![p, q]);
        }
    }
    let mut rng = Rng::new(4);
    let (mut accepted, mut refused) = (0, 0);
    for round in 0..300 {
        let word = match round % 3 {
            0 => rng.bits(code.n),
            1 => flipped(&code.encoded(&rng.bits(code.k)), &rng.distinct(5, code.n)),
            _ => flipped(&code.encoded(&rng.bits(code.k)), &rng.distinct(4, code.n)),
        };
        let rest = number_of(&poly::remainder(&word, &code.generator));
        let found = few.iter().find_map(|(part, places)| Some((places, few.get(&(part ^ rest))?)));
        let searched = found.map(|(p, q)| (flipped(&flipped(&word, p), q), in_one_of(p, q)));
        assert_eq!(code.mended(&word), searched);
        *if searched.is_some() { &mut accepted } else { &mut refused } += 1;
    }
    assert!(accepted > 100 && refused > 150, "{accepted} {refused}");
}

#[test]
fn refusals_in_order() {
    for (number, code) in all_codes() {
        let mut out = vec![5; code.n];
        let mut word = vec![0; code.n];
        assert_eq!(decode(0, &word, &mut out), Err(Refusal::Unknown));
        assert_eq!(decode(number, &word[1..], &mut out[1..]), Err(Refusal::WrongLength));
        assert_eq!(decode(number, &[], &mut []), Err(Refusal::WrongLength));
        (word[code.n - 1], word[9]) = (255, 2);
        assert_eq!(decode(number, &word, &mut out[1..]), Err(Refusal::NoRoom));
        assert_eq!(decode(number, &word, &mut out), Err(Refusal::NotABit(9)));
        assert_eq!(encode(4, &word, &mut out), Err(Refusal::Unknown));
        assert_eq!(encode(number, &word, &mut out), Err(Refusal::WrongLength));
        assert_eq!(encode(number, &word[..code.k], &mut out[1..]), Err(Refusal::NoRoom));
        assert_eq!(encode(number, &word[..code.k], &mut out), Err(Refusal::NotABit(9)));
        assert!(out.iter().all(|&b| b == 5));
    }
}
