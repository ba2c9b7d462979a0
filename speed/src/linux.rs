//! The rows of the codes beside lib/bch.c of Linux: ours on elements, by the bridge, and on packed words, by a crate that
//! the script speed/linux makes. Linux is given the same words as packed bytes, and names the places of the hits: it trusts
//! its caller for the word's length, mends nothing itself, and does not look at its answer again.

use crate::rows::{self, Answer, Input, Memory, Row, GROUP, INPUTS};
use crate::{fastest, ours, ROUNDS};
use second::bch;
use std::ffi::{c_int, c_uint};
use std::process::exit;
use std::ptr::null;
use std::sync::OnceLock;

#[repr(C)]
struct Control {
    _private: [u8; 0],
}

extern "C" {
    fn bch_init(m: c_int, t: c_int, polynomial: c_uint, swap: bool) -> *mut Control;
    fn bch_decode(
        control: *mut Control,
        data: *const u8,
        length: c_uint,
        received: *const u8,
        calculated: *const u8,
        syndromes: *const c_uint,
        places: *mut c_uint,
    ) -> c_int;
    fn packed_words_decode(code: u8, words: *const u64, out: *mut u64) -> usize;
}

/// What packed_words_decode answers for a refusal.
const REFUSED: usize = 255;

/// Linux' tables for the three codes, made once.
struct Controls([*mut Control; 3]);

// Nothing else has them, and there is one thread.
unsafe impl Sync for Controls {}
unsafe impl Send for Controls {}

fn control(number: u8) -> *mut Control {
    static CONTROLS: OnceLock<Controls> = OnceLock::new();
    let all = CONTROLS.get_or_init(|| Controls([4, 8, 16].map(|t| unsafe { bch_init(9, t, 0x211, false) })));
    let control = all.0[usize::from(number) - 1];
    assert!(!control.is_null(), "Linux could not make its tables");
    control
}

/// The places that Linux names, as it counts them, and how many; less than 0 where it gives up.
fn named(input: &Input) -> (c_int, [c_uint; 16]) {
    let mut places = [0; 16];
    let (data, check) = (input.packed.as_ptr(), input.packed[input.size..].as_ptr());
    let length = input.size as c_uint;
    let count = unsafe { bch_decode(control(input.number), data, length, check, null(), null(), places.as_mut_ptr()) };
    (count, places)
}

fn decode(input: &Input, _: &mut Memory) -> Answer {
    let (count, places) = named(input);
    Answer { mended: count as u64, place: places[0].into(), ..Answer::default() }
}

/// The codeword that ours finds, packed, and how many bits are mended.
fn found(input: &Input) -> (usize, [u64; 8]) {
    let mut out = [0; 8];
    let count = unsafe { packed_words_decode(input.number, input.words.as_ptr(), out.as_mut_ptr()) };
    (count, out)
}

fn decode_packed(input: &Input, _: &mut Memory) -> Answer {
    let (count, out) = found(input);
    Answer { mended: count as u64, place: out[0], ..Answer::default() }
}

/// Eight bits to a byte, the first the highest, and zeros behind.
fn bytes(bits: &[u8]) -> Vec<u8> {
    bits.chunks(8).map(|eight| eight.iter().enumerate().fold(0, |byte, (i, bit)| byte | bit << (7 - i))).collect()
}

/// The same, eight bytes to a machine word.
fn words(bits: &[u8]) -> [u64; 8] {
    let mut bytes = bytes(bits);
    bytes.resize(64, 0);
    std::array::from_fn(|w| bytes[8 * w..8 * w + 8].iter().fold(0, |word, &byte| word << 8 | u64::from(byte)))
}

/// A word with both of its packed forms. The information is whole bytes, and the check bits begin a byte, as Linux wants.
fn packed(input: Input) -> Input {
    let size = bch::code(input.number).expect("a code").k / 8;
    Input { packed: bytes(&input.bytes), words: words(&input.bytes), size, ..input }
}

/// Every word is answered alike on elements and on packed words, and each that ours mends Linux mends at the same places;
/// how many of the others it names places for.
fn compared(row: &Row) -> usize {
    let mut memory = Memory::new();
    let mut beyond = 0;
    for (n, input) in row.inputs.iter().enumerate() {
        let answer = ours::decode(input, &mut memory);
        let (count, places) = in_order(named(input));
        let mended = answer.number == 0;
        let told = match mended {
            true => (answer.mended as usize, words(&memory.bytes[..input.bytes.len()])),
            false => (REFUSED, [0; 8]),
        };
        let alike = found(input) == told;
        let same = count == answer.mended as c_int && places == answer.places[0][..answer.mended as usize];
        if !alike || mended && !same {
            eprintln!("{}, input {n}: ours {answer:?}, Linux {count} {places:?}", row.whole());
            eprintln!("on packed words alike: {alike}");
            exit(1);
        }
        beyond += usize::from(!mended && count >= 0);
    }
    beyond
}

/// The places that Linux names, as we count them, from the least.
fn in_order((count, places): (c_int, [c_uint; 16])) -> (c_int, Vec<u16>) {
    let ours = |p: &c_uint| ((p & !7) + 7 - (p & 7)) as u16;
    let mut places: Vec<u16> = places[..count.max(0) as usize].iter().map(ours).collect();
    places.sort();
    (count, places)
}

/// The table, and the largest quotient on packed words.
pub fn print() {
    println!("- {INPUTS} calls a row, in groups of {GROUP}, the fastest of {ROUNDS} rounds for each group");
    println!("- ours is given one element for each bit, or eight packed machine words; Linux packed bytes\n");
    print!("| of | call | ours on elements, ns | ours on packed words, ns | Linux, ns |");
    println!(" elements / Linux | packed words / Linux | refused by ours, places named by Linux |");
    println!("|---|---|---|---|---|---|---|---|");
    let mut most = (0.0, String::new());
    for row in rows::decoding() {
        let row = Row { inputs: row.inputs.into_iter().map(packed).collect(), ..row };
        let beyond = compared(&row);
        let [elements, words, linux] = fastest(&row, [ours::decode, decode_packed, decode]);
        print!("| {} | {} | {elements:.0} | {words:.0} | {linux:.0} |", row.of, row.name);
        println!(" {:.2} | {:.2} | {beyond} |", elements / linux, words / linux);
        if words / linux > most.0 {
            most = (words / linux, row.whole());
        }
    }
    println!("\n- packed words / Linux is at most {:.2}: {}", most.0, most.1);
}
