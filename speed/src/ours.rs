//! The proved crates' calls, as crates/bridge exports them: a slice is a pointer and then a length, a list of 16 places
//! a pointer alone.

use crate::rows::{Answer, Input, Memory};
use second::grid::CARRIERS;

/// What encode, decode, send and decide answer.
#[repr(C)]
struct Told {
    number: u32,
    mended: u32,
    place: u64,
}

/// What receive answers.
#[repr(C)]
struct ReceivedTold {
    number: u16,
    mended: u16,
    protected: u16,
    worst: u16,
    place: u64,
}

/// What ortkaveq_symbols_b answers.
#[repr(C)]
struct NeededTold {
    number: u32,
    symbols: u32,
    place: u64,
}

extern "C" {
    fn ortkaveq_encode(code: u8, word: *const u8, length: usize, out: *mut u8, room: usize) -> Told;
    fn ortkaveq_decode(code: u8, word: *const u8, length: usize, out: *mut u8, room: usize, places: *mut u16) -> Told;
    fn ortkaveq_send_a(
        mode: u8,
        frame: *const u8,
        length: usize,
        i: *mut i16,
        i_room: usize,
        q: *mut i16,
        q_room: usize,
    ) -> Told;
    fn ortkaveq_receive_a(
        mode: u8,
        i: *const i16,
        i_length: usize,
        q: *const i16,
        q_length: usize,
        area: *mut u8,
        room: usize,
        first: *mut u16,
        second: *mut u16,
    ) -> ReceivedTold;
    fn ortkaveq_send_b(
        mode: u8,
        frame: *const u8,
        length: usize,
        scheme: *const u8,
        entries: usize,
        i: *mut i16,
        i_room: usize,
        q: *mut i16,
        q_room: usize,
    ) -> Told;
    fn ortkaveq_receive_b(
        mode: u8,
        size: usize,
        scheme: *const u8,
        entries: usize,
        i: *const i16,
        i_length: usize,
        q: *const i16,
        q_length: usize,
        area: *mut u8,
        room: usize,
    ) -> ReceivedTold;
    fn ortkaveq_symbols_b(mode: u8, size: usize, scheme: *const u8, entries: usize) -> NeededTold;
    fn ortkaveq_open_b(mode: u8, size: usize, scheme: *const u8, entries: usize, stream: *mut Stream) -> Told;
    fn ortkaveq_step_b(
        stream: *mut Stream,
        i: *const i16,
        i_length: usize,
        q: *const i16,
        q_length: usize,
        area: *mut u8,
        room: usize,
    ) -> ReceivedTold;
    fn ortkaveq_decide_a(
        mode: u8,
        i: *const i16,
        i_length: usize,
        q: *const i16,
        q_length: usize,
        out_i: *mut i16,
        i_room: usize,
        out_q: *mut i16,
        q_room: usize,
    ) -> Told;
    fn ortkaveq_decide_b(
        mode: u8,
        size: usize,
        scheme: *const u8,
        entries: usize,
        i: *const i16,
        i_length: usize,
        q: *const i16,
        q_length: usize,
        out_i: *mut i16,
        i_room: usize,
        out_q: *mut i16,
        q_room: usize,
    ) -> Told;
}

/// The bytes of a stream's state, at the same place in its cache lines in every run. They are ours alone: second keeps its
/// own, and the two are not compared.
#[repr(C, align(64))]
pub struct Stream([u8; 352]);

impl Stream {
    pub const fn new() -> Stream {
        Stream([7; 352])
    }
}

impl PartialEq for Stream {
    fn eq(&self, _: &Stream) -> bool {
        true
    }
}

/// A list of places before a call: no entry is one.
const UNWRITTEN: [u16; 16] = [u16::MAX; 16];

// In every call below each pair is a slice of this program, each list of places has 16 entries, a stream 352 bytes, and
// the memory is lent to nobody else.

pub fn encode(input: &Input, memory: &mut Memory) -> Answer {
    let (word, out) = (&input.bytes, &mut memory.bytes);
    told(unsafe { ortkaveq_encode(input.number, word.as_ptr(), word.len(), out.as_mut_ptr(), out.len()) })
}

pub fn decode(input: &Input, memory: &mut Memory) -> Answer {
    let (word, out) = (&input.bytes, &mut memory.bytes);
    let mut places = UNWRITTEN;
    let r = unsafe {
        ortkaveq_decode(input.number, word.as_ptr(), word.len(), out.as_mut_ptr(), out.len(), places.as_mut_ptr())
    };
    Answer { places: [places, [0; 16]], ..told(r) }
}

pub fn send_a(input: &Input, memory: &mut Memory) -> Answer {
    let (frame, i, q) = (&input.bytes, &mut memory.i, &mut memory.q);
    told(unsafe {
        ortkaveq_send_a(input.number, frame.as_ptr(), frame.len(), i.as_mut_ptr(), i.len(), q.as_mut_ptr(), q.len())
    })
}

pub fn receive_a(input: &Input, memory: &mut Memory) -> Answer {
    let (i, q, area) = (&input.i, &input.q, &mut memory.bytes);
    let (mut first, mut second) = (UNWRITTEN, UNWRITTEN);
    let r = unsafe {
        ortkaveq_receive_a(
            input.number,
            i.as_ptr(),
            i.len(),
            q.as_ptr(),
            q.len(),
            area.as_mut_ptr(),
            area.len(),
            first.as_mut_ptr(),
            second.as_mut_ptr(),
        )
    };
    Answer { places: [first, second], ..received(r) }
}

pub fn send_b(input: &Input, memory: &mut Memory) -> Answer {
    let (frame, scheme, i, q) = (&input.bytes, &input.scheme, &mut memory.i, &mut memory.q);
    told(unsafe {
        ortkaveq_send_b(
            input.number,
            frame.as_ptr(),
            frame.len(),
            scheme.as_ptr(),
            scheme.len(),
            i.as_mut_ptr(),
            i.len(),
            q.as_mut_ptr(),
            q.len(),
        )
    })
}

pub fn receive_b(input: &Input, memory: &mut Memory) -> Answer {
    let (scheme, i, q, area) = (&input.scheme, &input.i, &input.q, &mut memory.bytes);
    received(unsafe {
        ortkaveq_receive_b(
            input.number,
            input.size,
            scheme.as_ptr(),
            scheme.len(),
            i.as_ptr(),
            i.len(),
            q.as_ptr(),
            q.len(),
            area.as_mut_ptr(),
            area.len(),
        )
    })
}

/// Opens a stream and makes a step for each OFDM symbol; the last one's answer.
pub fn stream_b(input: &Input, memory: &mut Memory) -> Answer {
    open_b(input, memory);
    let mut last = Answer::default();
    for (i, q) in input.i.chunks(CARRIERS).zip(input.q.chunks(CARRIERS)) {
        last = step_b(i, q, memory);
    }
    last
}

pub fn open_b(input: &Input, memory: &mut Memory) -> Answer {
    let (scheme, stream) = (&input.scheme, &mut memory.stream);
    told(unsafe { ortkaveq_open_b(input.number, input.size, scheme.as_ptr(), scheme.len(), stream) })
}

pub fn step_b(i: &[i16], q: &[i16], memory: &mut Memory) -> Answer {
    let (stream, area) = (&mut memory.stream, &mut memory.bytes);
    received(unsafe {
        ortkaveq_step_b(stream, i.as_ptr(), i.len(), q.as_ptr(), q.len(), area.as_mut_ptr(), area.len())
    })
}

pub fn decide_a(input: &Input, memory: &mut Memory) -> Answer {
    let (i, q, out_i, out_q) = (&input.i, &input.q, &mut memory.i, &mut memory.q);
    told(unsafe {
        ortkaveq_decide_a(
            input.number,
            i.as_ptr(),
            i.len(),
            q.as_ptr(),
            q.len(),
            out_i.as_mut_ptr(),
            out_i.len(),
            out_q.as_mut_ptr(),
            out_q.len(),
        )
    })
}

pub fn decide_b(input: &Input, memory: &mut Memory) -> Answer {
    let (scheme, i, q, out_i, out_q) = (&input.scheme, &input.i, &input.q, &mut memory.i, &mut memory.q);
    told(unsafe {
        ortkaveq_decide_b(
            input.number,
            input.size,
            scheme.as_ptr(),
            scheme.len(),
            i.as_ptr(),
            i.len(),
            q.as_ptr(),
            q.len(),
            out_i.as_mut_ptr(),
            out_i.len(),
            out_q.as_mut_ptr(),
            out_q.len(),
        )
    })
}

pub fn symbols_b(input: &Input, _: &mut Memory) -> Answer {
    let scheme = &input.scheme;
    let r = unsafe { ortkaveq_symbols_b(input.number, input.size, scheme.as_ptr(), scheme.len()) };
    Answer { symbols: r.symbols.into(), ..answer(r.number, 0, r.place) }
}

fn told(r: Told) -> Answer {
    answer(r.number, r.mended.into(), r.place)
}

fn received(r: ReceivedTold) -> Answer {
    let (protected, worst) = (r.protected.into(), r.worst.into());
    Answer { protected, worst, ..answer(r.number.into(), r.mended.into(), r.place) }
}

fn answer(number: u32, mended: u64, place: u64) -> Answer {
    Answer { number, mended, place, ..Answer::default() }
}
