//! The second program's calls, answered in the same form as ours.

use crate::rows::{Answer, Input, Memory};
use second::answer::Counts;
use second::{answer, bch, decide, grid, payload_a, payload_b, stream_b};

pub fn encode(input: &Input, memory: &mut Memory) -> Answer {
    told(bch::encode(input.number, &input.bytes, &mut memory.bytes))
}

pub fn decode(input: &Input, memory: &mut Memory) -> Answer {
    told(bch::decode(input.number, &input.bytes, &mut memory.bytes))
}

pub fn send_a(input: &Input, memory: &mut Memory) -> Answer {
    told(payload_a::send(input.number, &input.bytes, &mut memory.i, &mut memory.q))
}

pub fn receive_a(input: &Input, memory: &mut Memory) -> Answer {
    told(payload_a::receive(input.number, &input.i, &input.q, &mut memory.bytes))
}

pub fn send_b(input: &Input, memory: &mut Memory) -> Answer {
    told(payload_b::send(input.number, &input.bytes, &input.scheme, &mut memory.i, &mut memory.q))
}

pub fn receive_b(input: &Input, memory: &mut Memory) -> Answer {
    let size = input.size as u64;
    told(payload_b::receive(input.number, size, &input.scheme, &input.i, &input.q, &mut memory.bytes))
}

/// A stream through all OFDM symbols; the last one's answer.
pub fn stream_b(input: &Input, memory: &mut Memory) -> Answer {
    let mut stream = stream_b::open(input.number, input.size as u64, &input.scheme);
    let symbols = input.i.chunks(grid::CARRIERS).zip(input.q.chunks(grid::CARRIERS));
    let last = symbols.map(|(i, q)| stream.step(i, q, &mut memory.bytes)).last();
    last.map_or(Answer::default(), told)
}

pub fn decide_a(input: &Input, memory: &mut Memory) -> Answer {
    told(decide::decide_a(input.number, &input.i, &input.q, &mut memory.i, &mut memory.q))
}

pub fn decide_b(input: &Input, memory: &mut Memory) -> Answer {
    let size = input.size as u64;
    told(decide::decide_b(input.number, size, &input.scheme, &input.i, &input.q, &mut memory.i, &mut memory.q))
}

pub fn symbols_b(input: &Input, _: &mut Memory) -> Answer {
    match payload_b::plan(input.number, input.size as u64, &input.scheme) {
        Ok(plan) => Answer { symbols: plan.symbols as u64, ..Answer::default() },
        Err(refusal) => refused(refusal),
    }
}

fn told(answer: answer::Answer) -> Answer {
    match answer {
        Ok(Counts { mended, protected, worst, places }) => {
            Answer { mended, protected, worst, places, ..Answer::default() }
        }
        Err(refusal) => refused(refusal),
    }
}

fn refused(refusal: answer::Refusal) -> Answer {
    Answer { number: refusal.number().into(), place: refusal.place(), ..Answer::default() }
}
