//! The independent second program of Ortkaveq: HiNoC payload coding (ITU-T J.195.2, as document 01 reads it, with the
//! decision of noisy points of request 1, the refusal of noise of request 3, the stream of request 5, the frame check of
//! request 6, the worst block's count of request 8 and the mended places of request 10) written a second time, in another
//! language and by other methods than the proved crates, so that the two can be compared.
//!
//! In the order data flows:
//!
//! | module | idea |
//! |---|---|
//! | `answer` | the refusal numbers of document 01 and request 3, and places; total and worst; lists of mended places |
//! | `field`, `logs` | GF(512) by carry-less multiplication; products by logarithms built from it at start-up |
//! | `poly`, `bch` | division of bit vectors; the three codes, decoded by Peterson's linear equations |
//! | `points`, `dqpsk`, `grid` | Annex B as printed and its repairs; Table 1; equation 4 |
//! | `bits`, `scrambler`, `check` | most significant bit first; clause 6.2; clause 7.4.2, by the rule of request 6 or another |
//! | `payload_a`, `payload_b` | the two payloads, both directions |
//! | `nearest`, `decide` | the point nearest to a noisy one, by a search of the table; the stage before either receiver |
//! | `stream_b`, `state_b` | Payload B received one OFDM symbol at a time; its state field by field, and any other |
//! | `trial` | the request and response format of the trial program |
//! | `again` | total and worst as request 8 defines them: by sending again |
//! | `rng`, `hostile` | requests from a seed, most of them meant to break something |
//! | `stray` | kinds of stray points, most of them near the legal ones |
//! | `noisy` | kinds of noisy points, by where they lie among the levels |
//! | `largest` | the largest frames of Payload B, and one byte or block more |
//! | `compare`, `tally`, `numbers` | driving another program; counting refusals; document 01's numbers |
//! | `earlier` | driving another program across the two rules of the frame check |
//! | `regions` | driving another program's decisions over whole grids of noisy points |
//! | `streamed` | the stream held against the whole form, and against steps from its states |
//! | `astray` | words with more than t hits that are mended into a codeword that was not sent |

pub mod again;
pub mod answer;
pub mod astray;
pub mod bch;
pub mod bits;
pub mod check;
pub mod compare;
pub mod decide;
pub mod dqpsk;
pub mod earlier;
pub mod field;
pub mod grid;
pub mod hostile;
pub mod largest;
pub mod logs;
pub mod nearest;
pub mod noisy;
pub mod numbers;
pub mod payload_a;
pub mod payload_b;
pub mod points;
pub mod poly;
pub mod regions;
pub mod rng;
pub mod scrambler;
pub mod state_b;
pub mod stray;
pub mod stream_b;
pub mod streamed;
pub mod tally;
pub mod trial;
