//! The command line of the second program.

use second::points::constellation;
use second::tally::Tally;
use second::{astray, compare, earlier, field, hostile, largest, numbers, regions, streamed, trial};
use std::io::{self, BufWriter, Write};
use std::process::ExitCode;

const USAGE: &str = "\
second requests SEED COUNT [JOBS]               writes requests for a trial program
second responses < REQUESTS                     writes the responses that are expected
second compare SEED COUNT [JOBS] -- COMMAND..   drives a trial program, prints differences and 'N passed, M failed'
second largest SEED -- COMMAND..                drives a trial program with the largest frames of Payload B, and one byte or block more
second earlier SEED COUNT -- COMMAND..          drives a trial program against the earlier rule of the frame check: each must refuse what the other sends, clean and mended; 'N passed, M failed'
second grids [-- COMMAND..]                     drives a trial program through jobs 7 and 8 over whole grids of noisy points, or without a command this one; a line for each constellation, and 'N pairs, F failed'
second one SEED INDEX [JOBS]                    writes the single request of this index
second tally SEED COUNT [JOBS]                  counts the refusal numbers of each job, their places, what came as far as the decoder, worst blocks, lists of mended places, protected bits that differed, and kinds of stray and of noisy points
second streams SEED COUNT                       holds COUNT streams of Payload B against the whole form and against single steps, and COUNT single steps against what a sound state is; 'N passed, M failed'
second astray SEED COUNT [CODES]                counts words with more than t hits that are refused, and that are mended into another codeword
second numbers                                  checks document 01's numbers, the frame check's by request 6
second field                                    writes all products and inverses of GF(512)
second points                                   writes all points, and the label of every point near them
JOBS is a string of job digits, such as 2 or 56, with 7 and 8 for decisions, 9 for streams and g for 16, single steps; without it, 123456. CODES likewise, of 123; without it, all three.";

fn main() -> ExitCode {
    let args: Vec<String> = std::env::args().skip(1).collect();
    match run(&args) {
        Ok(true) => ExitCode::SUCCESS,
        Ok(false) => ExitCode::FAILURE,
        Err(error) => {
            eprintln!("second: {error}");
            ExitCode::FAILURE
        }
    }
}

fn run(args: &[String]) -> io::Result<bool> {
    let mut out = BufWriter::new(io::stdout().lock());
    let words: Vec<&str> = args.iter().map(String::as_str).collect();
    let good = match words[..] {
        ["compare", seed, count, ref rest @ ..] => {
            let (jobs, command) = command_of(rest)?;
            compare::compare(number(seed)?, number(count)?, &jobs_of(jobs)?, &command, &mut out)?
        }
        ["largest", seed, ref rest @ ..] => {
            let command = command_alone(rest)?;
            compare::compare_all(&largest::requests(number(seed)?), &command, &mut out)?
        }
        ["earlier", seed, count, ref rest @ ..] => {
            let command = command_alone(rest)?;
            earlier::earlier(number(seed)?, number(count)?, &command, &mut out)?
        }
        ["grids"] => regions::grids(None, &mut out)?,
        ["grids", ref rest @ ..] => regions::grids(Some(&command_alone(rest)?), &mut out)?,
        ["streams", seed, count] => streamed::streams(number(seed)?, number(count)?, &mut out)?,
        ["numbers"] => numbers::numbers(&mut out)?,
        _ => match write(&words, &mut out).and_then(|()| out.flush()) {
            // Whoever reads what is only written may stop reading.
            Err(error) if error.kind() == io::ErrorKind::BrokenPipe => return Ok(true),
            written => written.map(|()| true)?,
        },
    };
    out.flush()?;
    Ok(good)
}

/// The commands that only write.
fn write(words: &[&str], out: &mut impl Write) -> io::Result<()> {
    match words {
        ["requests", seed, count, jobs @ ..] => {
            let (seed, count, jobs) = (number(seed)?, number(count)?, jobs_of(jobs)?);
            (0..count).try_for_each(|index| out.write_all(&hostile::request(seed, index, &jobs).to_bytes()))
        }
        ["one", seed, index, jobs @ ..] => {
            out.write_all(&hostile::request(number(seed)?, number(index)?, &jobs_of(jobs)?).to_bytes())
        }
        ["responses"] => trial::run(&mut io::stdin().lock(), out),
        ["tally", seed, count, jobs @ ..] => {
            writeln!(out, "{}", Tally::of(number(seed)?, number(count)?, &jobs_of(jobs)?))
        }
        ["astray", seed, count, codes @ ..] => {
            astray::write(number(seed)?, number(count)?, &digits_of(codes, "123", "123")?, out)
        }
        ["field"] => write_field(out),
        ["points"] => write_points(out),
        _ => Err(usage("what is to be done?")),
    }
}

/// The words before --, and the command after it.
fn command_of<'a, 'b>(words: &'a [&'b str]) -> io::Result<(&'a [&'b str], Vec<String>)> {
    let dashes = words.iter().position(|&word| word == "--").ok_or_else(|| usage("no -- and command"))?;
    let command: Vec<String> = words[dashes + 1..].iter().map(|word| word.to_string()).collect();
    if command.is_empty() {
        return Err(usage("no command"));
    }
    Ok((&words[..dashes], command))
}

/// The command after --, where no word may stand before it.
fn command_alone(words: &[&str]) -> io::Result<Vec<String>> {
    match command_of(words)? {
        ([], command) => Ok(command),
        _ => Err(usage("too many words")),
    }
}

fn usage(why: &str) -> io::Error {
    io::Error::other(format!("{why}\n{USAGE}"))
}

fn number(word: &str) -> io::Result<u64> {
    word.parse().map_err(|_| usage(&format!("{word} is no number")))
}

/// The jobs of a string of digits; jobs 1 to 6 if there is none.
fn jobs_of(words: &[&str]) -> io::Result<Vec<u8>> {
    digits_of(words, "123456", "123456789g")
}

/// The numbers of a string of digits, each one of these, beyond 9 letters: g is 16. Without a string, some are meant.
fn digits_of(words: &[&str], without: &str, all: &str) -> io::Result<Vec<u8>> {
    let digits = match words {
        [] => without,
        [digits] => digits,
        _ => return Err(usage("too many words")),
    };
    if digits.is_empty() || !digits.chars().all(|digit| all.contains(digit)) {
        return Err(usage(&format!("{digits}: only digits of {all} are meant")));
    }
    Ok(digits.chars().filter_map(|digit| digit.to_digit(36)).map(|digit| digit as u8).collect())
}

/// All products, x outer and y inner, then the inverses, that of 0 being 0: two bytes each, little-endian.
fn write_field(out: &mut impl Write) -> io::Result<()> {
    for x in 0..field::SIZE {
        for y in 0..field::SIZE {
            out.write_all(&field::product(x, y).to_le_bytes())?;
        }
    }
    (0..field::SIZE).try_for_each(|x| out.write_all(&field::inverse(x).to_le_bytes()))
}

/// For 2 to 10 bits: I and Q of every label, then the label (65535 for none) of each point with both levels from -40 to
/// 40, I outer and Q inner. Two bytes each, little-endian.
fn write_points(out: &mut impl Write) -> io::Result<()> {
    for table in (2..=10).map(|bits| constellation(bits).expect("2 to 10")) {
        for (i, q) in table.points() {
            out.write_all(&i.to_le_bytes())?;
            out.write_all(&q.to_le_bytes())?;
        }
        for point in (-40..=40).flat_map(|i| (-40..=40).map(move |q| (i, q))) {
            out.write_all(&table.label(point).unwrap_or(u16::MAX).to_le_bytes())?;
        }
    }
    Ok(())
}
