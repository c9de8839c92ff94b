//! An independent second label card for point-to-multipoint trees, with made
//! days to run on it and on the first.

mod bench;
mod box_cases;
mod box_days;
mod card;
mod cases;
mod damage;
mod days;
mod differ;
mod events;
mod form_cases;
mod formed;
mod held_cases;
mod held_events;
mod layers;
mod layers_cases;
mod layers_events;
mod long_cases;
mod lost_cases;
mod lost_events;
mod notice;
mod notice_records;
mod notice_rows;
mod odd_lines;
mod pdu;
mod plan;
mod plan_cases;
mod plan_events;
mod random;
mod recipes;
mod refusal;
mod rng;
mod round_cases;
mod row_cards;
mod rows;
mod save;
mod save_cases;
mod save_damage;
mod save_rows;
mod save_two;
mod save_two_cases;
mod session;
mod wire;
mod world;

use refusal::HIGHEST_REFUSAL;
use session::Program;
use std::fs::File;
use std::io::{self, BufReader, BufWriter, Write};
use std::process::ExitCode;

const USAGE: &str = "usage: second run [FILE]
       second box [FILE]
       second box-cases
       second box-stdin
       second box-day SEED LINES
       second box-differ DAY OUTPUT
       second day KIND SEED LINES
       second cases
       second stdin
       second rows BASE SEED LINES [FREE]
       second save-rows BASE SEED SAVES
       second notice-rows SEED RECORDS
       second refusals FILE
       second notices FILE
       second notice-records SEED COUNT
       second read-notices FILE
       second differ DAY OUTPUT
       second kinds";

/// Seeds and lines of each kind's part of the gate's standard input.
const GATE_SEEDS: [u64; 2] = [1, 2];
const GATE_LINES: [(&str, usize); 17] = [
    ("ordinary", 120),
    ("full", 240),
    ("moves", 120),
    ("exhaust", 150),
    ("damaged", 180),
    ("random", 90),
    ("room", 140),
    ("held", 260),
    ("saves", 90),
    ("forms", 110),
    ("counts", 130),
    ("round", 160),
    ("lost", 180),
    ("layers", 110),
    ("plans", 160),
    ("lines", 50),
    ("mixed", 150),
];

/// Seed and lines of each made day of the box's standard input.
const BOX_DAYS: [(u64, usize); 2] = [(1, 180), (2, 180)];

fn main() -> ExitCode {
    let words: Vec<String> = std::env::args().skip(1).collect();
    let words: Vec<&str> = words.iter().map(String::as_str).collect();
    let mut output = BufWriter::new(io::stdout().lock());
    let done = obey(&words, &mut output).and_then(|code| output.flush().map(|()| code));
    match done {
        Ok(Some(code)) => code,
        Ok(None) => {
            eprintln!("{USAGE}");
            ExitCode::from(2)
        }
        Err(error) => {
            eprintln!("second: {error}");
            ExitCode::from(2)
        }
    }
}

/// None where the words are no sub-command.
fn obey(words: &[&str], output: &mut impl Write) -> io::Result<Option<ExitCode>> {
    let lines = match *words {
        ["run" | "box" | "differ" | "box-differ", ..] => return on_program(words, output),
        ["refusals", file] => refusals(open(file)?)?,
        ["notices", file] => notice_records::in_run(open(file)?)?,
        ["read-notices", file] => notice_records::in_lines(open(file)?)?,
        ["notice-records" | "box-day", seed, count] => match (seed.parse(), count.parse()) {
            (Ok(seed), Ok(count)) if words[0] == "box-day" => box_days::make(seed, count),
            (Ok(seed), Ok(count)) => notice_records::make(seed, count),
            _ => return Ok(None),
        },
        ["notice-rows", seed, count] => match (seed.parse(), count.parse()) {
            (Ok(seed), Ok(count)) => notice_rows::make(seed, count),
            _ => return Ok(None),
        },
        ["day", kind, seed, count] => return write_day(kind, seed, count, output),
        ["rows", base, seed, count, ref free @ ..] => match made_rows(base, seed, count, free) {
            Some(rows) => rows,
            None => return Ok(None),
        },
        ["save-rows", base, seed, count] => match made_saves(base, seed, count) {
            Some(rows) => rows,
            None => return Ok(None),
        },
        ["cases"] => cases::day(),
        ["box-cases"] => box_cases::day(),
        ["box-stdin"] => return write_box_input(output).map(|()| Some(ExitCode::SUCCESS)),
        ["stdin"] => return write_gate_input(output).map(|()| Some(ExitCode::SUCCESS)),
        ["kinds"] => days::KINDS.iter().map(|k| k.name.to_string()).collect(),
        _ => return Ok(None),
    };
    for line in lines {
        writeln!(output, "{line}")?;
    }
    Ok(Some(ExitCode::SUCCESS))
}

/// Runs the bench or the box, or holds another's output against it.
fn on_program(words: &[&str], output: &mut impl Write) -> io::Result<Option<ExitCode>> {
    let program = match words[0] {
        "run" | "differ" => Program::Bench,
        _ => Program::Box,
    };
    match *words {
        ["run" | "box"] => program.run(io::stdin().lock(), output)?,
        ["run" | "box", file] => program.run(open(file)?, output)?,
        ["differ" | "box-differ", day, other] => {
            return differ::show(program, open(day)?, open(other)?, output).map(Some);
        }
        _ => return Ok(None),
    }
    Ok(Some(ExitCode::SUCCESS))
}

fn open(file: &str) -> io::Result<BufReader<File>> {
    File::open(file)
        .map(BufReader::new)
        .map_err(|error| io::Error::new(error.kind(), format!("{file}: {error}")))
}

fn write_lines(lines: &[Vec<u8>], output: &mut impl Write) -> io::Result<()> {
    for line in lines {
        output.write_all(line)?;
        output.write_all(b"\n")?;
    }
    Ok(())
}

fn write_day(
    kind: &str,
    seed: &str,
    count: &str,
    output: &mut impl Write,
) -> io::Result<Option<ExitCode>> {
    let (Some(kind), Ok(seed), Ok(count)) = (days::kind_named(kind), seed.parse(), count.parse())
    else {
        return Ok(None);
    };
    let lines = days::make(kind, seed, count);
    match lines.split_last() {
        // Now and then the last newline is left out; the line still counts.
        Some((last, before)) if days::KINDS[kind].name == "lines" && seed % 2 == 1 => {
            write_lines(before, output)?;
            output.write_all(last)?;
        }
        _ => write_lines(&lines, output)?,
    }
    Ok(Some(ExitCode::SUCCESS))
}

fn made_rows(base: &str, seed: &str, count: &str, free: &[&str]) -> Option<Vec<String>> {
    let free = match *free {
        [] => None,
        [free] => Some(free.parse().ok()?),
        _ => return None,
    };
    rows::make(
        base.parse().ok()?,
        seed.parse().ok()?,
        count.parse().ok()?,
        free,
    )
}

fn made_saves(base: &str, seed: &str, count: &str) -> Option<Vec<String>> {
    save_rows::make(base.parse().ok()?, seed.parse().ok()?, count.parse().ok()?)
}

fn write_gate_input(output: &mut impl Write) -> io::Result<()> {
    for page in [
        cases::day(),
        cases::longest_output(),
        cases::most_roots(),
        cases::notices(),
        held_cases::day(),
        save_cases::day(),
        save_two_cases::day(),
        long_cases::day(),
        round_cases::day(),
        form_cases::day(),
        lost_cases::day(),
        layers_cases::day(),
        plan_cases::day(),
    ] {
        writeln!(output, "{}", page.join("\n"))?;
    }
    let whole = bench::WHOLE_BUFFER;
    writeln!(output, "# lines, good and bad\nstart 16\nroom {whole}")?;
    write_lines(&odd_lines::every_edge(), output)?;
    for seed in GATE_SEEDS {
        for (name, count) in GATE_LINES {
            let kind = days::kind_named(name).expect("the names are those of the kinds");
            writeln!(output, "# {name}, seed {seed}\nstart 16\nroom {whole}")?;
            write_lines(&days::make(kind, seed, count), output)?;
        }
    }
    Ok(())
}

fn write_box_input(output: &mut impl Write) -> io::Result<()> {
    writeln!(output, "{}", box_cases::day().join("\n"))?;
    for (seed, lines) in BOX_DAYS {
        // The streams begin empty, as the maker's did.
        let lost: Vec<String> = (0..session::STREAMS).map(|n| format!("lost {n}")).collect();
        writeln!(output, "# a day, seed {seed}\n{}", lost.join("\n"))?;
        let whole = bench::WHOLE_BUFFER;
        writeln!(output, "start 16\nroom {whole}")?;
        writeln!(output, "{}", box_days::make(seed, lines).join("\n"))?;
    }
    Ok(())
}

/// How often each answer number and each bad line came out.
fn refusals(input: BufReader<File>) -> io::Result<Vec<String>> {
    let mut counts = [0u64; HIGHEST_REFUSAL + 1];
    let mut bad_lines = 0u64;
    bench::replay(input, |_, _, answer| {
        if let Some(number) = bench::written_number(&answer) {
            counts[usize::from(number)] += 1;
        }
        bad_lines += u64::from(answer.starts_with('?'));
        Ok(())
    })?;
    let mut lines: Vec<String> = (0..).zip(counts).map(|(n, c)| format!("{n} {c}")).collect();
    lines.push(format!("? {bad_lines}"));
    Ok(lines)
}
