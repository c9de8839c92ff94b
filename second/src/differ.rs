//! Where another program's output leaves that of this one.

use crate::session::Program;
use std::io::{self, BufRead, Write};
use std::process::ExitCode;

const SHOWN: usize = 300;

struct Difference {
    number: u64,
    order: Vec<u8>,
    expected: Vec<u8>,
    came: Option<Vec<u8>>,
}

/// Writes the first difference and fails, or writes how many lines agree.
pub fn show(
    program: Program,
    day: impl BufRead,
    other: impl BufRead,
    output: &mut impl Write,
) -> io::Result<ExitCode> {
    let mut other = other;
    let (agreeing, difference) = compare(program, day, &mut other)?;
    if let Some(difference) = difference {
        write_difference(&difference, output)?;
        return Ok(ExitCode::FAILURE);
    }
    let mut left_over = Vec::new();
    other.read_to_end(&mut left_over)?;
    if !left_over.is_empty() {
        writeln!(output, "beyond the last line: {}", shown(&left_over))?;
        return Ok(ExitCode::FAILURE);
    }
    writeln!(output, "{agreeing}")?;
    Ok(ExitCode::SUCCESS)
}

fn compare(
    program: Program,
    day: impl BufRead,
    other: &mut impl BufRead,
) -> io::Result<(u64, Option<Difference>)> {
    let mut agreeing = 0;
    let mut difference = None;
    program.replay(day, |number, order, answer| {
        if difference.is_some() {
            return Ok(());
        }
        let expected = format!("{answer}\n").into_bytes();
        let mut came = Vec::new();
        other.read_until(b'\n', &mut came)?;
        if came == expected {
            agreeing += 1;
            return Ok(());
        }
        difference = Some(Difference {
            number,
            order: order.to_vec(),
            expected,
            came: Some(came).filter(|line| !line.is_empty()),
        });
        Ok(())
    })?;
    Ok((agreeing, difference))
}

fn write_difference(difference: &Difference, output: &mut impl Write) -> io::Result<()> {
    let came = difference
        .came
        .as_deref()
        .map_or("(nothing more)".to_string(), shown);
    writeln!(
        output,
        "line {}: {}",
        difference.number,
        shown(&difference.order)
    )?;
    writeln!(output, "  second: {}", shown(&difference.expected))?;
    writeln!(output, "  other:  {came}")
}

/// A line as text; long ones are cut.
fn shown(line: &[u8]) -> String {
    let text: String = line.escape_ascii().to_string();
    if text.len() <= SHOWN {
        return text;
    }
    format!("{}... ({} octets)", &text[..SHOWN], line.len())
}

#[cfg(test)]
mod tests {
    use super::*;

    fn verdict(day: &str, other: &str) -> String {
        let mut output = Vec::new();
        let shown = show(
            Program::Bench,
            day.as_bytes(),
            other.as_bytes(),
            &mut output,
        );
        shown.expect("memory can be written");
        String::from_utf8(output).expect("only text is written")
    }

    #[test]
    fn agreement_is_counted() {
        assert_eq!(verdict("free\n\nfree\n", "free 256\nfree 256\n"), "2\n");
    }

    #[test]
    fn first_difference_is_shown() {
        let said = verdict("# day\nfree\nlabel 3\n", "free 256\nlabel 4:4\n");
        assert!(said.starts_with("line 3: label 3\n"));
        assert!(said.contains("second: label nothing"));
        assert!(verdict("free\n", "").contains("(nothing more)"));
        assert!(verdict("free\n", "free 256").starts_with("line 1"));
        assert!(verdict("free\n", "free 256\nfree 256\n").starts_with("beyond"));
    }
}
