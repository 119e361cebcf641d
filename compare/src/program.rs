//! What the clip program must print for its input (document 01, "The clip program").

use crate::judge::{clip, in_limit, Answer, Drawn, Kind, Lent, Rect, FIRMWARE, MAX_SHORT_PATH};
use std::io::{self, BufRead, Write};

/// The longest line, in bytes, line feed not counted.
pub const MAX_LINE: usize = 4_096;
const UNREADABLE: u32 = 12;

/// Reads the input line by line and prints the answer to each.
pub fn answer_all(mut input: impl BufRead, mut output: impl Write) -> io::Result<()> {
    let first = next_line(&mut input)?.unwrap_or_default();
    let rect = match read_rect(&first) {
        Ok(rect) => rect,
        Err(number) => return writeln!(output, "X,1,{number}"),
    };
    let [left, top, right, bottom] = rect;
    writeln!(output, "R,{left},{top},{right},{bottom}")?;
    let mut line_number = 1_u64;
    while let Some(line) = next_line(&mut input)? {
        line_number += 1;
        print_answer(&mut output, rect, line_number, &line)?;
    }
    Ok(())
}

/// What is printed for a line behind line 1.
pub fn print_answer(output: &mut impl Write, rect: Rect, line_number: u64, line: &[u8]) -> io::Result<()> {
    match answer_line(rect, line) {
        Err(number) => writeln!(output, "X,{line_number},{number}"),
        Ok((letter, drawn)) => print_paths(output, letter, line_number, &drawn),
    }
}

/// The next line without its line feed, or none at the end. Of a line that is too long, one byte too many is kept.
fn next_line(input: &mut impl BufRead) -> io::Result<Option<Vec<u8>>> {
    let mut line = Vec::new();
    let mut begun = false;
    loop {
        let bytes = input.fill_buf()?;
        if bytes.is_empty() {
            return Ok(begun.then_some(line));
        }
        begun = true;
        let end = bytes.iter().position(|&b| b == b'\n');
        let part = &bytes[..end.unwrap_or(bytes.len())];
        let room = MAX_LINE + 1 - line.len();
        line.extend_from_slice(&part[..part.len().min(room)]);
        let used = part.len() + usize::from(end.is_some());
        input.consume(used);
        if end.is_some() {
            return Ok(Some(line));
        }
    }
}

/// The rectangle of line 1, or 12 or 6.
fn read_rect(line: &[u8]) -> Result<Rect, u32> {
    match read_fields(line) {
        Some((b'R', numbers)) => {
            let rect: Rect = numbers.try_into().map_err(|_| UNREADABLE)?;
            if in_limit(&rect) {
                Ok(rect)
            } else {
                Err(6)
            }
        }
        _ => Err(UNREADABLE),
    }
}

/// The letter of a further line with its result, or the refusal.
fn answer_line(rect: Rect, line: &[u8]) -> Result<(char, Drawn), u32> {
    let (letter, kind, path) = match read_fields(line) {
        Some((b'C', numbers)) => ('C', Kind::Closed, numbers),
        Some((b'L', numbers)) => ('L', Kind::Open, numbers),
        _ => return Err(UNREADABLE),
    };
    if path.len() % 2 == 0 && path.len() / 2 > MAX_SHORT_PATH {
        return Err(5);
    }
    match clip(kind, rect, &path, Lent::enough(FIRMWARE, FIRMWARE)) {
        Answer::Refused(number) => Err(number),
        Answer::Drawn(drawn) => Ok((letter, drawn)),
    }
}

/// The letter and the numbers of a line, unless it is too long, empty or otherwise unreadable.
fn read_fields(line: &[u8]) -> Option<(u8, Vec<i64>)> {
    if line.len() > MAX_LINE {
        return None;
    }
    let mut fields = line.split(|&b| b == b',');
    let &[letter] = fields.next()? else { return None };
    let numbers = fields.map(read_number).collect::<Option<_>>()?;
    Some((letter, numbers))
}

/// An optional minus and digits, fitting 64 signed bits. Worked out downward, since there is one more number below 0.
fn read_number(field: &[u8]) -> Option<i64> {
    let (minus, digits) = match field {
        [b'-', digits @ ..] => (true, digits),
        digits => (false, digits),
    };
    if digits.is_empty() || !digits.iter().all(u8::is_ascii_digit) {
        return None;
    }
    let below = digits.iter().try_fold(0_i64, |n, d| n.checked_mul(10)?.checked_sub(i64::from(d - b'0')))?;
    if minus {
        Some(below)
    } else {
        below.checked_neg()
    }
}

/// A line for each returned path: kind, input line, number of points, coordinates.
fn print_paths(output: &mut impl Write, letter: char, line_number: u64, drawn: &Drawn) -> io::Result<()> {
    for path in drawn.each_path() {
        write!(output, "{letter},{line_number},{}", path.len() / 2)?;
        for coordinate in path {
            write!(output, ",{coordinate}")?;
        }
        writeln!(output)?;
    }
    Ok(())
}
