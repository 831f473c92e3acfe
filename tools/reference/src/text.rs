//! Schema texts: lines of 14 columns, read into counts and rows.

use crate::refusal::Refusal;
use crate::schema::{MOST_ARROWS, MOST_CLASSES, MOST_ROWS, Row};

const LINE_LENGTH: usize = 14;
pub const LONGEST_TEXT: usize = LINE_LENGTH * (MOST_ROWS as usize + 1);

/// What a text tells; its rows are sound for its counts.
#[derive(Debug)]
pub struct Text {
    pub classes: u16,
    pub arrows: u16,
    pub rows: Vec<Row>,
}

impl Text {
    pub fn read(bytes: &[u8]) -> Result<Text, Refusal> {
        let mut lines = bytes.chunks_exact(LINE_LENGTH);
        let header = lines.next().ok_or(Refusal::TooShort)?;
        let header = read_line(header, b"H").map_err(|column| Refusal::Form { line: 1, column })?;
        let [classes, arrows, rows] = header.numbers;
        if classes > MOST_CLASSES || arrows > MOST_ARROWS || rows > MOST_ROWS {
            return Err(Refusal::TooLarge);
        }
        if bytes.len() != LINE_LENGTH * (usize::from(rows) + 1) {
            return Err(Refusal::WrongLength);
        }
        let rows = (2..)
            .zip(lines)
            .map(|(line, bytes)| {
                let row = read_line(bytes, b"SXDFKPQ")
                    .map_err(|column| Refusal::Form { line, column })?;
                row.fact(classes, arrows)
                    .map_err(|field| Refusal::UnsoundLine { line, field })?;
                Ok(row)
            })
            .collect::<Result<_, _>>()?;
        Ok(Text {
            classes,
            arrows,
            rows,
        })
    }
}

/// Takes a line of the full length apart into its letter and three numbers; the
/// error is the first bad column, counted from 1.
fn read_line(line: &[u8], letters: &[u8]) -> Result<Row, usize> {
    let letter = line[0];
    if !letters.contains(&letter) {
        return Err(1);
    }
    let mut numbers = [0; 3];
    for (group, number) in numbers.iter_mut().enumerate() {
        let start = 1 + 4 * group;
        *number = read_group(&line[start..start + 4]).map_err(|offset| start + offset + 1)?;
    }
    if line[LINE_LENGTH - 1] != b'\n' {
        return Err(LINE_LENGTH);
    }
    Ok(Row { letter, numbers })
}

/// A number set to the right, with blanks and no zeros before its first digit.
/// The error is the first bad column, counted from 0.
fn read_group(columns: &[u8]) -> Result<u16, usize> {
    let last = columns.len() - 1;
    let mut begun = false;
    let mut value = 0;
    for (offset, &byte) in columns.iter().enumerate() {
        match byte {
            b' ' if !begun && offset < last => {}
            b'0' if !begun && offset < last => return Err(offset),
            b'0'..=b'9' => {
                begun = true;
                value = 10 * value + u16::from(byte - b'0');
            }
            _ => return Err(offset),
        }
    }
    Ok(value)
}

#[cfg(test)]
mod tests {
    use super::*;

    fn refused(text: &str) -> Refusal {
        Text::read(text.as_bytes()).expect_err("a refusal")
    }

    #[test]
    fn groups() {
        assert_eq!(read_group(b"   0"), Ok(0));
        assert_eq!(read_group(b"  10"), Ok(10));
        assert_eq!(read_group(b"9999"), Ok(9999));
        assert_eq!(read_group(b"    "), Err(3));
        assert_eq!(read_group(b"  00"), Err(2));
        assert_eq!(read_group(b"0001"), Err(0));
        assert_eq!(read_group(b" 1 2"), Err(2));
        assert_eq!(read_group(b"1   "), Err(1));
        assert_eq!(read_group(b"  -1"), Err(2));
        assert_eq!(read_group(b"   \n"), Err(3));
    }

    #[test]
    fn faults_of_line_1_come_in_order() {
        assert_eq!(refused(""), Refusal::TooShort);
        assert_eq!(refused("h   0   0   0"), Refusal::TooShort);
        let form = |column| Refusal::Form { line: 1, column };
        assert_eq!(refused("h   0   0   0\n"), form(1));
        assert_eq!(refused("H  65   0 0 0\n"), form(11));
        assert_eq!(refused("H  65   0   0 "), form(14));
        assert_eq!(refused("H  65   0   9\n"), Refusal::TooLarge);
        assert_eq!(refused("H   0  33   0\n"), Refusal::TooLarge);
        assert_eq!(refused("H   0   0 513\n"), Refusal::TooLarge);
        assert_eq!(refused("H  64  32   0\n\n"), Refusal::WrongLength);
        assert_eq!(refused("H  64  32   1\nS   0"), Refusal::WrongLength);
    }

    #[test]
    fn faults_of_rows_come_line_by_line() {
        let two = "H   4   2   2\nF   0   4   1\nf   0   0   1\n";
        assert_eq!(refused(two), Refusal::UnsoundLine { line: 2, field: 3 });
        let two = "H   4   2   2\nF   0   3  30\nF   4   4  31\n";
        assert_eq!(refused(two), Refusal::UnsoundLine { line: 3, field: 2 });
        let two = "H   4   2   2\nF   0   3  30\nf   4   4  31\n";
        assert_eq!(refused(two), Refusal::Form { line: 3, column: 1 });
    }
}
