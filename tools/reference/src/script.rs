//! Scripts of calls on a pile: reading them, making the calls, writing the answers.

use std::fmt::Write;

use crate::emptiness::Empty;
use crate::pile::{Answer, Call, Part, Pile};
use crate::refusal::Refusal;
use crate::schema::Row;

pub const LONGEST_SCRIPT: usize = 1_048_576;

/// A script that cannot be run: the line and what is wrong with it.
#[derive(Debug, PartialEq, Eq)]
pub struct BadScript {
    pub line: usize,
    pub words: &'static str,
}

enum Base {
    Book { classes: u16, arrows: u16 },
    Text(Vec<u8>),
}

struct Step {
    line: usize,
    words: Vec<u8>,
    part: u64,
    call: Call,
}

struct Script {
    line: usize,
    words: Vec<u8>,
    base: Base,
    steps: Vec<Step>,
}

/// What the calls of the script answer, a line for each.
pub fn replay(bytes: &[u8]) -> Result<Vec<u8>, BadScript> {
    Ok(run(Reader::new(bytes).script()?))
}

/// The lines of a script that are still to be read.
struct Reader<'a> {
    lines: std::slice::Split<'a, u8, fn(&u8) -> bool>,
    /// The number of the line that was read last.
    line: usize,
    /// Whether the script is longer than is read.
    too_long: bool,
}

type Words<'a> = Vec<&'a [u8]>;

impl<'a> Reader<'a> {
    fn new(bytes: &'a [u8]) -> Reader<'a> {
        // What follows the last line feed is a line only if it has bytes.
        let whole = bytes.strip_suffix(b"\n").unwrap_or(bytes);
        let is_line_feed: fn(&u8) -> bool = |&byte| byte == b'\n';
        let mut lines = whole.split(is_line_feed);
        if bytes.is_empty() {
            lines.next();
        }
        Reader {
            lines,
            line: 0,
            too_long: bytes.len() > LONGEST_SCRIPT,
        }
    }

    fn bad(&self, words: &'static str) -> BadScript {
        let line = self.line.max(1);
        BadScript { line, words }
    }

    fn next_line(&mut self) -> Option<&'a [u8]> {
        let line = self.lines.next()?;
        self.line += 1;
        Some(line)
    }

    /// The words of the next line that says something.
    fn next_words(&mut self) -> Result<Option<Words<'a>>, BadScript> {
        while let Some(line) = self.next_line() {
            if std::str::from_utf8(line).is_err() {
                return Err(self.bad("not a text"));
            }
            let words: Words = line
                .split(|&byte| byte == b' ')
                .filter(|word| !word.is_empty())
                .collect();
            if words.first().is_some_and(|word| word[0] != b'#') {
                return Ok(Some(words));
            }
        }
        Ok(None)
    }

    /// The bytes of the lines up to the one that ends a text.
    fn text(&mut self) -> Result<Vec<u8>, BadScript> {
        let mut text = Vec::new();
        while let Some(line) = self.next_line() {
            if line == b"end" {
                return Ok(text);
            }
            text.extend_from_slice(line);
            text.push(b'\n');
        }
        Err(self.bad("the text has no end"))
    }

    fn script(mut self) -> Result<Script, BadScript> {
        if self.too_long {
            return Err(self.bad("the script is too long"));
        }
        let first = self.next_words()?;
        let line = self.line;
        let words = first.ok_or_else(|| self.bad("there is no line for the lowest sheet"))?;
        let base = match words[..] {
            [b"text"] => Base::Text(self.text()?),
            [b"book", classes, arrows] => Base::Book {
                classes: number(classes).ok_or_else(|| self.bad("not a number of classes"))?,
                arrows: number(arrows).ok_or_else(|| self.bad("not a number of arrows"))?,
            },
            _ => return Err(self.bad("neither a book nor a text")),
        };
        let first_words = words.join(&b' ');
        let mut steps = Vec::new();
        while let Some(words) = self.next_words()? {
            let line = self.line;
            let part = part_number(words[0]).ok_or_else(|| self.bad("not a part"))?;
            let call = match words[1..] {
                [b"load"] => Some(Call::Load(self.text()?)),
                _ => read_call(&words[1..]),
            };
            let call = call.ok_or_else(|| self.bad("not a call"))?;
            let words = words.join(&b' ');
            steps.push(Step { line, words, part, call });
        }
        let words = first_words;
        Ok(Script { line, words, base, steps })
    }
}

/// A number of digits alone that fits the type.
fn number<T: TryFrom<u64>>(word: &[u8]) -> Option<T> {
    let mut value: u64 = 0;
    for byte in word {
        if !byte.is_ascii_digit() {
            return None;
        }
        value = value.checked_mul(10)?.checked_add(u64::from(byte - b'0'))?;
    }
    T::try_from(value).ok()
}

fn part_number(word: &[u8]) -> Option<u64> {
    match word {
        b"base" => Some(0),
        b"city" => Some(1),
        b"tariff" => Some(2),
        b"strikes" => Some(3),
        _ => number(word),
    }
}

fn read_row(words: &[&[u8]]) -> Option<Row> {
    let (a, b, n) = match *words {
        [_, a, b] => (a, b, b"0".as_slice()),
        [_, a, b, n] => (a, b, n),
        _ => return None,
    };
    let [letter] = *words[0] else { return None };
    let numbers = [number(a)?, number(b)?, number(n)?];
    Some(Row { letter, numbers })
}

/// Any call but loading, which has lines of its own.
fn read_call(words: &[&[u8]]) -> Option<Call> {
    let (name, rest) = words.split_first()?;
    Some(match (*name, rest) {
        (b"enter", row) => Call::Enter(read_row(row)?),
        (b"amend", [k, row @ ..]) => Call::Amend(number(k)?, read_row(row)?),
        (b"withdraw", []) => Call::Withdraw,
        (b"strike", [k]) => Call::Strike(number(k)?),
        (b"restore", [k]) => Call::Restore(number(k)?),
        (b"verdict", []) => Call::Verdict { table: None },
        (b"verdict", [table]) => Call::Verdict {
            table: Some(number(table)?),
        },
        (b"ask", row) => Call::Ask(read_row(row)?),
        (b"counts", []) => Call::Counts,
        (b"capacity", []) => Call::Capacity,
        (b"rows", []) => Call::Rows,
        (b"row", [k]) => Call::Row(number(k)?),
        _ => return None,
    })
}

fn run(script: Script) -> Vec<u8> {
    let mut written = Vec::new();
    let mut write = |line: usize, call: &[u8], answer: &[u8]| {
        written.extend_from_slice(format!("{line}: ").as_bytes());
        written.extend_from_slice(call);
        written.extend_from_slice(b": ");
        written.extend_from_slice(answer);
        written.push(b'\n');
    };
    let (mut pile, made) = match &script.base {
        Base::Book { classes, arrows } => Pile::over_book(*classes, *arrows),
        Base::Text(text) => Pile::over_text(text),
    };
    let answer = answer_bytes(made.map(|()| Answer::Done));
    write(script.line, &script.words, &answer);
    for step in script.steps {
        let part = match step.part {
            0 => Part::Base,
            1 => Part::City,
            2 => Part::Tariff,
            3 => Part::Strikes,
            _ => {
                write(step.line, &step.words, b"no such part");
                continue;
            }
        };
        let answer = answer_bytes(pile.call(part, &step.call));
        write(step.line, &step.words, &answer);
    }
    written
}

/// The letter of a row may be any byte, so a row is no string.
fn row_bytes(row: &Row) -> Vec<u8> {
    let [a, b, n] = row.numbers;
    let numbers = format!(" {a} {b} {n}");
    [&[row.letter], numbers.as_bytes()].concat()
}

fn answer_bytes(answer: Result<Answer, Refusal>) -> Vec<u8> {
    let words = match answer {
        Ok(Answer::Row(Some(row))) => return row_bytes(&row),
        Ok(Answer::Row(None)) => "none".to_string(),
        Ok(Answer::Done) => "done".to_string(),
        Ok(Answer::Dropped(rows)) => format!("{rows} dropped"),
        Ok(Answer::ForcedEmpty(empty)) => names(&empty),
        Ok(Answer::Follows(true)) => "yes".to_string(),
        Ok(Answer::Follows(false)) => "no".to_string(),
        Ok(Answer::Counts { classes, arrows }) => format!("{classes} classes, {arrows} arrows"),
        Ok(Answer::Number(number)) => number.to_string(),
        Ok(Answer::NoSuchCall) => "no such call here".to_string(),
        Err(refusal) => format!("refused {}: {}", refusal.numbers()[0], refusal.words()),
    };
    words.into_bytes()
}

fn names(empty: &Empty) -> String {
    let mut words = format!("{} forced empty", empty.classes.len() + empty.arrows.len());
    let classes = empty.classes.map(|class| ("class", class));
    let arrows = empty.arrows.map(|arrow| ("arrow", arrow));
    for (place, (kind, number)) in classes.chain(arrows).enumerate() {
        let before = if place == 0 { ":" } else { "," };
        write!(words, "{before} {kind} {number}").expect("a string takes all");
    }
    words
}

#[cfg(test)]
mod tests {
    use super::*;

    fn written(script: &str) -> String {
        let bytes = replay(script.as_bytes()).expect("a script that runs");
        String::from_utf8(bytes).expect("plain letters")
    }

    fn bad_line(script: &str) -> usize {
        replay(script.as_bytes()).expect_err("a bad script").line
    }

    #[test]
    fn calls_and_answers() {
        let script = "\
# A small life
book 4 002

 base  enter X 0 0
city enter Z 65535 1 2
city ask S 0 1
1 withdraw
city ask S 0 1
2 verdict
7 row 0
3 row 00
3 withdraw
base amend 1 S 0 1 0
base verdict 5
base counts";
        let expected = "\
2: book 4 002: done
4: base enter X 0 0: done
5: city enter Z 65535 1 2: done
6: city ask S 0 1: refused 16: row 1, field 1 is unsound
7: 1 withdraw: 1 dropped
8: city ask S 0 1: yes
9: 2 verdict: 1 forced empty: class 0
10: 7 row 0: no such part
11: 3 row 00: X 0 0 0
12: 3 withdraw: no such call here
13: base amend 1 S 0 1 0: refused 3: there is no such row
14: base verdict 5: refused 18: the table is too short
15: base counts: 4 classes, 2 arrows
";
        assert_eq!(written(script), expected);
    }

    #[test]
    fn texts_keep_all_their_bytes() {
        let script = "text\nH   1   1   1\nQ   0   0   0\nend\nbase verdict\nbase load\n#\n\nend\n";
        let expected = "\
1: text: done
5: base verdict: 1 forced empty: arrow 0
6: base load: refused 8: the text is shorter than a line
";
        assert_eq!(written(script), expected);
        let script = "text\nH   1   1   1\nQ   0   0   0\n end\nend\nbase rows";
        let expected = "\
1: text: refused 11: the text is not as long as its first line says
6: base rows: 0
";
        assert_eq!(written(script), expected);
    }

    #[test]
    fn too_many_names() {
        let expected = "\
1: book 65 0: refused 1: more than 64 classes or 32 arrows
2: base counts: 0 classes, 0 arrows
3: base capacity: 384
";
        assert_eq!(written("book 65 0\nbase counts\nbase capacity\n"), expected);
    }

    #[test]
    fn letters_of_one_byte() {
        let bytes = replay(b"book 1 1\nbase enter ~ 1 2\nbase row 0\n").expect("a script");
        let expected = b"1: book 1 1: done\n2: base enter ~ 1 2: done\n3: base row 0: ~ 1 2 0\n";
        assert_eq!(bytes, expected);
        assert!(replay(b"book 1 1\nbase enter \xff 1 2\n").is_err());
        assert!(replay("book 1 1\nbase enter é 1 2\n".as_bytes()).is_err());
        assert!(replay("# é\nbook 1 1\n".as_bytes()).is_ok());
    }

    #[test]
    fn bad_scripts() {
        assert_eq!(bad_line("\n#\nbase rows\n"), 3);
        assert_eq!(bad_line("book 1 65536\n"), 1);
        assert_eq!(bad_line("text\nend\nbase\n"), 3);
        assert_eq!(bad_line("book 1 1\nbase row -1\n"), 2);
        assert_eq!(bad_line("book 1 1\nbase row 18446744073709551616\n"), 2);
        assert_eq!(bad_line("book 1 1\nbase enter SS 1 1\n"), 2);
        assert_eq!(bad_line("book 1 1\nbase enter S 1\n"), 2);
        assert_eq!(bad_line("book 1 1\nbase\trows\n"), 2);
        assert_eq!(bad_line("book 1 1\nbook 1 1\n"), 2);
        assert!(replay(b"").is_err());
        assert!(replay(b"# nothing\n").is_err());
        assert!(replay(b"text\nend ").is_err());
        assert!(replay(b"text\nend").is_ok());
        let mut long = b"book 1 1\n".to_vec();
        long.resize(LONGEST_SCRIPT, b'\n');
        assert!(replay(&long).is_ok());
        long.push(b'\n');
        assert!(replay(&long).is_err());
    }
}
