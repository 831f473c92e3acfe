//! The report on a text.

use crate::emptiness::{Empty, forced_empty};
use crate::refusal::Refusal;
use crate::schema::Schema;
use crate::text::Text;

pub fn report(bytes: &[u8]) -> String {
    match judge(bytes) {
        Ok(empty) => names(&empty),
        Err(refusal) => line('!', refusal.numbers()),
    }
}

fn judge(bytes: &[u8]) -> Result<Empty, Refusal> {
    let text = Text::read(bytes)?;
    let schema = Schema::checked(text.classes, text.arrows, &text.rows)?;
    Ok(forced_empty(&schema))
}

fn line(letter: char, numbers: [usize; 3]) -> String {
    let [first, second, third] = numbers;
    format!("{letter}{first:4}{second:4}{third:4}\n")
}

fn names(empty: &Empty) -> String {
    let mut lines = line('V', [empty.classes.len(), empty.arrows.len(), 0]);
    for class in empty.classes {
        lines.push_str(&line('C', [class, 0, 0]));
    }
    for arrow in empty.arrows {
        lines.push_str(&line('A', [arrow, 0, 0]));
    }
    lines
}

#[cfg(test)]
mod tests {
    use super::*;

    #[test]
    fn names_and_refusals() {
        let text = "H   3   1   3\nD   1   1   0\nX   1   1   0\nF   2   0   1\n";
        let expected = "V   2   1   0\nC   1   0   0\nC   2   0   0\nA   0   0   0\n";
        assert_eq!(report(text.as_bytes()), expected);
        assert_eq!(report(b"H   4   2   0\n"), "V   0   0   0\n");
        let capped = "H   4   2   2\nP   0   1   0\nK   0   2   1\n";
        assert_eq!(report(capped.as_bytes()), "!  17   1   0\n");
    }
}
