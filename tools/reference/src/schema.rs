//! Rows, what they say, and the checks that rows pass before they are judged.

use crate::refusal::Refusal;
use crate::set::Set;

pub const MOST_CLASSES: u16 = 64;
pub const MOST_ARROWS: u16 = 32;
pub const MOST_ROWS: u16 = 512;
const MOST_TIMES: u16 = 30;

pub const CLASSES: usize = MOST_CLASSES as usize;
pub const ARROWS: usize = MOST_ARROWS as usize;
pub const ENDS: usize = 2 * ARROWS;

/// A row as it is written, whether it says anything or not.
#[derive(Debug, Clone, Copy, PartialEq, Eq)]
pub struct Row {
    pub letter: u8,
    pub numbers: [u16; 3],
}

/// What a row says whose numbers are in range.
#[derive(Debug, Clone, Copy, PartialEq, Eq)]
pub enum Fact {
    ClassWithin { narrow: usize, wide: usize },
    ClassesApart(usize, usize),
    EndWithin { end: usize, class: usize },
    AtLeast { class: usize, end: usize, times: u8 },
    AtMost { class: usize, end: usize, times: u8 },
    ArrowWithin { narrow: usize, wide: usize },
    ArrowsApart(usize, usize),
}

impl Row {
    /// What the row says, or else the number of its first field out of range:
    /// the letter is field 1, so the three numbers are fields 2, 3 and 4.
    pub fn fact(self, classes: u16, arrows: u16) -> Result<Fact, usize> {
        self.check_ranges(classes, arrows)?;
        let [a, b, n] = self.numbers;
        let (a, b, times) = (usize::from(a), usize::from(b), n as u8);
        Ok(match self.letter {
            b'S' => Fact::ClassWithin { narrow: a, wide: b },
            b'X' => Fact::ClassesApart(a, b),
            b'D' => Fact::EndWithin { end: a, class: b },
            b'F' => Fact::AtLeast {
                class: a,
                end: b,
                times,
            },
            b'K' => Fact::AtMost {
                class: a,
                end: b,
                times,
            },
            b'P' => Fact::ArrowWithin { narrow: a, wide: b },
            _ => Fact::ArrowsApart(a, b),
        })
    }

    fn check_ranges(self, classes: u16, arrows: u16) -> Result<(), usize> {
        let class = 0..u32::from(classes);
        let arrow = 0..u32::from(arrows);
        let end = 0..2 * u32::from(arrows);
        let nothing = 0..1;
        let times = 1..u32::from(MOST_TIMES) + 1;
        let ranges = match self.letter {
            b'S' | b'X' => [class.clone(), class, nothing],
            b'D' => [end, class, nothing],
            b'F' | b'K' => [class, end, times],
            b'P' | b'Q' => [arrow.clone(), arrow, nothing],
            _ => return Err(1),
        };
        for (field, (range, number)) in (2..).zip(ranges.iter().zip(self.numbers)) {
            if !range.contains(&number.into()) {
                return Err(field);
            }
        }
        Ok(())
    }
}

/// Rows that have passed the checks.
#[derive(Debug)]
pub struct Schema {
    pub classes: usize,
    pub arrows: usize,
    pub facts: Vec<Fact>,
    /// The arrows that have another arrow within them.
    pub over_others: Set,
}

impl Schema {
    pub fn checked(classes: u16, arrows: u16, rows: &[Row]) -> Result<Schema, Refusal> {
        if classes > MOST_CLASSES || arrows > MOST_ARROWS || rows.len() > MOST_ROWS.into() {
            return Err(Refusal::OverLimits);
        }
        let facts = rows
            .iter()
            .enumerate()
            .map(|(number, row)| {
                row.fact(classes, arrows)
                    .map_err(|field| Refusal::UnsoundRow { row: number, field })
            })
            .collect::<Result<Vec<Fact>, Refusal>>()?;
        let over_others = arrows_over_others(&facts);
        let capped_over_others = |fact: &Fact| matches!(*fact, Fact::AtMost { end, .. } if over_others.contains(end / 2));
        if let Some(row) = facts.iter().position(capped_over_others) {
            return Err(Refusal::CappedOverOthers { row });
        }
        Ok(Schema {
            classes: classes.into(),
            arrows: arrows.into(),
            facts,
            over_others,
        })
    }
}

/// Another arrow lies within an arrow, by however many rows, just when one does
/// by a single row.
fn arrows_over_others(facts: &[Fact]) -> Set {
    let mut over_others = Set::default();
    for &fact in facts {
        if let Fact::ArrowWithin { narrow, wide } = fact
            && narrow != wide
        {
            over_others.insert(wide);
        }
    }
    over_others
}

#[cfg(test)]
pub mod drawing {
    //! Small drawings for the tests: 4 classes, 2 arrows and some rows.

    use super::*;

    /// A row from its words, such as `F 0 1 2` or `S 0 1`.
    pub fn row(words: &str) -> Row {
        let mut words = words.split(' ');
        let letter = words.next().expect("a letter").as_bytes()[0];
        let mut numbers = [0; 3];
        for (number, word) in numbers.iter_mut().zip(words) {
            *number = word.parse().expect("a number");
        }
        Row { letter, numbers }
    }

    pub fn rows(words: &[&str]) -> Vec<Row> {
        words.iter().copied().map(row).collect()
    }

    pub fn checked(words: &[&str]) -> Result<Schema, Refusal> {
        Schema::checked(4, 2, &rows(words))
    }
}

#[cfg(test)]
mod tests {
    use super::*;

    fn unsound_field(words: &str) -> Option<usize> {
        drawing::row(words).fact(4, 2).err()
    }

    #[test]
    fn the_lowest_field_out_of_range_is_told() {
        assert_eq!(unsound_field("F 0 0 30"), None);
        assert_eq!(unsound_field("F 0 0 31"), Some(4));
        assert_eq!(unsound_field("F 0 0 0"), Some(4));
        assert_eq!(unsound_field("F 0 4 1"), Some(3));
        assert_eq!(unsound_field("F 4 4 0"), Some(2));
        assert_eq!(unsound_field("s 9 9 9"), Some(1));
        assert_eq!(unsound_field("D 3 3 0"), None);
        assert_eq!(unsound_field("D 4 3 0"), Some(2));
        assert_eq!(unsound_field("P 1 2 0"), Some(3));
        assert_eq!(unsound_field("Q 1 1 1"), Some(4));
    }

    #[test]
    fn ends_of_very_many_arrows_are_counted_right() {
        let row = drawing::row("D 65535 0");
        assert!(row.fact(1, 65_535).is_ok());
    }

    #[test]
    fn checks_come_in_their_order() {
        let many = vec![drawing::row("Z 0 0"); 513];
        assert_eq!(
            Schema::checked(4, 2, &many).err(),
            Some(Refusal::OverLimits)
        );
        assert_eq!(Schema::checked(65, 2, &[]).err(), Some(Refusal::OverLimits));
        assert_eq!(
            Schema::checked(64, 33, &[]).err(),
            Some(Refusal::OverLimits)
        );
        let unsound = Refusal::UnsoundRow { row: 2, field: 4 };
        let refusal = drawing::checked(&["P 0 1", "K 0 2 1", "S 0 1 1"]).err();
        assert_eq!(refusal, Some(unsound));
        let capped = Refusal::CappedOverOthers { row: 1 };
        assert_eq!(drawing::checked(&["P 0 1", "K 0 2 1"]).err(), Some(capped));
        assert!(drawing::checked(&["P 0 1", "K 0 0 1"]).is_ok());
        assert!(drawing::checked(&["P 1 1", "K 0 2 1"]).is_ok());
    }
}
