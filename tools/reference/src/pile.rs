//! A pile of four parts: a base, two trial layers and a strike layer.
//!
//! Nothing is kept but what was entered and what was struck. What a part shows
//! is put together afresh each time it is asked for, from the base upwards.

use std::collections::BTreeSet;

use crate::emptiness::{Empty, forced_empty};
use crate::question;
use crate::refusal::Refusal;
use crate::schema::{MOST_ARROWS, MOST_CLASSES, Row, Schema};
use crate::text::Text;

const BOOK_ROWS: usize = 384;
const OWN_ROWS: usize = 32;
const MOST_STRUCK: usize = 32;
const MOST_SHOWN: usize = 65_535;

#[derive(Debug, Clone, Copy, PartialEq, Eq)]
pub enum Part {
    Base,
    City,
    Tariff,
    Strikes,
}

#[derive(Debug)]
pub enum Call {
    Enter(Row),
    Amend(u64, Row),
    Withdraw,
    Strike(u64),
    Restore(u64),
    Load(Vec<u8>),
    Verdict { table: Option<u16> },
    Ask(Row),
    Counts,
    Capacity,
    Rows,
    Row(u64),
}

#[derive(Debug, PartialEq, Eq)]
pub enum Answer {
    Done,
    Dropped(usize),
    ForcedEmpty(Empty),
    Follows(bool),
    Counts { classes: u16, arrows: u16 },
    Number(usize),
    Row(Option<Row>),
    NoSuchCall,
}

#[derive(Debug, Clone, Copy, PartialEq, Eq)]
enum Kind {
    Book,
    Text,
}

pub struct Pile {
    kind: Kind,
    classes: u16,
    arrows: u16,
    base: Vec<Row>,
    city: Vec<Row>,
    tariff: Vec<Row>,
    struck: BTreeSet<u64>,
}

impl Pile {
    fn over(kind: Kind, classes: u16, arrows: u16, base: Vec<Row>) -> Pile {
        Pile {
            kind,
            classes,
            arrows,
            base,
            city: Vec::new(),
            tariff: Vec::new(),
            struck: BTreeSet::new(),
        }
    }

    /// Over a book, which is not set up if there are too many names.
    pub fn over_book(classes: u16, arrows: u16) -> (Pile, Result<(), Refusal>) {
        if classes > MOST_CLASSES || arrows > MOST_ARROWS {
            let pile = Pile::over(Kind::Book, 0, 0, Vec::new());
            return (pile, Err(Refusal::TooManyNames));
        }
        (Pile::over(Kind::Book, classes, arrows, Vec::new()), Ok(()))
    }

    /// Over the sheet of a text, which shows nothing if the text is refused.
    pub fn over_text(bytes: &[u8]) -> (Pile, Result<(), Refusal>) {
        match Text::read(bytes) {
            Ok(text) => {
                let pile = Pile::over(Kind::Text, text.classes, text.arrows, text.rows);
                (pile, Ok(()))
            }
            Err(refusal) => (Pile::over(Kind::Text, 0, 0, Vec::new()), Err(refusal)),
        }
    }

    /// The rows that a part shows.
    fn rows(&self, part: Part) -> Vec<Row> {
        let mut rows = self.base.clone();
        if part == Part::Base {
            return rows;
        }
        rows.extend(&self.city);
        rows.truncate(MOST_SHOWN);
        if part == Part::City {
            return rows;
        }
        rows.extend(&self.tariff);
        rows.truncate(MOST_SHOWN);
        if part == Part::Tariff {
            return rows;
        }
        (0..)
            .zip(rows)
            .filter(|(number, _)| !self.struck.contains(number))
            .map(|(_, row)| row)
            .collect()
    }

    fn capacity(&self, part: Part) -> usize {
        let trial = |below: Part| (self.rows(below).len() + OWN_ROWS).min(MOST_SHOWN);
        match (part, self.kind) {
            (Part::Base, Kind::Book) => BOOK_ROWS,
            (Part::Base, Kind::Text) => self.base.len(),
            (Part::City, _) => trial(Part::Base),
            (Part::Tariff, _) => trial(Part::City),
            (Part::Strikes, _) => self.rows(Part::Strikes).len(),
        }
    }

    pub fn call(&mut self, part: Part, call: &Call) -> Result<Answer, Refusal> {
        Ok(match (call, part) {
            (Call::Amend(k, row), Part::Base) if self.kind == Kind::Book => self.amend(*k, *row)?,
            (Call::Withdraw, Part::City) => withdraw(&mut self.city),
            (Call::Withdraw, Part::Tariff) => withdraw(&mut self.tariff),
            (Call::Strike(k), Part::Strikes) => self.strike(*k)?,
            (Call::Restore(k), Part::Strikes) => self.restore(*k)?,
            (Call::Amend(..) | Call::Withdraw | Call::Strike(_) | Call::Restore(_), _) => {
                Answer::NoSuchCall
            }
            (Call::Enter(row), _) => self.enter(part, *row)?,
            (Call::Load(text), _) => self.load(part, text)?,
            (Call::Verdict { table }, _) => self.verdict(part, *table)?,
            (Call::Ask(row), _) => Answer::Follows(question::answer(&self.schema(part)?, *row)?),
            (Call::Counts, _) => Answer::Counts {
                classes: self.classes,
                arrows: self.arrows,
            },
            (Call::Capacity, _) => Answer::Number(self.capacity(part)),
            (Call::Rows, _) => Answer::Number(self.rows(part).len()),
            (Call::Row(k), _) => {
                let rows = self.rows(part);
                Answer::Row(usize::try_from(*k).ok().and_then(|k| rows.get(k).copied()))
            }
        })
    }

    fn amend(&mut self, k: u64, row: Row) -> Result<Answer, Refusal> {
        let place = usize::try_from(k).ok().and_then(|k| self.base.get_mut(k));
        *place.ok_or(Refusal::NoSuchRow)? = row;
        Ok(Answer::Done)
    }

    fn strike(&mut self, k: u64) -> Result<Answer, Refusal> {
        if k >= self.rows(Part::Tariff).len() as u64 {
            return Err(Refusal::NoSuchRowBelow);
        }
        if self.struck.contains(&k) {
            return Err(Refusal::StruckAlready);
        }
        if self.struck.len() == MOST_STRUCK {
            return Err(Refusal::TooManyStruck);
        }
        self.struck.insert(k);
        Ok(Answer::Done)
    }

    fn restore(&mut self, k: u64) -> Result<Answer, Refusal> {
        if self.struck.remove(&k) {
            Ok(Answer::Done)
        } else {
            Err(Refusal::NotStruck)
        }
    }

    fn enter(&mut self, part: Part, row: Row) -> Result<Answer, Refusal> {
        if self.rows(part).len() >= self.capacity(part) {
            return Err(Refusal::Full);
        }
        match part {
            Part::Base => self.base.push(row),
            Part::City => self.city.push(row),
            Part::Tariff => self.tariff.push(row),
            Part::Strikes => unreachable!("a strike layer is always full"),
        }
        Ok(Answer::Done)
    }

    fn load(&mut self, part: Part, bytes: &[u8]) -> Result<Answer, Refusal> {
        let text = Text::read(bytes)?;
        if text.classes > self.classes || text.arrows > self.arrows {
            return Err(Refusal::MoreNames);
        }
        if self.rows(part).len() + text.rows.len() > self.capacity(part) {
            return Err(Refusal::NoRoom);
        }
        for row in text.rows {
            self.enter(part, row)?;
        }
        Ok(Answer::Done)
    }

    fn schema(&self, part: Part) -> Result<Schema, Refusal> {
        Schema::checked(self.classes, self.arrows, &self.rows(part))
    }

    fn verdict(&self, part: Part, table: Option<u16>) -> Result<Answer, Refusal> {
        let schema = self.schema(part)?;
        let table = table.unwrap_or(MOST_CLASSES + MOST_ARROWS);
        if usize::from(table) < schema.classes + schema.arrows {
            return Err(Refusal::ShortTable);
        }
        Ok(Answer::ForcedEmpty(forced_empty(&schema)))
    }
}

fn withdraw(own: &mut Vec<Row>) -> Answer {
    let dropped = own.len();
    own.clear();
    Answer::Dropped(dropped)
}

#[cfg(test)]
mod tests {
    use super::*;
    use crate::schema::drawing::row;

    fn book() -> Pile {
        let (pile, made) = Pile::over_book(4, 2);
        assert_eq!(made, Ok(()));
        pile
    }

    fn enter(pile: &mut Pile, part: Part, words: &str) -> Result<Answer, Refusal> {
        pile.call(part, &Call::Enter(row(words)))
    }

    #[test]
    fn rows_below_may_change_under_a_layer() {
        let mut pile = book();
        for _ in 0..32 {
            assert_eq!(enter(&mut pile, Part::City, "S 0 1"), Ok(Answer::Done));
        }
        assert_eq!(enter(&mut pile, Part::City, "S 0 1"), Err(Refusal::Full));
        assert_eq!(enter(&mut pile, Part::Base, "X 0 0"), Ok(Answer::Done));
        assert_eq!(enter(&mut pile, Part::City, "S 0 1"), Err(Refusal::Full));
        let capacity = pile.call(Part::Tariff, &Call::Capacity);
        assert_eq!(capacity, Ok(Answer::Number(65)));
        let first = pile.call(Part::Tariff, &Call::Row(0));
        assert_eq!(first, Ok(Answer::Row(Some(row("X 0 0")))));
        let dropped = pile.call(Part::City, &Call::Withdraw);
        assert_eq!(dropped, Ok(Answer::Dropped(32)));
        assert_eq!(pile.call(Part::Tariff, &Call::Rows), Ok(Answer::Number(1)));
    }

    #[test]
    fn a_struck_number_stays_struck() {
        let mut pile = book();
        let strike = |pile: &mut Pile, k| pile.call(Part::Strikes, &Call::Strike(k));
        assert_eq!(strike(&mut pile, 0), Err(Refusal::NoSuchRowBelow));
        enter(&mut pile, Part::City, "X 0 0").expect("room");
        assert_eq!(strike(&mut pile, 0), Ok(Answer::Done));
        assert_eq!(strike(&mut pile, 0), Err(Refusal::StruckAlready));
        pile.call(Part::City, &Call::Withdraw)
            .expect("nothing to refuse");
        assert_eq!(strike(&mut pile, 0), Err(Refusal::NoSuchRowBelow));
        enter(&mut pile, Part::Base, "X 1 1").expect("room");
        assert_eq!(pile.call(Part::Strikes, &Call::Rows), Ok(Answer::Number(0)));
        let restored = pile.call(Part::Strikes, &Call::Restore(0));
        assert_eq!(restored, Ok(Answer::Done));
        assert_eq!(pile.call(Part::Strikes, &Call::Rows), Ok(Answer::Number(1)));
        let restored = pile.call(Part::Strikes, &Call::Restore(0));
        assert_eq!(restored, Err(Refusal::NotStruck));
    }

    #[test]
    fn at_most_32_are_struck() {
        let mut pile = book();
        for k in 0..33 {
            enter(&mut pile, Part::Base, "S 0 1").expect("room");
            let struck = pile.call(Part::Strikes, &Call::Strike(k));
            let full = Err(Refusal::TooManyStruck);
            assert_eq!(struck, if k < 32 { Ok(Answer::Done) } else { full });
        }
    }

    #[test]
    fn calls_that_a_part_does_not_have() {
        let mut pile = book();
        let amend = Call::Amend(0, row("S 0 1"));
        assert_eq!(pile.call(Part::Base, &amend), Err(Refusal::NoSuchRow));
        assert_eq!(pile.call(Part::City, &amend), Ok(Answer::NoSuchCall));
        assert_eq!(
            pile.call(Part::Base, &Call::Withdraw),
            Ok(Answer::NoSuchCall)
        );
        let (mut pile, made) = Pile::over_text(b"");
        assert_eq!(made, Err(Refusal::TooShort));
        assert_eq!(pile.call(Part::Base, &amend), Ok(Answer::NoSuchCall));
        assert_eq!(
            pile.call(Part::City, &Call::Strike(0)),
            Ok(Answer::NoSuchCall)
        );
    }

    #[test]
    fn an_empty_text_is_loaded_anywhere() {
        let (mut pile, _) = Pile::over_text(b"H   1   1   0\n");
        let load = |text: &[u8]| Call::Load(text.to_vec());
        let empty = load(b"H   1   0   0\n");
        assert_eq!(pile.call(Part::Base, &empty), Ok(Answer::Done));
        assert_eq!(pile.call(Part::Strikes, &empty), Ok(Answer::Done));
        let one = load(b"H   1   0   1\nX   0   0   0\n");
        assert_eq!(pile.call(Part::Base, &one), Err(Refusal::NoRoom));
        assert_eq!(pile.call(Part::Strikes, &one), Err(Refusal::NoRoom));
        assert_eq!(pile.call(Part::City, &one), Ok(Answer::Done));
        let wide = load(b"H   2   0   0\n");
        assert_eq!(pile.call(Part::Base, &wide), Err(Refusal::MoreNames));
    }

    #[test]
    fn a_short_table() {
        let mut pile = book();
        let verdict = |table| Call::Verdict { table };
        let short = pile.call(Part::Strikes, &verdict(Some(5)));
        assert_eq!(short, Err(Refusal::ShortTable));
        assert!(pile.call(Part::Strikes, &verdict(Some(6))).is_ok());
        enter(&mut pile, Part::Base, "S 0 9").expect("room");
        let unsound = pile.call(Part::Strikes, &verdict(Some(0)));
        assert_eq!(unsound, Err(Refusal::UnsoundRow { row: 0, field: 3 }));
    }
}
