//! Whether a row follows from others.

use crate::emptiness::Judged;
use crate::refusal::Refusal;
use crate::schema::{Fact, Row, Schema};

/// Whether every world that fulfils the schema fulfils the asked row.
pub fn answer(schema: &Schema, asked: Row) -> Result<bool, Refusal> {
    // The counts have passed the checks, so they are small.
    let fact = asked
        .fact(schema.classes as u16, schema.arrows as u16)
        .map_err(|field| Refusal::UnsoundAsked { field })?;
    if let Fact::AtLeast { end, times, .. } = fact
        && times >= 2
        && schema.over_others.contains(end / 2)
    {
        return Err(Refusal::CountedOverOthers);
    }
    Ok(follows(&Judged::of(schema), fact))
}

fn follows(judged: &Judged, fact: Fact) -> bool {
    match fact {
        Fact::ClassWithin { narrow, wide } => {
            let thing = judged.in_class(narrow);
            judged.impossible(&thing) || thing.classes.contains(wide)
        }
        Fact::ClassesApart(a, b) => judged.never_both(&judged.in_class(a), &judged.in_class(b)),
        Fact::EndWithin { end, class } => {
            let thing = judged.at_end(end, 1);
            judged.impossible(&thing) || thing.classes.contains(class)
        }
        Fact::AtLeast { class, end, times } => {
            let thing = judged.in_class(class);
            judged.impossible(&thing) || thing.least[end] >= times
        }
        // At most so often is the same as never once more.
        Fact::AtMost { class, end, times } => {
            judged.never_both(&judged.in_class(class), &judged.at_end(end, times + 1))
        }
        Fact::ArrowWithin { narrow, wide } => {
            judged.arrow_empty(narrow) || judged.arrow_within(narrow, wide)
        }
        Fact::ArrowsApart(a, b) => arrows_apart(judged, a, b),
    }
}

/// A pair of both arrows would have one thing at both tails and one at both heads.
fn arrows_apart(judged: &Judged, a: usize, b: usize) -> bool {
    judged.arrow_empty(a)
        || judged.arrow_empty(b)
        || judged.pairs_clash(a, b)
        || [0, 1].iter().any(|side| {
            judged.never_both(
                &judged.at_end(2 * a + side, 1),
                &judged.at_end(2 * b + side, 1),
            )
        })
}

#[cfg(test)]
mod tests {
    use super::*;
    use crate::schema::drawing;

    fn asked(rows: &[&str], words: &str) -> Result<bool, Refusal> {
        let schema = drawing::checked(rows).expect("a drawing");
        answer(&schema, drawing::row(words))
    }

    #[test]
    fn all_is_said_of_an_empty_class() {
        assert_eq!(asked(&["X 0 0"], "S 0 1"), Ok(true));
        assert_eq!(asked(&["X 0 0"], "S 1 0"), Ok(false));
        assert_eq!(asked(&["X 0 0"], "X 1 0"), Ok(true));
        assert_eq!(asked(&["X 0 0"], "F 0 3 30"), Ok(true));
        assert_eq!(asked(&["X 0 0"], "K 0 3 1"), Ok(true));
        assert_eq!(asked(&["X 0 0"], "K 1 3 30"), Ok(false));
    }

    #[test]
    fn counts_go_up_along_arrows() {
        let rows = ["F 0 0 2", "P 0 1"];
        assert_eq!(asked(&rows, "F 0 2 1"), Ok(true));
        assert_eq!(asked(&rows, "F 0 0 2"), Ok(true));
        assert_eq!(asked(&rows, "F 0 0 3"), Ok(false));
        assert_eq!(asked(&rows, "F 0 2 2"), Err(Refusal::CountedOverOthers));
        assert_eq!(asked(&rows, "P 0 1"), Ok(true));
        assert_eq!(asked(&rows, "P 1 0"), Ok(false));
    }

    #[test]
    fn caps() {
        let rows = ["F 0 0 2", "K 0 0 2"];
        assert_eq!(asked(&rows, "K 0 0 3"), Ok(true));
        assert_eq!(asked(&rows, "K 0 0 2"), Ok(true));
        assert_eq!(asked(&rows, "K 0 0 1"), Ok(false));
        assert_eq!(asked(&["K 0 0 30"], "K 0 0 30"), Ok(true));
        assert_eq!(asked(&[], "K 0 0 30"), Ok(false));
        // Having the end at all brings a class that is capped lower.
        assert_eq!(asked(&["D 0 1", "K 1 0 3"], "K 0 0 3"), Ok(true));
        assert_eq!(asked(&["D 0 1", "K 1 0 3"], "K 0 0 2"), Ok(false));
    }

    #[test]
    fn ends() {
        let rows = ["P 0 1", "D 2 1", "S 1 2"];
        assert_eq!(asked(&rows, "D 0 2"), Ok(true));
        assert_eq!(asked(&rows, "D 1 2"), Ok(false));
        assert_eq!(asked(&["Q 0 0"], "D 1 2"), Ok(true));
    }

    #[test]
    fn tails_apart_make_arrows_apart_and_not_the_other_way() {
        assert_eq!(asked(&["D 0 0", "D 2 1", "X 0 1"], "Q 0 1"), Ok(true));
        assert_eq!(asked(&["D 0 0", "D 2 1", "Q 0 1"], "X 0 1"), Ok(false));
        assert_eq!(asked(&["D 0 0", "D 2 1"], "Q 0 1"), Ok(false));
    }

    #[test]
    fn an_unsound_question_is_refused_first() {
        let rows = ["P 0 1"];
        let unsound = Refusal::UnsoundAsked { field: 2 };
        assert_eq!(asked(&rows, "F 4 2 2"), Err(unsound));
        let unsound = Refusal::UnsoundAsked { field: 1 };
        assert_eq!(asked(&rows, "f 0 2 2"), Err(unsound));
    }
}
