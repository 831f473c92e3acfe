//! Every reason for which a call is refused, with its number and its words.

#[derive(Debug, Clone, Copy, PartialEq, Eq)]
pub enum Refusal {
    /// A book set up with more names than are handled.
    TooManyNames,
    /// No room for another row.
    Full,
    /// Nothing to amend.
    NoSuchRow,
    /// Nothing to strike.
    NoSuchRowBelow,
    StruckAlready,
    TooManyStruck,
    NotStruck,
    /// A text shorter than one line.
    TooShort,
    /// The first column of the line at which every well-formed line differs.
    Form {
        line: usize,
        column: usize,
    },
    /// A text with more classes, arrows or rows than are handled.
    TooLarge,
    /// A text with not as many bytes as line 1 announces.
    WrongLength,
    /// A well-formed line of a text with a number out of its range.
    UnsoundLine {
        line: usize,
        field: usize,
    },
    /// A text with more names than the part that it is loaded into.
    MoreNames,
    /// A text with more rows than the part has room for.
    NoRoom,
    /// More classes, arrows or rows than can be judged.
    OverLimits,
    /// A row with a letter or a number out of its range.
    UnsoundRow {
        row: usize,
        field: usize,
    },
    /// A row that caps an arrow which has another arrow within it.
    CappedOverOthers {
        row: usize,
    },
    /// Fewer bytes for the verdict than names.
    ShortTable,
    /// An asked row with a letter or a number out of its range.
    UnsoundAsked {
        field: usize,
    },
    /// A count asked of an arrow which has another arrow within it.
    CountedOverOthers,
}

use Refusal::*;

impl Refusal {
    /// The number of the refusal and its two places, 0 where it has none.
    pub fn numbers(self) -> [usize; 3] {
        match self {
            TooManyNames => [1, 0, 0],
            Full => [2, 0, 0],
            NoSuchRow => [3, 0, 0],
            NoSuchRowBelow => [4, 0, 0],
            StruckAlready => [5, 0, 0],
            TooManyStruck => [6, 0, 0],
            NotStruck => [7, 0, 0],
            TooShort => [8, 0, 0],
            Form { line, column } => [9, line, column],
            TooLarge => [10, 0, 0],
            WrongLength => [11, 0, 0],
            UnsoundLine { line, field } => [12, line, field],
            MoreNames => [13, 0, 0],
            NoRoom => [14, 0, 0],
            OverLimits => [15, 0, 0],
            UnsoundRow { row, field } => [16, row, field],
            CappedOverOthers { row } => [17, row, 0],
            ShortTable => [18, 0, 0],
            UnsoundAsked { field } => [19, field, 0],
            CountedOverOthers => [20, 0, 0],
        }
    }

    pub fn words(self) -> String {
        let fixed = match self {
            TooManyNames => "more than 64 classes or 32 arrows",
            Full => "the part is full",
            NoSuchRow => "there is no such row",
            NoSuchRowBelow => "there is no such row below",
            StruckAlready => "the row is struck already",
            TooManyStruck => "32 rows are struck",
            NotStruck => "the row is not struck",
            TooShort => "the text is shorter than a line",
            Form { line, column } => return format!("line {line}, column {column} is out of form"),
            TooLarge => "the text has more than 64 classes, 32 arrows or 512 rows",
            WrongLength => "the text is not as long as its first line says",
            UnsoundLine { line, field } => return format!("line {line}, field {field} is unsound"),
            MoreNames => "the text has more classes or arrows than the part",
            NoRoom => "the rows do not fit",
            OverLimits => "more than 64 classes, 32 arrows or 512 rows",
            UnsoundRow { row, field } => return format!("row {row}, field {field} is unsound"),
            CappedOverOthers { row } => {
                return format!("row {row} caps an arrow that another leads to");
            }
            ShortTable => "the table is too short",
            UnsoundAsked { field } => return format!("field {field} of the asked row is unsound"),
            CountedOverOthers => "an asked count on an arrow that another leads to",
        };
        fixed.to_string()
    }
}
