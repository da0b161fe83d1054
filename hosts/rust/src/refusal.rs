//! The numbered refusals.

use std::fmt;

/// Why an operation refused. The numbers are those of the sheet's rules and are part of the interface; later versions may add some.
#[derive(Clone, Copy, Debug, PartialEq, Eq, Hash)]
#[non_exhaustive]
pub enum Refusal {
    /// 10: the sheet is longer than 65,536 bytes.
    TooLong = 10,
    /// 11: a byte of the sheet is not TAB, LF or 33 to 126, nor SPACE in a comment line, nor CR directly before LF.
    BadByte = 11,
    /// 12: the sheet is not empty and its last byte is not LF.
    NotEnded = 12,
    /// 13: a line's first field is no record word, or is out of order.
    BadWord = 13,
    /// 14: `fluent` or `action` without exactly one name, `rule` without head, or a field that is no name or step.
    BadField = 14,
    /// 15: a name defined before, or twice in `start`.
    Repeated = 15,
    /// 16: a used name that is undefined or of the wrong kind.
    Undefined = 16,
    /// 17: a 65th fluent or action, a 257th rule, or more than 16 steps.
    TooMany = 17,
    /// 18: no `start` or no `goal`.
    Incomplete = 18,
    /// 19: the rule words lent are fewer than 18 times the rules.
    NoRoom = 19,
    /// 20: over 64 fluents or over 64 actions.
    BadCounts = 20,
    /// 21: the rule words are not a multiple of 18, or over 256 rules.
    BadLength = 21,
    /// 22: a rule with a bad head, a count over 16, a bad step, or an unused word that is not 0.
    BadRule = 22,
    /// 23: a goal of over 16 steps, or with a bad step.
    BadGoal = 23,
    /// 24: a start, or a state to be stored, with a bit at or above the fluent count.
    BadStart = 24,
    /// 25: over 1,024 starts of a class, or under 4 result words for each.
    BadClass = 25,
    /// 26: result words not 4 for each of at most 1,024 starts, an unrefused start with over 65,536 ends, unrefused starts whose ends do
    /// not add up to the ends lent, or an end with a bit at or above the fluent count.
    BadResults = 26,
    /// 27: the output has fewer than 2 words for each fluent and 4 more.
    ReportShort = 27,
    /// 30: the run's calls outnumber the call room, or its answers the answer room.
    TablesFull = 30,
    /// 31: the list has fewer places than there are ends.
    ListShort = 31,
    /// 34: the list of calls has fewer places than the call table has room for records; it comes before 30.
    CallListShort = 34,
    /// 35: a list of calls with fewer places than there are calls, or a place that is read not below their count.
    BadCallList = 35,
    /// 40: a record count is over its room.
    BadRecordCount = 40,
    /// 41: the record number is not below the answer count.
    NoRecord = 41,
    /// 42: a call record with a bad action, state or round, or an answer that is not justified.
    BadRecord = 42,
    /// 43: the list has fewer places than there are states in the path.
    StatesShort = 43,
    /// 50: the bytes lent for a text are fewer than it has.
    TextShort = 50,
    /// 60: a record of over 63 steps.
    LongRecord = 60,
    /// 61: a table of under 4,096 words.
    MarksShort = 61,
    /// 62: a recorded step that is a call or bad.
    BadRecordedStep = 62,
    /// 70: a name is a fluent in one of two sheets and an action in the other.
    BothKinds = 70,
    /// 80: the output has fewer places than there are words or states to write.
    OutputShort = 80,
    /// 81: the words are not one per fluent for each block of 64 states.
    BadWordCount = 81,
    /// 82: a bit is set past the last state.
    BitPastEnd = 82,
    /// 90: the limits of two parties add up to more than the room of a table.
    OverLimits = 90,
    /// 91: what is kept of two parties meets 23, 24, 40 or 90, or the tables, counted as kept, do not hold just that, within the limits.
    NotAsKept = 91,
}

impl Refusal {
    /// All refusals, in rising order of their numbers.
    pub const ALL: &'static [Refusal] = &[
        Refusal::TooLong,
        Refusal::BadByte,
        Refusal::NotEnded,
        Refusal::BadWord,
        Refusal::BadField,
        Refusal::Repeated,
        Refusal::Undefined,
        Refusal::TooMany,
        Refusal::Incomplete,
        Refusal::NoRoom,
        Refusal::BadCounts,
        Refusal::BadLength,
        Refusal::BadRule,
        Refusal::BadGoal,
        Refusal::BadStart,
        Refusal::BadClass,
        Refusal::BadResults,
        Refusal::ReportShort,
        Refusal::TablesFull,
        Refusal::ListShort,
        Refusal::CallListShort,
        Refusal::BadCallList,
        Refusal::BadRecordCount,
        Refusal::NoRecord,
        Refusal::BadRecord,
        Refusal::StatesShort,
        Refusal::TextShort,
        Refusal::LongRecord,
        Refusal::MarksShort,
        Refusal::BadRecordedStep,
        Refusal::BothKinds,
        Refusal::OutputShort,
        Refusal::BadWordCount,
        Refusal::BitPastEnd,
        Refusal::OverLimits,
        Refusal::NotAsKept,
    ];

    /// The refusal's number.
    pub fn number(self) -> u64 {
        self as u64
    }

    /// The refusal of a number; `None` for 0 and for numbers that no operation gives.
    pub fn of(number: u64) -> Option<Refusal> {
        Refusal::ALL.iter().copied().find(|r| r.number() == number)
    }

    /// What the refusal means, in a few words.
    pub fn meaning(self) -> &'static str {
        match self {
            Refusal::TooLong => "sheet longer than 65,536 bytes",
            Refusal::BadByte => "a byte other than TAB, LF, 33 to 126, a comment's SPACE or the CR of CR LF",
            Refusal::NotEnded => "the last line is not ended by LF",
            Refusal::BadWord => "no record word, or one out of order",
            Refusal::BadField => "a missing name, or a field that is no name or step",
            Refusal::Repeated => "a name defined before, or twice in start",
            Refusal::Undefined => "a name undefined or of the wrong kind",
            Refusal::TooMany => "too many fluents, actions, rules or steps",
            Refusal::Incomplete => "no start or no goal",
            Refusal::NoRoom => "too few rule words lent",
            Refusal::BadCounts => "over 64 fluents or actions",
            Refusal::BadLength => "rule words not a multiple of 18, or over 256 rules",
            Refusal::BadRule => "a bad rule word",
            Refusal::BadGoal => "a bad goal",
            Refusal::BadStart => "a bit of a state at or above the fluent count",
            Refusal::BadClass => "over 1,024 starts, or under 4 result words for each",
            Refusal::BadResults => "results of a class that are bad, or do not fit its ends",
            Refusal::ReportShort => "the output has fewer than 2 words for each fluent and 4 more",
            Refusal::TablesFull => "the tables have too little room for the run",
            Refusal::ListShort => "the list has fewer places than there are ends",
            Refusal::CallListShort => "the list of calls has fewer places than the call table has room for records",
            Refusal::BadCallList => "a list of calls that is short, or has a number of no call",
            Refusal::BadRecordCount => "a record count over its room",
            Refusal::NoRecord => "no such answer record",
            Refusal::BadRecord => "a bad call record, or an answer that is not justified",
            Refusal::StatesShort => "the list has fewer places than the path has states",
            Refusal::TextShort => "fewer bytes lent than the text has",
            Refusal::LongRecord => "a record of over 63 steps",
            Refusal::MarksShort => "a table of under 4,096 words",
            Refusal::BadRecordedStep => "a recorded step that is a call, or of no fluent",
            Refusal::BothKinds => "a name that is a fluent in one sheet and an action in the other",
            Refusal::OutputShort => "the output has fewer places than there are words or states",
            Refusal::BadWordCount => "words that are not one per fluent for each block of 64 states",
            Refusal::BitPastEnd => "a bit set past the last state",
            Refusal::OverLimits => "the limits of both parties are more than the tables have room for",
            Refusal::NotAsKept => "the tables of two parties, or what is kept beside them, are not as they were left",
        }
    }
}

impl fmt::Display for Refusal {
    fn fmt(&self, f: &mut fmt::Formatter<'_>) -> fmt::Result {
        write!(f, "refused {}: {}", self.number(), self.meaning())
    }
}

impl std::error::Error for Refusal {}

/// What the number of a result says: 0 alone is no refusal.
///
/// Panics on any other number that no operation gives.
pub(crate) fn accepted(number: u64) -> Result<(), Refusal> {
    match number {
        0 => Ok(()),
        _ => Err(Refusal::of(number).unwrap_or_else(|| panic!("the library gave {number}, which is no refusal"))),
    }
}

#[cfg(test)]
mod tests {
    use super::{accepted, Refusal};

    #[test]
    fn zero_alone_is_accepted() {
        assert_eq!(accepted(0), Ok(()));
        for &refusal in Refusal::ALL {
            assert_eq!(accepted(refusal.number()), Err(refusal));
        }
    }

    #[test]
    #[should_panic(expected = "the library gave 99")]
    fn unknown_number_is_not_accepted() {
        let _ = accepted(99);
    }
}
