use std::fmt;

/// Why a call refuses.
///
/// Of 1 to 8, the description's bytes are read forwards: the first fault that is met is answered, and of several at one number
/// the lowest. Then follows the state with 9 or 18: its bytes are read forwards too, and the first fault that is met is answered;
/// whether its numbers fit the net together is asked after the last of them. Then follow of an event 10 to 12, of a head count 14
/// to 16, of a state for older observers 17; and 13 comes last. A call skips those that do not concern it.
#[derive(Clone, Copy, Debug, PartialEq, Eq, PartialOrd, Ord, Hash)]
pub enum Refusal {
    /// A stored number of the description is not complete, not in its shortest form or too large.
    Number = 1,
    /// The description's edition is not 1.
    Edition = 2,
    /// A size, a list's length, the groups or their depth are out of bounds.
    Size = 3,
    /// A mark, a place number or a value is out of range.
    Range = 4,
    /// Members, arcs or terms break their order or the no-zero rules.
    Order = 5,
    /// A place does not appear exactly once.
    Place = 6,
    /// A group's own share is below 0, or not 0 though no place lies directly in the group.
    Share = 7,
    /// Bytes are left after the description.
    BytesLeft = 8,
    /// The state is of another edition than 1 and 2, not well formed, or does not fit the net.
    State = 9,
    /// The event number is not one of the net's, which are counted from 1.
    Event = 10,
    /// The event is impossible.
    Impossible = 11,
    /// The event is possible, and some estimate after it would be above 16,777,215.
    OverRange = 12,
    /// A result does not fit its output.
    Room = 13,
    /// The list of places is empty, or a byte of it names no loose place, or one for the second time.
    NotLoose = 14,
    /// The head count is below the sum of the estimates there, or above 16,777,215.
    Miscounted = 15,
    /// The head count would make a 33rd group.
    NoGroupLeft = 16,
    /// Some estimate or unplaced number of the state is above 65,535, which older observers do not read.
    TooLarge = 17,
    /// In a state of edition 2, the place of a pair is not one of the net's or not above the one before it, or its estimate is 0.
    Pair = 18,
}

impl Refusal {
    /// All refusals, by number.
    pub const ALL: [Refusal; 18] = [
        Refusal::Number,
        Refusal::Edition,
        Refusal::Size,
        Refusal::Range,
        Refusal::Order,
        Refusal::Place,
        Refusal::Share,
        Refusal::BytesLeft,
        Refusal::State,
        Refusal::Event,
        Refusal::Impossible,
        Refusal::OverRange,
        Refusal::Room,
        Refusal::NotLoose,
        Refusal::Miscounted,
        Refusal::NoGroupLeft,
        Refusal::TooLarge,
        Refusal::Pair,
    ];

    /// Its number, from 1 to 18.
    pub fn number(self) -> u32 {
        self as u32
    }

    /// The refusal with this number. The library is proved to answer no others than 1 to 18.
    pub(crate) fn from_number(number: u64) -> Refusal {
        match number {
            1..=18 => Refusal::ALL[number as usize - 1],
            _ => panic!("the library answered refusal {number}, which is not from 1 to 18"),
        }
    }

    fn meaning(self) -> &'static str {
        match self {
            Refusal::Number => "a stored number of the description is not complete, not in its shortest form or too large",
            Refusal::Edition => "the description's edition is not 1",
            Refusal::Size => "a size, a list's length, the groups or their depth are out of bounds",
            Refusal::Range => "a mark, a place number or a value is out of range",
            Refusal::Order => "members, arcs or terms break their order or the no-zero rules",
            Refusal::Place => "a place does not appear exactly once",
            Refusal::Share => "a group's own share is below 0, or not 0 though no place lies directly in the group",
            Refusal::BytesLeft => "bytes are left after the description",
            Refusal::State => "the state is of another edition than 1 and 2, not well formed, or does not fit the net",
            Refusal::Event => "the event number is not one of the net's",
            Refusal::Impossible => "the event is impossible",
            Refusal::OverRange => "some estimate after the event would be above 16,777,215",
            Refusal::Room => "a result does not fit its output",
            Refusal::NotLoose => "the list of places is empty, or a byte of it names no loose place, or one for the second time",
            Refusal::Miscounted => "the head count is below the sum of the estimates there, or above 16,777,215",
            Refusal::NoGroupLeft => "the head count would make a 33rd group",
            Refusal::TooLarge => "some estimate or unplaced number of the state is above 65,535",
            Refusal::Pair => "a pair of the state has a place out of range or out of order, or an estimate of 0",
        }
    }
}

impl fmt::Display for Refusal {
    fn fmt(&self, f: &mut fmt::Formatter) -> fmt::Result {
        write!(f, "refused {}: {}", self.number(), self.meaning())
    }
}

impl std::error::Error for Refusal {}
