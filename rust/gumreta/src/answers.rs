//! The library's answers: document 01's table of refusals and stops, the stop of C-15, the refusal of C-18, and any other number as what it is.
use std::fmt;

/// Why a file is refused.
#[derive(Clone, Copy, Debug, PartialEq, Eq, Hash)]
#[non_exhaustive]
pub enum Refusal {
    /// 1: the length or the header is wrong.
    Header = 1,
    /// 2: a reference, a kind or an unused word is wrong; a call, print, if or try in a condition, a test outside one.
    Form = 2,
    /// 3: a number out of range, a wrong type, count or order, or a region of a type of constants only.
    Typing = 3,
    /// 4: a variable read before it has a value, or given one twice.
    Values = 4,
    /// 5: regions that do not fit at an assign, construct, arm or call.
    Regions = 5,
    /// 6, annotator: the job has creates or removes already.
    Annotated = 6,
    /// 7: a class that does not fit.
    Classes = 7,
    /// 8, checker and runner: a rule of the checker is broken on some path.
    Rules = 8,
    /// 9, annotator: over 4,096 records, or longer than the memory lent.
    Room = 9,
    /// 17: a procedure that no chain of calls from the entry reaches; looked at after 5 and before 6.
    Unreached = 17,
}

const REFUSALS: [Refusal; 10] = {
    use Refusal::*;
    [Header, Form, Typing, Values, Regions, Annotated, Classes, Rules, Room, Unreached]
};

impl Refusal {
    /// Document 01's number, or C-18's.
    pub fn number(self) -> u8 {
        self as u8
    }

    fn of(number: u64) -> Option<Refusal> {
        REFUSALS.into_iter().find(|r| u64::from(r.number()) == number)
    }
}

impl fmt::Display for Refusal {
    fn fmt(&self, f: &mut fmt::Formatter) -> fmt::Result {
        let cause = match self {
            Refusal::Header => "the length or the header is wrong",
            Refusal::Form => {
                "a reference, a kind or an unused word is wrong; a call, print, if or try in a condition, a test outside one"
            }
            Refusal::Typing => "a number out of range, a wrong type, count or order, or a region of a type of constants only",
            Refusal::Values => "a variable read before it has a value, or given one twice",
            Refusal::Regions => "regions that do not fit at an assign, construct, arm or call",
            Refusal::Annotated => "the job has creates or removes already",
            Refusal::Classes => "a class that does not fit",
            Refusal::Rules => "a rule of the checker is broken on some path",
            Refusal::Room => "the annotated job has over 4,096 records or is longer than the memory lent",
            Refusal::Unreached => "a procedure that no chain of calls from the entry reaches",
        };
        write!(f, "refused {}: {cause}", self.number())
    }
}

impl std::error::Error for Refusal {}

/// Why a run stops before a step that cannot be done.
#[derive(Clone, Copy, Debug, PartialEq, Eq, Hash)]
#[non_exhaustive]
pub enum Stop {
    /// 10: the steps are spent.
    Steps = 10,
    /// 11: no free cell.
    Cells = 11,
    /// 12: no free region.
    Places = 12,
    /// 13: no free frame.
    Frames = 13,
    /// 14: no place for a printed number.
    Prints = 14,
    /// 15: a sum or difference outside −2,147,483,648 to 2,147,483,647.
    Sums = 15,
}

const STOPS: [Stop; 6] = [Stop::Steps, Stop::Cells, Stop::Places, Stop::Frames, Stop::Prints, Stop::Sums];

impl Stop {
    /// Document 01's number, or C-15's.
    pub fn number(self) -> u8 {
        self as u8
    }

    fn of(number: u64) -> Option<Stop> {
        STOPS.into_iter().find(|s| u64::from(s.number()) == number)
    }
}

impl fmt::Display for Stop {
    fn fmt(&self, f: &mut fmt::Formatter) -> fmt::Result {
        let cause = match self {
            Stop::Steps => "the steps are spent",
            Stop::Cells => "no free cell",
            Stop::Places => "no free region",
            Stop::Frames => "no free frame",
            Stop::Prints => "no place for a printed number",
            Stop::Sums => "a sum or difference outside -2,147,483,648 to 2,147,483,647",
        };
        write!(f, "stopped {}: {cause}", self.number())
    }
}

impl std::error::Error for Stop {}

/// How a run of an accepted file ends: there is no third way, so a `match` needs no other arm.
#[derive(Clone, Copy, Debug, PartialEq, Eq, Hash)]
pub enum Ending {
    /// It came to its end.
    Finished,
    /// It stopped before a step that could not be done.
    Stopped(Stop),
}

impl Ending {
    /// An error unless the run finished, for `?`.
    pub fn finished(self) -> Result<(), Stop> {
        match self {
            Ending::Finished => Ok(()),
            Ending::Stopped(stop) => Err(stop),
        }
    }
}

impl fmt::Display for Ending {
    fn fmt(&self, f: &mut fmt::Formatter) -> fmt::Result {
        match self {
            Ending::Finished => write!(f, "finished"),
            Ending::Stopped(stop) => stop.fmt(f),
        }
    }
}

/// Why a call has nothing to give.
#[derive(Clone, Copy, Debug, PartialEq, Eq, Hash)]
#[non_exhaustive]
pub enum Error {
    /// The file is refused.
    Refused(Refusal),
    /// The archive answered a number that the function called does not give in this release: it is of another one. Nothing is known of the file.
    Unknown(u64),
}

impl Error {
    /// The number that the archive answered.
    pub fn number(self) -> u64 {
        match self {
            Error::Refused(refusal) => refusal.number().into(),
            Error::Unknown(number) => number,
        }
    }

    fn of(number: u64) -> Error {
        Refusal::of(number).map_or(Error::Unknown(number), Error::Refused)
    }
}

impl fmt::Display for Error {
    fn fmt(&self, f: &mut fmt::Formatter) -> fmt::Result {
        match self {
            Error::Refused(refusal) => refusal.fmt(f),
            Error::Unknown(number) => write!(f, "unknown answer {number}: the archive is of another release"),
        }
    }
}

impl std::error::Error for Error {}

impl From<Refusal> for Error {
    fn from(refusal: Refusal) -> Error {
        Error::Refused(refusal)
    }
}

/// What the annotator's or the checker's number says: 0 alone is success.
pub(crate) fn done(number: u64) -> Result<(), Error> {
    match number {
        0 => Ok(()),
        other => Err(Error::of(other)),
    }
}

/// What the runner's number says.
pub(crate) fn ending(number: u64) -> Result<Ending, Error> {
    match Stop::of(number) {
        Some(stop) => Ok(Ending::Stopped(stop)),
        None => done(number).map(|_| Ending::Finished),
    }
}

#[cfg(test)]
mod tests {
    use super::*;

    /// Numbers that no table has: gaps, those of releases to come, and known ones with a high bit set.
    const OTHERS: [u64; 10] = [16, 18, 19, 99, 255, 256, 256 + 8, 65536 + 17, 1 << 32, u64::MAX];

    #[test]
    fn zero_alone_is_success() {
        assert_eq!(done(0), Ok(()));
        assert_eq!(ending(0), Ok(Ending::Finished));
        for number in (1..300).chain(OTHERS) {
            assert_eq!(done(number).map_err(Error::number), Err(number));
            assert_ne!(ending(number), Ok(Ending::Finished));
        }
    }

    #[test]
    fn refusals_and_stops_keep_their_numbers() {
        for number in (1..=9).chain([17]) {
            let Err(Error::Refused(refusal)) = done(number) else { panic!("{number} is a refusal") };
            assert_eq!(u64::from(refusal.number()), number);
            assert_eq!(ending(number), Err(Error::Refused(refusal)));
            assert!(refusal.to_string().starts_with(&format!("refused {number}: ")));
        }
        for number in 10..=15 {
            let Ok(Ending::Stopped(stop)) = ending(number) else { panic!("{number} is a stop") };
            assert_eq!(u64::from(stop.number()), number);
            assert_eq!(done(number), Err(Error::Unknown(number)), "annotator and checker do not stop");
            assert!(stop.to_string().starts_with(&format!("stopped {number}: ")));
        }
    }

    #[test]
    fn other_numbers_are_an_error_of_their_own() {
        for number in OTHERS.into_iter().chain(18..300) {
            assert_eq!(done(number), Err(Error::Unknown(number)));
            assert_eq!(ending(number), Err(Error::Unknown(number)));
        }
        assert_eq!(Error::Unknown(99).to_string(), "unknown answer 99: the archive is of another release");
    }
}
