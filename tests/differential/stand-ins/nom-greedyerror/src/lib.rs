//! Stand-in for nom-greedyerror: of two errors it keeps the one that is further on, as document 01's rule of the refused place says.
//! Which error an `alt` keeps therefore rests on document 01 and is not compared with the original crate.
use nom::error::{ErrorKind, ParseError};
use nom_locate::LocatedSpan;

#[derive(Debug, Clone, PartialEq)]
pub struct GreedyError<I, E> {
    pub errors: Vec<(I, E)>,
}

type Error<'a> = GreedyError<LocatedSpan<&'a str>, ErrorKind>;

fn furthest(error: &Error) -> usize {
    error.errors.iter().map(|(at, _)| at.location_offset()).max().unwrap_or(0)
}

impl<'a> ParseError<LocatedSpan<&'a str>> for Error<'a> {
    fn from_error_kind(input: LocatedSpan<&'a str>, kind: ErrorKind) -> Self {
        GreedyError { errors: vec![(input, kind)] }
    }

    fn append(input: LocatedSpan<&'a str>, kind: ErrorKind, mut other: Self) -> Self {
        other.errors.push((input, kind));
        other
    }

    fn or(self, other: Self) -> Self {
        if furthest(&other) > furthest(&self) {
            other
        } else {
            self
        }
    }
}
