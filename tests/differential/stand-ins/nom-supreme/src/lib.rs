//! Stand-in for nom-supreme: the two methods that the parser uses, written from their documented meaning.
use nom::{IResult, Parser};

pub trait ParserExt<I, O, E>: Parser<I, O, E> + Sized {
    /// Runs `prefix`, then this parser, and keeps this one's value.
    fn preceded_by<P, F: Parser<I, P, E>>(mut self, mut prefix: F) -> impl FnMut(I) -> IResult<I, O, E> {
        move |input| {
            let (input, _) = prefix.parse(input)?;
            self.parse(input)
        }
    }

    /// Runs this parser, then `suffix`, and keeps this one's value.
    fn terminated<S, F: Parser<I, S, E>>(mut self, mut suffix: F) -> impl FnMut(I) -> IResult<I, O, E> {
        move |input| {
            let (input, value) = self.parse(input)?;
            let (input, _) = suffix.parse(input)?;
            Ok((input, value))
        }
    }
}

impl<I, O, E, P: Parser<I, O, E>> ParserExt<I, O, E> for P {}
