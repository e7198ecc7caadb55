//! Stand-in for miette, of which the parser uses data for printed diagnostics only. Written from the names' documented meaning.
pub use miette_derive::Diagnostic;

/// A text with a name. The text is not kept: nothing here prints it.
#[derive(Debug)]
pub struct NamedSource<S>(std::marker::PhantomData<S>);

impl<S> NamedSource<S> {
    pub fn new(_name: &str, _source: S) -> Self {
        NamedSource(std::marker::PhantomData)
    }
}

/// An offset with a length.
#[derive(Debug)]
pub struct SourceSpan(usize);

impl SourceSpan {
    pub fn offset(&self) -> usize {
        self.0
    }
}

impl From<(usize, usize)> for SourceSpan {
    fn from((offset, _): (usize, usize)) -> Self {
        SourceSpan(offset)
    }
}
