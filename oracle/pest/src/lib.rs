//! A stand-in for the crate `pest`: only what the validator of pest_meta names.
//! A span also carries the number of the node it belongs to, so that an error names its node.

/// A part of an input: start and end as in the image, and the node they were given for.
#[derive(Clone, Copy, Debug, PartialEq, Eq)]
pub struct Span<'i> {
    input: &'i str,
    start: usize,
    end: usize,
    node: u32,
}

impl<'i> Span<'i> {
    /// The span of a node; there is no input text behind it.
    pub fn of_node(node: u32, start: u32, end: u32) -> Span<'i> {
        Span {
            input: "",
            start: start as usize,
            end: end as usize,
            node,
        }
    }

    /// The number of the node.
    pub fn node(&self) -> u32 {
        self.node
    }

    /// The text of the span: empty, as there is no input.
    pub fn as_str(&self) -> &'i str {
        self.input
    }
}

/// What the validator reports.
pub mod error {
    use crate::Span;

    /// One report: its message, its place, its node, and the state that a stack loop was found at.
    #[derive(Clone, Debug)]
    pub struct Error<R> {
        pub variant: ErrorVariant<R>,
        pub location: InputLocation,
        pub node: u32,
        pub state: Option<u32>,
    }

    /// The kinds of error; the validator makes only the second.
    #[derive(Clone, Debug)]
    pub enum ErrorVariant<R> {
        ParsingError { positives: Vec<R> },
        CustomError { message: String },
    }

    /// Where an error lies; the validator makes only the second.
    #[derive(Clone, Debug)]
    pub enum InputLocation {
        Pos(usize),
        Span((usize, usize)),
    }

    impl<R> Error<R> {
        /// An error at a span.
        pub fn new_from_span(variant: ErrorVariant<R>, span: Span<'_>) -> Error<R> {
            Error {
                variant,
                location: InputLocation::Span((span.start, span.end)),
                node: span.node,
                state: None,
            }
        }

        /// The message; the empty text where there is none.
        pub fn message(&self) -> &str {
            match &self.variant {
                ErrorVariant::CustomError { message } => message,
                ErrorVariant::ParsingError { .. } => "",
            }
        }
    }
}

/// What `validate_pairs` names; it is never run here.
pub mod iterators {
    use crate::Span;

    #[derive(Clone)]
    pub struct Pair<'i, R> {
        rule: R,
        span: Span<'i>,
    }

    #[derive(Clone)]
    pub struct Pairs<'i, R> {
        pairs: Vec<Pair<'i, R>>,
    }

    impl<'i, R: Copy> Pair<'i, R> {
        pub fn as_rule(&self) -> R {
            self.rule
        }

        pub fn as_span(&self) -> Span<'i> {
            self.span
        }

        pub fn into_inner(self) -> Pairs<'i, R> {
            Pairs { pairs: vec![] }
        }
    }

    impl<'i, R> Pairs<'i, R> {
        pub fn flatten(self) -> Pairs<'i, R> {
            self
        }
    }

    impl<'i, R> Iterator for Pairs<'i, R> {
        type Item = Pair<'i, R>;

        fn next(&mut self) -> Option<Pair<'i, R>> {
            self.pairs.pop()
        }
    }
}

/// The names of the unicode properties: left out, since only the tag check reads them.
pub mod unicode {
    pub fn unicode_property_names() -> impl Iterator<Item = &'static str> {
        std::iter::empty()
    }
}
