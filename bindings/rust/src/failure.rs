//! Why there is no answer.

use core::fmt;

/// Why there is no answer, with the place where there is one; places count from 0.
#[derive(Debug, Clone, Copy, PartialEq, Eq)]
#[non_exhaustive]
pub enum Failure {
    /// A size that is not allowed.
    Size,
    /// A slice whose length is not what the sizes ask.
    Length,
    /// A kind of constraint that there is not.
    Kind,
    /// The matrix E is short of rank. Without equalities the column is the variable; else it is a column of what they leave.
    RankDeficient {
        /// The column that stands next after those that could be taken.
        column: usize,
    },
    /// The constraints cannot all be met.
    Infeasible,
    /// NNLS reached its limit of rounds.
    IterationCap,
    /// A Cholesky pivot that is not positive and finite.
    Pivot,
    /// A tolerance that is NaN or below zero.
    Tolerance,
    /// The equalities, or balances, are short of rank.
    Dependent {
        /// One that follows from the others, or contradicts them.
        equality: usize,
    },
    /// A reading over 999,999, or a value that is not finite.
    Reading {
        /// The meter.
        meter: usize,
    },
    /// A spread that is not finite and positive.
    Spread {
        /// The meter.
        meter: usize,
    },
    /// A band's width that is NaN, infinite or below zero.
    Width,
    /// A bound that means nothing, or of a day a limit's least that is not finite.
    Bound {
        /// The variable, or the limit.
        place: usize,
    },
    /// A lower bound above its upper one.
    Crossed,
    /// A number that is not finite has ended a search.
    Nonfinite,
    /// A search was told an answer where no question stands.
    Unasked,
    /// A number that this crate does not know.
    Other(u32),
}

impl Failure {
    /// The failure of a number that is not 0, and of the place that may come with it.
    pub(crate) fn of(number: u32, place: u32) -> Self {
        let place = place as usize;
        match number {
            1 => Self::Size,
            2 => Self::Length,
            4 => Self::Kind,
            5 => Self::RankDeficient { column: place },
            6 => Self::Infeasible,
            7 => Self::IterationCap,
            8 => Self::Pivot,
            10 => Self::Tolerance,
            11 => Self::Dependent { equality: place },
            12 => Self::Reading { meter: place },
            13 => Self::Spread { meter: place },
            14 => Self::Width,
            15 => Self::Bound { place },
            16 => Self::Crossed,
            17 => Self::Nonfinite,
            18 => Self::Unasked,
            other => Self::Other(other),
        }
    }

    /// Nothing where a number is 0, else its failure.
    pub(crate) fn unless_done(number: u32, place: u32) -> Result<(), Self> {
        if number == 0 {
            Ok(())
        } else {
            Err(Self::of(number, place))
        }
    }

    /// The number of the C interface.
    pub fn number(&self) -> u32 {
        match *self {
            Self::Size => 1,
            Self::Length => 2,
            Self::Kind => 4,
            Self::RankDeficient { .. } => 5,
            Self::Infeasible => 6,
            Self::IterationCap => 7,
            Self::Pivot => 8,
            Self::Tolerance => 10,
            Self::Dependent { .. } => 11,
            Self::Reading { .. } => 12,
            Self::Spread { .. } => 13,
            Self::Width => 14,
            Self::Bound { .. } => 15,
            Self::Crossed => 16,
            Self::Nonfinite => 17,
            Self::Unasked => 18,
            Self::Other(number) => number,
        }
    }
}

impl fmt::Display for Failure {
    fn fmt(&self, f: &mut fmt::Formatter<'_>) -> fmt::Result {
        match *self {
            Self::Size => f.write_str("a size is not allowed"),
            Self::Length => f.write_str("a slice's length is not what the sizes ask"),
            Self::Kind => f.write_str("a kind of constraint that there is not"),
            Self::RankDeficient { column } => write!(f, "E is short of rank, at column {column}"),
            Self::Infeasible => f.write_str("the constraints cannot all be met"),
            Self::IterationCap => f.write_str("the limit of rounds is reached"),
            Self::Pivot => f.write_str("the matrix has no Cholesky factor"),
            Self::Tolerance => f.write_str("the tolerance is NaN or below zero"),
            Self::Dependent { equality } => write!(f, "equality {equality} follows from the others, or contradicts them"),
            Self::Reading { meter } => write!(f, "the reading of meter {meter} is over 999,999, or its value is not finite"),
            Self::Spread { meter } => write!(f, "the spread of meter {meter} is not finite and positive"),
            Self::Width => f.write_str("a band's width is NaN, infinite or below zero"),
            Self::Bound { place } => write!(f, "bound or limit {place} means nothing"),
            Self::Crossed => f.write_str("a lower bound is above its upper one"),
            Self::Nonfinite => f.write_str("a number that is not finite has ended the search"),
            Self::Unasked => f.write_str("an answer where no question stands"),
            Self::Other(number) => write!(f, "refused {number}"),
        }
    }
}

impl core::error::Error for Failure {}
