//! Numbers that stand for nothing.

use std::fmt;

/// A number that stands for no value of the type that it was to become: a colour code, a depth, an orientation, a form
/// or the number of a refusal. It says what was given, and what there is.
///
/// ```
/// use kahopiru::Cicp;
///
/// fn color(primaries: u16, transfer: u16, matrix: u16) -> Result<Cicp, Box<dyn std::error::Error>> {
///     Ok(Cicp {
///         primaries: primaries.try_into()?,
///         transfer: transfer.try_into()?,
///         matrix: matrix.try_into()?,
///         full_range: true,
///     })
/// }
///
/// assert_eq!(color(1, 13, 1).unwrap(), Cicp::srgb());
/// let why = color(1, 3, 1).unwrap_err();
/// assert_eq!(why.to_string(), "a code of transfer characteristics is 0 to 2 or 4 to 18, not 3");
/// ```
#[derive(Clone, Copy, Debug, PartialEq, Eq, Hash)]
pub struct UnknownCode {
    numbers: Numbers,
    given: u32,
}

impl UnknownCode {
    /// The number that was given.
    #[must_use]
    pub const fn given(&self) -> u32 {
        self.given
    }
}

impl fmt::Display for UnknownCode {
    fn fmt(&self, f: &mut fmt::Formatter<'_>) -> fmt::Result {
        write!(f, "{} is {}, not {}", self.numbers.name, self.numbers.all, self.given)
    }
}

impl std::error::Error for UnknownCode {}

/// The numbers that stand for the values of a type: what such a number is called, and which there are.
#[derive(Clone, Copy, Debug, PartialEq, Eq, Hash)]
pub(crate) struct Numbers {
    pub(crate) name: &'static str,
    pub(crate) all: &'static str,
}

impl Numbers {
    /// The value that the given number stands for, where `number` says which number each value has.
    pub(crate) fn find<T: Copy, N: Copy + Into<u32>>(
        self,
        values: &[T],
        number: impl Fn(T) -> N,
        given: N,
    ) -> Result<T, UnknownCode> {
        let given = given.into();
        let found = values.iter().copied().find(|&value| number(value).into() == given);
        found.ok_or(UnknownCode { numbers: self, given })
    }
}
