//! The numbers of enums, by the traits of conversion.

use crate::buffer::{BufferClusterLevel, Direction, GeneralCategory};
use crate::plan::{JoiningType, Pause};
use core::error::Error;
use core::fmt;

/// A number that no value of the type has.
#[derive(Clone, Copy, Debug, PartialEq, Eq, Hash)]
pub struct UnknownNumber(pub u8);

impl fmt::Display for UnknownNumber {
    fn fmt(&self, f: &mut fmt::Formatter<'_>) -> fmt::Result {
        write!(f, "no value has the number {}", self.0)
    }
}

impl Error for UnknownNumber {}

macro_rules! impl_numbers {
    ($($name:ident)*) => {
        $(
            impl TryFrom<u8> for $name {
                type Error = UnknownNumber;

                #[inline]
                fn try_from(number: u8) -> Result<Self, UnknownNumber> {
                    $name::from_number(number).ok_or(UnknownNumber(number))
                }
            }

            impl From<$name> for u8 {
                #[inline]
                fn from(value: $name) -> Self {
                    value.number()
                }
            }
        )*
    };
}

impl_numbers! { BufferClusterLevel Direction GeneralCategory JoiningType Pause }

#[cfg(test)]
mod tests {
    use super::*;
    use std::string::ToString;

    #[test]
    fn numbers_become_values_and_back() {
        assert_eq!(Direction::try_from(5), Ok(Direction::RightToLeft));
        assert_eq!(u8::from(Direction::RightToLeft), 5);
        for pause in Pause::ALL {
            assert_eq!(Pause::try_from(u8::from(pause)), Ok(pause));
        }
        assert_eq!(Direction::try_from(3), Err(UnknownNumber(3)));
        assert_eq!(UnknownNumber(3).to_string(), "no value has the number 3");
    }
}
