// SPDX-License-Identifier: Apache-2.0
//! The version of the library, against that of the header which the declarations are made from.

use super::check;
use super::declarations::{otel_version, VERSION};
use crate::Error;

/// An error where the library is of another version than what is declared here.
pub(super) fn hold_version() -> Result<(), Error> {
    let (mut major, mut minor, mut patch) = (0, 0, 0);
    // SAFETY: each number is a variable of its type.
    check(unsafe { otel_version(&mut major, &mut minor, &mut patch) })?;
    hold_together(VERSION, [major, minor, patch])
}

/// Header and library go together where the first two numbers are the same.
fn hold_together(declared: [u32; 3], library: [u32; 3]) -> Result<(), Error> {
    if declared[..2] == library[..2] {
        Ok(())
    } else {
        Err(Error::OtherVersion { declared, library })
    }
}

#[cfg(test)]
mod tests {
    use super::*;

    #[test]
    fn the_first_two_numbers_decide() {
        assert_eq!(hold_together([1, 2, 3], [1, 2, 9]), Ok(()));
        for library in [[1, 3, 3], [2, 2, 3]] {
            let error = hold_together([1, 2, 3], library).unwrap_err();
            assert_eq!(error, Error::OtherVersion { declared: [1, 2, 3], library });
        }
        let said = hold_together([1, 2, 3], [1, 4, 0]).unwrap_err().to_string();
        assert_eq!(said, "libotel_c is of version 1.4.0, and this package is for 1.2");
    }
}
