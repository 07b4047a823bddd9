//! The table in use by document 01, "The table in use" and refusal 3: which of two flash areas holds the
//! accepted image, and how long that image is.
//!
//! Assumes: nothing of the bytes, and nothing of those behind an image.
//! Read so: an area's first bytes are its image's header, so an area with under 16 bytes is Short and one
//! with an illegal header is refused for that, however long it is; where no area is accepted the built-in
//! one's refusal is not told.

use super::image::{self, Refusal};
use std::fmt;

/// The area that holds the table in use, and the length of the stretch in bytes.
#[derive(Debug, PartialEq)]
pub enum InUse {
    Operator(usize),
    BuiltIn(usize),
}

impl fmt::Display for InUse {
    /// As scripts are answered.
    fn fmt(&self, f: &mut fmt::Formatter) -> fmt::Result {
        match self {
            InUse::Operator(length) => write!(f, "operator {length}"),
            InUse::BuiltIn(length) => write!(f, "built-in {length}"),
        }
    }
}

/// The table in use, or the operator's refusal.
pub fn in_use(operator: &[u8], built_in: &[u8]) -> Result<InUse, Refusal> {
    match stretch(operator) {
        Ok(length) => Ok(InUse::Operator(length)),
        Err(refusal) => match stretch(built_in) {
            Ok(length) => Ok(InUse::BuiltIn(length)),
            Err(_) => Err(refusal),
        },
    }
}

/// The length of the stretch of an area that holds its image, if that is accepted.
pub fn stretch(area: &[u8]) -> Result<usize, Refusal> {
    let length = image::length(area)?;
    let image = area.get(..length).ok_or(Refusal::whole(image::LENGTH))?;
    image::check(image)?;
    Ok(length)
}

#[cfg(test)]
mod tests {
    use super::*;
    use crate::paper::image::Z;

    /// Z with one byte changed.
    fn z_with(at: usize, byte: u8) -> Vec<u8> {
        let mut bytes = Z.to_vec();
        bytes[at] = byte;
        bytes
    }

    fn longer(image: &[u8], by: usize, byte: u8) -> Vec<u8> {
        [image, &vec![byte; by]].concat()
    }

    #[test]
    fn an_area_is_as_long_as_its_image_or_longer() {
        for (by, byte) in [(0, 0), (1, 0), (1, 0xFF), (2, 7), (200, 0xFF), (60_000, 0)] {
            assert_eq!(stretch(&longer(&Z, by, byte)), Ok(52));
        }
        assert_eq!(stretch(&Z[..51]), Err(Refusal::whole(3)));
        assert_eq!(stretch(&Z[..16]), Err(Refusal::whole(3)));
        assert_eq!(stretch(&Z[..15]), Err(Refusal::whole(1)));
        assert_eq!(stretch(&[]), Err(Refusal::whole(1)));
    }

    #[test]
    fn what_stands_behind_mends_nothing() {
        let header = longer(&z_with(0, 2), 100, 0);
        assert_eq!(stretch(&header), Err(Refusal::whole(2)));
        let cell = Refusal {
            number: 4,
            place: 1,
        };
        assert_eq!(stretch(&longer(&z_with(18, 4), 9, 0xFF)), Err(cell));
        let code = Refusal {
            number: 6,
            place: 1,
        };
        assert_eq!(stretch(&longer(&z_with(30, 0xA5), 1, 0)), Err(code));
        // an entry more in the header is a word more of what was behind
        let more = z_with(10, 1);
        assert_eq!(stretch(&more), Err(Refusal::whole(3)));
        assert_eq!(stretch(&longer(&more, 1, 0xFF)), Err(Refusal::whole(3)));
        assert_eq!(stretch(&longer(&more, 2, 0xFF)), Ok(54));
    }

    #[test]
    fn the_operator_comes_first() {
        let more = longer(&z_with(10, 1), 9, 0);
        assert_eq!(in_use(&Z, &more), Ok(InUse::Operator(52)));
        assert_eq!(in_use(&more, &Z), Ok(InUse::Operator(54)));
        assert_eq!(in_use(&Z, &[]), Ok(InUse::Operator(52)));
        assert_eq!(in_use(&Z, &Z[..51]), Ok(InUse::Operator(52)));
    }

    #[test]
    fn the_built_in_serves_for_any_refusal_of_the_operator() {
        for refused in [&Z[..0], &Z[..15], &Z[..51], &z_with(18, 4), &z_with(28, 8)] {
            let found = in_use(refused, &longer(&Z, 8, 0));
            assert_eq!(found, Ok(InUse::BuiltIn(52)));
        }
    }

    #[test]
    fn where_none_is_accepted_the_operators_refusal_stands() {
        let child = z_with(48, 3);
        let refusal = Refusal {
            number: 7,
            place: 3,
        };
        for built_in in [&Z[..0], &Z[..51], &z_with(0, 0), &z_with(18, 9)] {
            assert_eq!(in_use(&child, built_in), Err(refusal));
            assert_eq!(in_use(&[], built_in), Err(Refusal::whole(1)));
        }
        assert_eq!(in_use(&Z[..51], &child), Err(Refusal::whole(3)));
    }

    #[test]
    fn answers_are_written() {
        assert_eq!(InUse::Operator(52).to_string(), "operator 52");
        assert_eq!(InUse::BuiltIn(54).to_string(), "built-in 54");
        let refusal = in_use(&z_with(18, 4), &[]).unwrap_err();
        assert_eq!(refusal.to_string(), "refused 4 1");
    }
}
