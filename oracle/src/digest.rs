//! The digest of a room: two sums over its bytes, so that a changed byte shows.

use std::fmt;

const FIRST: (u64, u64) = (257, 4_294_967_291);
const SECOND: (u64, u64) = (65_599, 4_294_967_279);

#[derive(Clone, Copy, Debug, PartialEq, Eq)]
pub struct Digest {
    x: u64,
    y: u64,
}

impl Digest {
    pub fn of(bytes: impl IntoIterator<Item = u8>) -> Digest {
        let mut digest = Digest { x: 0, y: 0 };
        for byte in bytes {
            digest.x = (FIRST.0 * digest.x + u64::from(byte) + 1) % FIRST.1;
            digest.y = (SECOND.0 * digest.y + u64::from(byte) + 1) % SECOND.1;
        }
        digest
    }

    pub fn of_halves(elements: &[u16]) -> Digest {
        Digest::of(elements.iter().flat_map(|element| element.to_le_bytes()))
    }

    pub fn of_words(elements: &[u32]) -> Digest {
        Digest::of(elements.iter().flat_map(|element| element.to_le_bytes()))
    }
}

impl fmt::Display for Digest {
    fn fmt(&self, formatter: &mut fmt::Formatter) -> fmt::Result {
        write!(formatter, "{}.{}", self.x, self.y)
    }
}
