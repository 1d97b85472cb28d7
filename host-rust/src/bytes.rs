//! The calls on bytes alone: the UTF-8 test and the varint.

use crate::calls;
use crate::refusal::Refusal;

/// Whether the bytes are UTF-8, by RFC 3629.
///
/// ```
/// assert!(rlc2::is_utf8("Übertitel".as_bytes()));
/// assert!(!rlc2::is_utf8(&[0xC3, 0x28]));
/// ```
pub fn is_utf8(bytes: &[u8]) -> bool {
    calls::rlc2_is_utf8(bytes) == 1
}

/// A number that stands at the front of some bytes.
#[derive(Debug, Clone, Copy, PartialEq, Eq, Hash)]
pub struct Uvarint {
    /// The number.
    pub number: u64,
    /// How many bytes it has, from 1 to 10.
    pub length: usize,
}

/// Reads the unsigned LEB128 number at the front of the bytes. A padded number is accepted, and bits above 63 are
/// dropped.
///
/// Refusals: 1 where the bytes end inside the number, 2 where its tenth byte says that another follows; place 0.
///
/// ```
/// let read = rlc2::uvarint(&[0x80, 0x01, 0xFF])?;
/// assert_eq!((read.number, read.length), (128, 2));
/// assert_eq!(rlc2::uvarint(&[0x80]).unwrap_err().number, 1);
/// # Ok::<(), rlc2::Refusal>(())
/// ```
pub fn uvarint(bytes: &[u8]) -> Result<Uvarint, Refusal> {
    let mut number = [0; 8];
    match calls::rlc2_uvarint(bytes, &mut number) {
        // Of ten bytes and more only the tenth byte can be refused, of fewer only their end.
        0 => Err(Refusal {
            number: if bytes.len() < 10 { 1 } else { 2 },
            place: 0,
        }),
        length => Ok(Uvarint {
            number: u64::from_le_bytes(number),
            length,
        }),
    }
}
