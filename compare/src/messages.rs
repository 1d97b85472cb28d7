//! The Rust's messages as document 01's numbers.

const NUMBERS: [(&str, u64); 13] = [
    ("truncated .rlc file", 1),
    ("varint too long in .rlc file", 2),
    ("invalid utf-8 in .rlc string", 3),
    ("corrupt .rlc file: string pool index out of range", 4),
    ("corrupt .rlc file: unknown constant tag ", 5),
    ("invalid char in .rlc file", 6),
    ("corrupt .rlc file: span table length mismatch", 7),
    ("corrupt .rlc: invalid set element", 9),
    ("corrupt .rlc: invalid map key", 9),
    ("corrupt .rlc: closure template is not a function", 11),
    ("corrupt .rlc: unknown handle kind", 12),
    ("corrupt .rlc file: unknown line-index tag ", 13),
    ("unresolved native function ", 14),
];

/// The number of the refusal whose message begins the text.
pub fn refusal(message: &str) -> u64 {
    NUMBERS
        .iter()
        .find(|(beginning, _)| message.starts_with(beginning))
        .map(|&(_, number)| number)
        .unwrap_or_else(|| panic!("a message without a number: {message}"))
}

#[cfg(test)]
mod tests {
    use super::refusal;
    use original::deserialize_payload;
    use original::native::Module;

    /// The refusal of an outer chunk with this one constant; the pool holds `a`.
    fn of_constant(constant: &[u8]) -> u64 {
        of_payload(&[&[1, 1, b'a', 0, 0, 1], constant, &[0]].concat())
    }

    fn of_payload(payload: &[u8]) -> u64 {
        refusal(&deserialize_payload(payload, &Module::default()).unwrap_err())
    }

    #[test]
    fn each_message_has_its_number() {
        assert_eq!(of_payload(&[]), 1);
        assert_eq!(of_payload(&[0x80; 10]), 2);
        assert_eq!(of_payload(&[1, 1, 0xFF]), 3);
        assert_eq!(of_constant(&[6, 1]), 4);
        assert_eq!(of_constant(&[27]), 5);
        assert_eq!(of_constant(&[5, 0x80, 0xB0, 3]), 6);
        assert_eq!(of_payload(&[0, 1, 0, 0, 0, 0]), 7);
        assert_eq!(of_constant(&[14, 1, 0]), 9);
        assert_eq!(of_constant(&[15, 1, 0, 0]), 9);
        assert_eq!(of_constant(&[18, 0]), 11);
        assert_eq!(of_constant(&[26, 6, 0]), 12);
        assert_eq!(of_payload(&[0, 0, 0, 0, 2]), 13);
        assert_eq!(of_constant(&[8, 0]), 14);
    }
}
