//! Varints and lines.

use super::{BYTE_LIMIT, Refusal, START_LIMIT};

/// The number of the varint at `at` and the place after it.
pub fn uvarint_at(bytes: &[u8], at: usize) -> Result<(u64, usize), Refusal> {
    let item = bytes.get(at..).unwrap_or_default();
    let continued = item
        .iter()
        .take(10)
        .take_while(|&&byte| byte & 0x80 != 0)
        .count();
    if continued == 10 {
        return Err((2, at));
    }
    if continued == item.len() {
        return Err((1, at));
    }
    let septets = item[..=continued].iter().rev();
    let number = septets.fold(0u128, |number, byte| number << 7 | u128::from(byte & 0x7F));
    Ok((number as u64, at + continued + 1))
}

/// The count of line starts and the whole lent table, or the refusal; a refusal zeroes the table.
pub fn line_starts(text: &[u8], lent: usize) -> Result<(usize, Vec<u32>), Refusal> {
    if text.len() > BYTE_LIMIT {
        return Err((16, 0));
    }
    let capacity = lent.min(START_LIMIT);
    if capacity == 0 {
        return Err((24, 0));
    }
    let feeds = (0..text.len()).filter(|&place| text[place] == 0x0A);
    let mut starts = vec![0];
    for place in feeds {
        if starts.len() == capacity {
            return Err((24, place));
        }
        starts.push(place as u32 + 1);
    }
    let count = starts.len();
    starts.resize(lent, 0);
    Ok((count, starts))
}

/// Line and column of an offset, or the refusal of starts that do not rise.
pub fn line_col(starts: &[u32], offset: u64) -> Result<(u64, u64), Refusal> {
    if let Some(index) = (1..starts.len()).find(|&index| starts[index] <= starts[index - 1]) {
        return Err((20, index));
    }
    let offset = offset as u32;
    let not_above = starts.iter().filter(|&&start| start <= offset).count();
    let column = match (starts, not_above) {
        ([], _) => u64::from(offset) + 1,
        (_, 0) => 1,
        (_, count) => u64::from(offset - starts[count - 1]) + 1,
    };
    Ok((not_above.max(1) as u64, column))
}

/// The words of an answer that was lent: the fields at its front where they fit, else as they were.
pub fn answered(lent: &[u64], fields: &[u64]) -> Vec<u64> {
    let mut words = lent.to_vec();
    if let Some(front) = words.get_mut(..fields.len()) {
        front.copy_from_slice(fields);
    }
    words
}

#[cfg(test)]
mod tests {
    use super::*;

    #[test]
    fn varints_of_the_proof_table() {
        assert_eq!(uvarint_at(&[0x80, 0x01], 0), Ok((128, 2)));
        assert_eq!(uvarint_at(&[0x80, 0x00], 0), Ok((0, 2)));
        let nine = |byte: u8, last: u8| [vec![byte; 9], vec![last]].concat();
        assert_eq!(uvarint_at(&nine(0xFF, 1), 0), Ok((u64::MAX, 10)));
        assert_eq!(uvarint_at(&nine(0x80, 2), 0), Ok((0, 10)));
        assert_eq!(uvarint_at(&nine(0xFF, 0xFF), 0), Err((2, 0)));
        assert_eq!(uvarint_at(&[0x80; 9], 0), Err((1, 0)));
        assert_eq!(uvarint_at(&[], 7), Err((1, 7)));
    }

    #[test]
    fn lines_of_a_text() {
        assert_eq!(line_starts(b"a\nb\n", 4), Ok((3, vec![0, 2, 4, 0])));
        assert_eq!(line_starts(b"a\nb\n", 2), Err((24, 3)));
        assert_eq!(line_starts(b"", 0), Err((24, 0)));
        assert_eq!(line_col(&[], 1 << 32), Ok((1, 1)));
        assert_eq!(line_col(&[2, 5], 1), Ok((1, 1)));
        assert_eq!(line_col(&[2, 5], 6), Ok((2, 2)));
        assert_eq!(line_col(&[2, 5, 5], 6), Err((20, 2)));
    }
}
