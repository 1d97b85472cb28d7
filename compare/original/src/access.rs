//! Doors to the private functions of `bytecode.rs`: this is a child module of that file.

use super::*;

/// The number at the beginning of the bytes, and how many bytes it took.
pub fn uvarint(bytes: &[u8]) -> Result<(u64, usize), String> {
    read_one(bytes, Cursor::uvarint)
}

/// The signed number at the beginning of the bytes, and how many bytes it took.
pub fn ivarint(bytes: &[u8]) -> Result<(i64, usize), String> {
    read_one(bytes, Cursor::ivarint)
}

fn read_one<'a, T>(
    bytes: &'a [u8],
    read: impl FnOnce(&mut Cursor<'a>) -> Result<T, BytecodeError>,
) -> Result<(T, usize), String> {
    let mut cursor = Cursor { data: bytes, pos: 0 };
    let value = read(&mut cursor).map_err(|refusal| refusal.0)?;
    Ok((value, cursor.pos))
}

/// Reads numbers one after the other until the bytes end or a number is refused.
pub fn read_uvarints(bytes: &[u8], numbers: &mut Vec<u64>) {
    let mut cursor = Cursor { data: bytes, pos: 0 };
    while cursor.pos < bytes.len() {
        match cursor.uvarint() {
            Ok(number) => numbers.push(number),
            Err(_) => return,
        }
    }
}

/// Writes numbers one after the other.
pub fn write_uvarints(numbers: &[u64], out: &mut Vec<u8>) {
    for &number in numbers {
        super::write_uvarint(number, out);
    }
}

pub fn write_uvarint(value: u64, out: &mut Vec<u8>) {
    super::write_uvarint(value, out);
}

pub fn write_ivarint(value: i64, out: &mut Vec<u8>) {
    super::write_ivarint(value, out);
}

pub fn serialize_payload(chunk: &Chunk, line_index: Option<&LineIndex>) -> Vec<u8> {
    super::serialize_payload(chunk, line_index)
}

pub fn deserialize_payload(
    bytes: &[u8],
    natives: &Module,
) -> Result<(Chunk, Option<LineIndex>), String> {
    super::deserialize_payload(bytes, natives).map_err(|refusal| refusal.0)
}

/// The bytes that `deserialize_payload` consumes: it has no answer for them, so its steps are taken one by one.
pub fn consumed(bytes: &[u8], natives: &Module) -> Result<usize, String> {
    let mut cursor = Cursor { data: bytes, pos: 0 };
    let pool = read_string_pool(&mut cursor).map_err(|refusal| refusal.0)?;
    read_chunk(&mut cursor, natives, &pool).map_err(|refusal| refusal.0)?;
    read_line_index(&mut cursor, &pool).map_err(|refusal| refusal.0)?;
    Ok(cursor.pos)
}
