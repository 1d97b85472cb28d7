//! A program of the Rust as a tree of document 01's rows, to be compared with one in tables.

use crate::values::{VmFunction, VmMapKey, VmValue};
use crate::{Chunk, LineIndex};

/// A row and the rows below it; strings and code stand by their bytes, sets and maps in one order.
#[derive(Debug, Clone, Default, PartialEq, Eq, PartialOrd, Ord)]
pub struct Row {
    pub tag: u64,
    /// The row's words that belong to no part.
    pub words: Vec<u64>,
    pub parts: Vec<Vec<u8>>,
    /// Start and end for each code byte of a chunk.
    pub spans: Vec<(u64, u64)>,
    pub below: Vec<Row>,
}

#[derive(Debug, Clone, PartialEq, Eq)]
pub struct Program {
    pub chunk: Row,
    /// Name and starts.
    pub line_index: Option<(Vec<u8>, Vec<u32>)>,
}

pub fn program(outer: &Chunk, line_index: Option<&LineIndex>) -> Program {
    Program {
        chunk: chunk(outer),
        line_index: line_index.map(|index| {
            let name = index.source_name().as_bytes().to_vec();
            (name, index.line_starts().to_vec())
        }),
    }
}

fn chunk(chunk: &Chunk) -> Row {
    let spans = chunk.spans.iter();
    Row {
        parts: vec![chunk.code.clone()],
        spans: spans
            .map(|span| (span.start as u64, span.end as u64))
            .collect(),
        ..counted(32, values(&chunk.constants))
    }
}

fn values(list: &[VmValue]) -> Vec<Row> {
    list.iter().map(value).collect()
}

fn value(value: &VmValue) -> Row {
    match value {
        VmValue::Null => numbers(0, &[]),
        VmValue::Int(int) => numbers(1, &[*int as u64]),
        VmValue::Float(float) => numbers(2, &[float.to_bits()]),
        VmValue::Bool(bool) => numbers(3, &[u64::from(*bool)]),
        VmValue::Byte(byte) => numbers(4, &[u64::from(*byte)]),
        VmValue::Char(char) => numbers(5, &[u64::from(*char)]),
        VmValue::Str(text) => strings(6, &[text]),
        VmValue::Function(function) => self::function(function),
        VmValue::Native(native) => strings(8, &[native.name()]),
        VmValue::Ok(inner) => holding(9, inner),
        VmValue::Err(inner) => holding(10, inner),
        VmValue::Error(inner) => holding(11, inner),
        VmValue::Arr(items) => counted(12, values(items)),
        VmValue::Tuple(items) => counted(13, values(items)),
        VmValue::Set(items) => set(items.borrow().iter()),
        VmValue::Map(entries) => map(entries.borrow().iter()),
        VmValue::Record { name, fields } => Row {
            parts: vec![name.as_bytes().to_vec()],
            ..counted(16, fields.iter().map(field).collect())
        },
        VmValue::Tag { name, variant } => strings(17, &[name, variant]),
        VmValue::Closure {
            func,
            captured,
            capture_start,
        } => closure(func, captured, *capture_start),
        VmValue::UInt(uint) => numbers(19, &[*uint]),
        VmValue::SInt(int) => numbers(20, &[*int as u64]),
        VmValue::SUInt(uint) => numbers(21, &[u64::from(*uint)]),
        VmValue::BByte(byte) => numbers(22, &[u64::from(*byte)]),
        VmValue::BSByte(byte) => numbers(23, &[*byte as u64]),
        VmValue::SByte(byte) => numbers(24, &[*byte as u64]),
        VmValue::SFloat(float) => numbers(25, &[u64::from(float.to_bits())]),
        VmValue::Handle { kind, id } => numbers(26, &[*kind as u64, *id]),
    }
}

/// A row of words alone.
pub fn numbers(tag: u64, words: &[u64]) -> Row {
    Row {
        tag,
        words: words.to_vec(),
        ..Row::default()
    }
}

/// A row of strings alone.
pub fn strings(tag: u64, texts: &[&str]) -> Row {
    Row {
        tag,
        parts: texts.iter().map(|text| text.as_bytes().to_vec()).collect(),
        ..Row::default()
    }
}

fn holding(tag: u64, inner: &VmValue) -> Row {
    Row {
        tag,
        below: vec![value(inner)],
        ..Row::default()
    }
}

/// A row whose word is the count of the rows below it.
pub fn counted(tag: u64, below: Vec<Row>) -> Row {
    Row {
        tag,
        words: vec![below.len() as u64],
        below,
        ..Row::default()
    }
}

fn set<'a>(keys: impl Iterator<Item = &'a VmMapKey>) -> Row {
    let mut rows: Vec<Row> = keys.map(key).collect();
    rows.sort();
    counted(14, rows)
}

fn map<'a>(entries: impl Iterator<Item = (&'a VmMapKey, &'a VmValue)>) -> Row {
    let mut pairs: Vec<[Row; 2]> = entries.map(|(k, v)| [key(k), value(v)]).collect();
    pairs.sort();
    Row {
        tag: 15,
        words: vec![pairs.len() as u64],
        below: pairs.into_iter().flatten().collect(),
        ..Row::default()
    }
}

fn key(key: &VmMapKey) -> Row {
    value(&key.clone().into_value())
}

fn field<T: AsRef<str>>((name, inner): (T, VmValue)) -> Row {
    Row {
        parts: vec![name.as_ref().as_bytes().to_vec()],
        ..holding(33, &inner)
    }
}

fn function(function: &VmFunction) -> Row {
    Row {
        tag: 7,
        words: vec![function.arity as u64],
        parts: vec![function.name.as_bytes().to_vec()],
        below: vec![chunk(&function.chunk)],
        ..Row::default()
    }
}

fn closure(template: &VmFunction, captured: &[VmValue], capture_start: u16) -> Row {
    let mut below = vec![function(template)];
    below.extend(captured.iter().map(value));
    Row {
        tag: 18,
        words: vec![u64::from(capture_start), captured.len() as u64],
        below,
        ..Row::default()
    }
}

#[cfg(test)]
mod tests {
    use super::*;
    use crate::deserialize_payload;
    use crate::native::Module;

    fn tree(payload: &[u8]) -> Program {
        let (chunk, lines) = deserialize_payload(payload, &Module::default()).unwrap();
        program(&chunk, lines.as_ref())
    }

    #[test]
    fn the_listed_payload_of_document_01() {
        let payload = [1, 2, 0x48, 0x69, 1, 0, 1, 0, 0x0A, 1, 1, 6, 0, 1, 0, 1, 0];
        let constant = strings(6, &["Hi"]);
        let outer = Row {
            parts: vec![vec![0]],
            spans: vec![(0, 5)],
            ..counted(32, vec![constant])
        };
        let lines = Some((b"Hi".to_vec(), vec![0]));
        let expected = Program {
            chunk: outer,
            line_index: lines,
        };
        assert_eq!(tree(&payload), expected);
    }

    #[test]
    fn signed_numbers_stand_modulo_2_64() {
        let program = tree(&[0, 0, 0, 4, 1, 1, 20, 3, 23, 5, 24, 7, 0]);
        let words: Vec<u64> = program.chunk.below.iter().map(|row| row.words[0]).collect();
        assert_eq!(words, [u64::MAX, u64::MAX - 1, u64::MAX - 2, u64::MAX - 3]);
    }

    #[test]
    fn the_order_of_a_set_or_map_is_left_out() {
        assert_eq!(
            tree(&[0, 0, 0, 2, 14, 2, 4, 9, 4, 7, 15, 2, 4, 9, 0, 4, 7, 3, 1, 0]),
            tree(&[0, 0, 0, 2, 14, 2, 4, 7, 4, 9, 15, 2, 4, 7, 3, 1, 4, 9, 0, 0]),
        );
    }
}
