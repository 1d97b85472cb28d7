//! A tree of document 01's rows as a program of the Rust, to be written by it.

use crate::native::named;
use crate::span::Span;
use crate::statements::HandleKind;
use crate::tree::{Program, Row};
use crate::values::{RecordFields, VmFunction, VmMapKey, VmValue};
use crate::{Chunk, LineIndex};
use std::cell::RefCell;
use std::rc::Rc;

const HANDLE_KINDS: [HandleKind; 6] = [
    HandleKind::C,
    HandleKind::Net,
    HandleKind::Http,
    HandleKind::Audio,
    HandleKind::Gui,
    HandleKind::File,
];

/// The Rust's program; the tree is that of a sound one.
pub fn program(program: &Program) -> (Chunk, Option<LineIndex>) {
    let lines = program.line_index.as_ref();
    let line_index = lines.map(|(name, starts)| LineIndex::from_raw(text(name), starts.clone()));
    (chunk(&program.chunk), line_index)
}

fn chunk(row: &Row) -> Chunk {
    let spans = row.spans.iter();
    Chunk {
        code: row.parts[0].clone(),
        constants: values(&row.below),
        spans: spans
            .map(|&(start, end)| Span::new(start as usize, end as usize))
            .collect(),
    }
}

fn values(rows: &[Row]) -> Vec<VmValue> {
    rows.iter().map(value).collect()
}

fn value(row: &Row) -> VmValue {
    let word = row.words.first().copied().unwrap_or_default();
    match row.tag {
        0 => VmValue::Null,
        1 => VmValue::Int(word as i64),
        2 => VmValue::Float(f64::from_bits(word)),
        3 => VmValue::Bool(word != 0),
        4 => VmValue::Byte(word as u8),
        5 => VmValue::Char(char::from_u32(word as u32).expect("a Unicode scalar")),
        6 => VmValue::Str(text(&row.parts[0]).into()),
        7 => VmValue::Function(function(row)),
        8 => VmValue::Native(named(text(&row.parts[0]))),
        9 => VmValue::Ok(inner(row)),
        10 => VmValue::Err(inner(row)),
        11 => VmValue::Error(inner(row)),
        12 => VmValue::Arr(Rc::new(values(&row.below))),
        13 => VmValue::Tuple(Rc::new(values(&row.below))),
        14 => VmValue::Set(Rc::new(RefCell::new(row.below.iter().map(key).collect()))),
        15 => VmValue::Map(Rc::new(RefCell::new(
            row.below
                .chunks(2)
                .map(|pair| (key(&pair[0]), value(&pair[1])))
                .collect(),
        ))),
        16 => VmValue::Record {
            name: text(&row.parts[0]).into(),
            fields: RecordFields::new(row.below.iter().map(field).collect()),
        },
        17 => VmValue::Tag {
            name: text(&row.parts[0]).into(),
            variant: text(&row.parts[1]).into(),
        },
        18 => VmValue::Closure {
            func: function(&row.below[0]),
            captured: Rc::new(values(&row.below[1..])),
            capture_start: word as u16,
        },
        19 => VmValue::UInt(word),
        20 => VmValue::SInt(word as i32),
        21 => VmValue::SUInt(word as u32),
        22 => VmValue::BByte(word as u16),
        23 => VmValue::BSByte(word as i16),
        24 => VmValue::SByte(word as i8),
        25 => VmValue::SFloat(f32::from_bits(word as u32)),
        26 => VmValue::Handle {
            kind: HANDLE_KINDS[word as usize],
            id: row.words[1],
        },
        tag => panic!("no value has tag {tag}"),
    }
}

fn inner(row: &Row) -> Box<VmValue> {
    Box::new(value(&row.below[0]))
}

fn function(row: &Row) -> Rc<VmFunction> {
    Rc::new(VmFunction {
        name: text(&row.parts[0]).to_string(),
        arity: row.words[0] as usize,
        chunk: chunk(&row.below[0]),
    })
}

fn field(row: &Row) -> (Rc<str>, VmValue) {
    (text(&row.parts[0]).into(), value(&row.below[0]))
}

fn key(row: &Row) -> VmMapKey {
    VmMapKey::from_value(&value(row)).expect("a tag named for keys")
}

fn text(bytes: &[u8]) -> &str {
    std::str::from_utf8(bytes).expect("UTF-8")
}

#[cfg(test)]
mod tests {
    use crate::native::Module;
    use crate::{deserialize_payload, from_tree, serialize_payload, tree};

    #[test]
    fn a_program_by_its_tree_has_the_same_writing() {
        let payload = [
            2, 1, b'a', 2, b'p', b'r', 1, 9, 1, 4, 6, 1, 6, 6, 0, 8, 1, 14, 1, 1, 3, 18, 7, 0, 2,
            0, 0, 0, 5, 1, 26, 5, 9, 16, 0, 1, 1, 2, 0, 0, 0, 0, 0, 0, 0xF8, 0x7F, 0, 1, 0, 2, 0,
            8,
        ];
        let natives = Module::of_names(["pr"]);
        let (chunk, lines) = deserialize_payload(&payload, &natives).unwrap();
        let (chunk, lines) = from_tree::program(&tree::program(&chunk, lines.as_ref()));
        assert_eq!(serialize_payload(&chunk, lines.as_ref()), payload);
    }
}
