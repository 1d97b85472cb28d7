//! The rows of a program one by one, each with the place that it has among the others.

use crate::tables::Row;

/// What a row is to the row that it stands in.
#[derive(Debug, Clone, Copy, PartialEq, Eq, Hash)]
pub enum Role {
    /// The outer chunk, or a row after the end of it.
    Outer,
    /// A constant of a chunk.
    Constant,
    /// The chunk of a function.
    Chunk,
    /// A value in Ok, Err or Error, or in a field.
    Inner,
    /// An element of an array, tuple or set.
    Element,
    /// A key of a map.
    Key,
    /// The value after a key.
    Value,
    /// A field of a record.
    Field,
    /// The function that a closure is made from.
    Template,
    /// A value that a closure has captured.
    Captured,
}

/// A row and where it stands.
#[derive(Debug, Clone, Copy, PartialEq, Eq)]
pub struct Node<'a> {
    /// The row's number.
    pub index: usize,
    /// Its tag and words.
    pub row: &'a Row,
    /// How many rows it stands in.
    pub level: usize,
    /// The depth of the value, 1 for a constant of the outer chunk; of a chunk or field, the depth of what it belongs
    /// to.
    pub depth: usize,
    /// What it is to the row that it stands in.
    pub role: Role,
}

/// Goes through the rows of a program. A program that is not sound is gone through as well: rows that are missing are
/// left out, and rows after the end stand at level 0.
#[derive(Debug, Clone)]
pub struct Walk<'a> {
    rows: std::iter::Enumerate<std::slice::Iter<'a, Row>>,
    open: Vec<Open>,
}

/// A row whose parts are not all passed.
#[derive(Debug, Clone)]
struct Open {
    tag: u64,
    passed: u64,
    parts: u64,
    depth: usize,
}

impl<'a> Walk<'a> {
    pub(crate) fn new(rows: &'a [Row]) -> Walk<'a> {
        Walk {
            rows: rows.iter().enumerate(),
            open: Vec::new(),
        }
    }
}

impl<'a> Iterator for Walk<'a> {
    type Item = Node<'a>;

    fn next(&mut self) -> Option<Node<'a>> {
        let (index, row) = self.rows.next()?;
        while self.open.pop_if(|top| top.passed == top.parts).is_some() {}
        let level = self.open.len();
        let (role, depth) = match self.open.last_mut() {
            None => (Role::Outer, 0),
            Some(top) => {
                let role = role(top.tag, top.passed);
                top.passed += 1;
                (role, top.depth + usize::from(!is_part_row(row)))
            }
        };
        let parts = parts(row);
        if parts > 0 {
            self.open.push(Open {
                tag: row[0],
                passed: 0,
                parts,
                depth,
            });
        }
        Some(Node {
            index,
            row,
            level,
            depth,
            role,
        })
    }
}

/// Chunk and field rows have no depth of their own.
fn is_part_row(row: &Row) -> bool {
    matches!(row[0], 32 | 33)
}

/// How many rows stand directly in this one.
fn parts(row: &Row) -> u64 {
    match *row {
        [7 | 9 | 10 | 11 | 33, ..] => 1,
        [12..=14, count, ..] => count,
        [15, count, ..] => count.saturating_mul(2),
        [16 | 32, _, _, count, ..] => count,
        [18, _, count, ..] => count.saturating_add(1),
        _ => 0,
    }
}

fn role(tag: u64, passed: u64) -> Role {
    match (tag, passed) {
        (32, _) => Role::Constant,
        (7, _) => Role::Chunk,
        (12..=14, _) => Role::Element,
        (15, _) if passed.is_multiple_of(2) => Role::Key,
        (15, _) => Role::Value,
        (16, _) => Role::Field,
        (18, 0) => Role::Template,
        (18, _) => Role::Captured,
        _ => Role::Inner,
    }
}

/// What rl calls a value of this tag; the rows that are no value are `chunk` and `field`.
pub fn tag_name(tag: u64) -> &'static str {
    const VALUES: [&str; 27] = [
        "Null", "Int", "Float", "Bool", "Byte", "Char", "Str", "Function", "Native", "Ok", "Err",
        "Error", "Arr", "Tuple", "Set", "Map", "Record", "Tag", "Closure", "UInt", "SInt", "SUInt",
        "BByte", "BSByte", "SByte", "SFloat", "Handle",
    ];
    match tag {
        32 => "chunk",
        33 => "field",
        _ => VALUES
            .get(crate::tables::count(tag))
            .unwrap_or(&"no value has this tag"),
    }
}

#[cfg(test)]
mod tests {
    use super::*;

    fn walked(rows: &[Row]) -> Vec<(usize, usize, Role)> {
        Walk::new(rows)
            .map(|node| (node.level, node.depth, node.role))
            .collect()
    }

    #[test]
    fn a_map_in_a_record_of_a_function() {
        let rows = [
            [32, 0, 0, 2, 0],
            [7, 0, 0, 0, 0],
            [32, 0, 0, 1, 0],
            [16, 0, 0, 1, 0],
            [33, 0, 0, 0, 0],
            [15, 1, 0, 0, 0],
            [1, 5, 0, 0, 0],
            [0, 0, 0, 0, 0],
            [3, 1, 0, 0, 0],
        ];
        let expected = [
            (0, 0, Role::Outer),
            (1, 1, Role::Constant),
            (2, 1, Role::Chunk),
            (3, 2, Role::Constant),
            (4, 2, Role::Field),
            (5, 3, Role::Inner),
            (6, 4, Role::Key),
            (6, 4, Role::Value),
            (1, 1, Role::Constant),
        ];
        assert_eq!(walked(&rows), expected);
    }

    #[test]
    fn a_closure_has_a_template_then_the_captured() {
        let rows = [
            [18, 0, 1, 0, 0],
            [7, 0, 0, 0, 0],
            [32, 0, 0, 0, 0],
            [0, 0, 0, 0, 0],
        ];
        let roles: Vec<_> = Walk::new(&rows).map(|node| node.role).collect();
        assert_eq!(
            roles,
            [Role::Outer, Role::Template, Role::Chunk, Role::Captured]
        );
    }

    #[test]
    fn rows_that_are_no_program_are_gone_through() {
        let rows = [[32, 0, 0, u64::MAX, 0], [15, u64::MAX, 0, 0, 0], [99; 5]];
        assert_eq!(walked(&rows)[2], (2, 2, Role::Key));
        assert_eq!(walked(&[[0; 5], [0; 5]])[1], (0, 0, Role::Outer));
    }
}
