//! Examples of document 01.

use super::*;

const AMPLE: Loan = Loan {
    rows: 200,
    spans: 20,
    starts: 10,
    pool: 20,
};

/// The example of the listing.
const LISTED: [u8; 17] = [1, 2, 0x48, 0x69, 1, 0, 1, 0, 0x0A, 1, 1, 6, 0, 1, 0, 1, 0];

fn refusal(payload: &[u8], loan: Loan) -> Refusal {
    let reading = read(payload, b"pr\n", loan);
    assert_eq!(reading.tables, Tables::zero(loan));
    reading.answer.unwrap_err()
}

/// The refusal of an outer chunk with this one constant; the pool holds `a`, and the constant begins at 6.
fn of_constant(constant: &[u8]) -> Refusal {
    refusal(&[&[1, 1, b'a', 0, 0, 1], constant].concat(), AMPLE)
}

#[test]
fn the_listed_payload() {
    let reading = read(&LISTED, b"", AMPLE);
    assert_eq!(reading.fields(), [0, 17, 2, 1, 1, 1, 1, 2, 2]);
    assert_eq!(reading.tables.rows[..10], [32, 5, 1, 1, 0, 6, 2, 2, 0, 0]);
    assert_eq!(reading.tables.rows[10..], [0; 190]);
    assert_eq!(reading.tables.spans[..3], [0, 5, 0]);
    assert_eq!(reading.tables.pool[..3], [2, 2, 0]);
    assert_eq!(check(&LISTED, b"", AMPLE), reading);
    assert!(check(&[0; 5], b"", AMPLE).answer.is_ok());
}

#[test]
fn places_of_a_read() {
    assert_eq!(refusal(&[1, 2, b'a'], AMPLE), (1, 2));
    assert_eq!(refusal(&[1, 2, b'a', 0x80], AMPLE), (3, 2));
    assert_eq!(of_constant(&[6, 1]), (4, 7));
    assert_eq!(of_constant(&[27]), (5, 6));
    assert_eq!(of_constant(&[5, 0x80, 0xB0, 3]), (6, 7));
    assert_eq!(refusal(&[0, 1, 9, 1, 0, 0, 2, 9], AMPLE), (7, 7));
    assert_eq!(of_constant(&[14, 1, 0]), (9, 8));
    assert_eq!(of_constant(&[15, 1, 0, 0]), (9, 8));
    assert_eq!(of_constant(&[14, 2, 4, 9, 4, 9]), (10, 10));
    assert_eq!(of_constant(&[18, 9, 0]), (11, 7));
    assert_eq!(of_constant(&[26, 6]), (12, 7));
    assert_eq!(refusal(&[0, 0, 0, 0, 2], AMPLE), (13, 4));
    assert_eq!(of_constant(&[8, 0]), (14, 7));
    assert_eq!(of_constant(&[9; 33]), (15, 38));
    assert_eq!(of_constant(&[&[9; 31][..], &[12, 0]].concat()), (1, 39));
}

#[test]
fn full_tables() {
    assert_eq!(refusal(&LISTED, Loan { pool: 1, ..AMPLE }), (21, 1));
    assert_eq!(refusal(&LISTED, Loan { rows: 4, ..AMPLE }), (22, 4));
    assert_eq!(refusal(&LISTED, Loan { rows: 9, ..AMPLE }), (22, 12));
    assert_eq!(refusal(&LISTED, Loan { spans: 1, ..AMPLE }), (23, 6));
    assert_eq!(refusal(&LISTED, Loan { starts: 0, ..AMPLE }), (24, 16));
}

/// The listed program with another store, rows and span.
fn written(store: &[u8], rows: &[u64], spans: &[u64], pool: usize, room: usize) -> [u64; 2] {
    let counts = Counts {
        rows: rows.len() as u64 / 5,
        spans: spans.len() as u64 / 2,
        ..Counts::default()
    };
    let program = Program {
        store,
        counts,
        rows,
        spans,
        starts: &[],
    };
    write(&program, pool, room).fields()
}

#[test]
fn order_and_places_of_a_write() {
    let rows = [32, 0, 1, 2, 0, 6, 1, 1, 0, 0, 16, 1, 2, 0, 0];
    let longest = vec![0; BYTE_LIMIT + 1];
    assert_eq!(written(&longest, &rows, &[0, 5], 2, 99), [16, 0]);
    assert_eq!(written(b"xab", &rows, &[0, 1 << 63], 2, 99), [17, 3]);
    assert_eq!(written(b"xab", &rows[..10], &[0, 5], 2, 99), [17, 2]);
    assert_eq!(written(b"x\xFFb", &rows, &[0, 5], 2, 99), [17, 1]);
    assert_eq!(written(b"xab", &rows, &[0, 5], 1, 99), [21, 0]);
    assert_eq!(written(b"xab", &rows, &[0, 5], 2, 99), [18, 2]);
    let named = [32, 0, 1, 2, 0, 6, 1, 2, 0, 0, 16, 1, 2, 0, 0];
    assert_eq!(written(b"xab", &named, &[0, 5], 2, 16), [25, 17]);
    assert_eq!(written(b"xab", &named, &[0, 5], 2, 17), [0, 17]);
}

#[test]
fn departures_that_the_check_refuses() {
    let padded = [&[0x80], &[0; 5][..]].concat();
    let trailing = [0; 6];
    let unused = [1, 0, 0, 0, 0, 0];
    let empty_run = [0, 0, 1, 0, 0, 0, 0, 0];
    for payload in [&padded[..], &trailing, &unused, &empty_run] {
        assert!(read(payload, b"", AMPLE).answer.is_ok());
        assert_eq!(check(payload, b"", AMPLE).answer, Err((19, 0)));
    }
}
