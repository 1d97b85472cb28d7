//! The calls on sample payloads, on damaged copies of them, and at the limits of what is lent.

use rlc2::{LineIndex, Loan, Program, Refusal, RefusalNumber, Sizes, Tables};

const SAMPLES: [&[u8]; 3] = [
    include_bytes!("../../samples/title.rlc2"),
    include_bytes!("../../samples/act.rlc2"),
    include_bytes!("../../samples/evening.rlc2"),
];
const DAMAGED: &[u8] = include_bytes!("../../samples/damaged.rlc2");
const EVENING_SHEET: &[u8] = include_bytes!("../../samples/evening.txt");

/// A chunk without code, with one constant.
const ONE_NULL: &[u8] = &[0, 0, 0, 1, 0, 0];

fn refusal(number: u64, place: usize) -> Refusal {
    Refusal { number, place }
}

fn refused_with(payload: &[u8], sizes: Sizes) -> u64 {
    let mut tables = Tables::with_sizes(sizes);
    let refused = rlc2::deserialize(payload, b"", tables.loan()).expect_err("a full table");
    let Loan {
        rows,
        spans,
        starts,
        strings,
    } = tables.loan();
    let words = [
        rows.as_flattened(),
        spans.as_flattened(),
        strings.as_flattened(),
    ];
    assert!(words.concat().iter().all(|word| *word == 0));
    assert!(starts.iter().all(|start| *start == 0));
    refused.number
}

#[test]
fn samples_are_house_written_and_written_back() {
    for payload in SAMPLES {
        let mut tables = Tables::new();
        let read = tables.house_check(payload, b"").expect("house-written");
        assert_eq!(read.consumed, payload.len());
        assert_eq!(read.program.to_payload().expect("sound"), payload);
        assert_eq!(rlc2::house_check_own_tables(payload, b""), Ok(()));
    }
}

#[test]
fn exact_tables_hold_a_payload_and_shorter_ones_are_full() {
    let payload = SAMPLES[2];
    let mut ample = Tables::for_payload(payload);
    let read = rlc2::deserialize(payload, b"", ample.loan()).expect("reads");
    let exact = read.sizes();
    let mut tables = Tables::with_sizes(exact);
    assert_eq!(rlc2::deserialize(payload, b"", tables.loan()), Ok(read));
    let Sizes {
        rows,
        spans,
        starts,
        strings,
    } = exact;
    let with = |change: fn(&mut Sizes)| {
        let mut sizes = exact;
        change(&mut sizes);
        refused_with(payload, sizes)
    };
    assert!(rows > 0 && spans > 0 && starts > 0 && strings > 0);
    assert_eq!(with(|sizes| sizes.strings -= 1), 21);
    assert_eq!(with(|sizes| sizes.rows -= 1), 22);
    assert_eq!(with(|sizes| sizes.spans -= 1), 23);
    assert_eq!(with(|sizes| sizes.starts -= 1), 24);
}

#[test]
fn what_the_tables_held_before_is_gone() {
    let payload = SAMPLES[1];
    let mut tables = Tables::for_payload(payload);
    let loan = tables.loan();
    loan.rows.fill([7; 5]);
    loan.spans.fill([7; 2]);
    loan.starts.fill(7);
    loan.strings.fill([7; 2]);
    let used = rlc2::deserialize(payload, b"", tables.loan()).map(|read| read.sizes());
    let used = used.expect("reads");
    let loan = tables.loan();
    assert!(
        loan.rows[used.rows..]
            .as_flattened()
            .iter()
            .all(|w| *w == 0)
    );
    assert!(
        loan.spans[used.spans..]
            .as_flattened()
            .iter()
            .all(|w| *w == 0)
    );
    assert!(loan.starts.iter().all(|start| *start == 0));
    assert!(
        loan.strings[used.strings..]
            .as_flattened()
            .iter()
            .all(|w| *w == 0)
    );
}

/// Every payload gets the answer of sufficient tables, however the growing ones began.
#[test]
fn growing_tables_answer_as_sufficient_ones() {
    let payload = SAMPLES[2];
    let cut = (0..payload.len()).map(|end| payload[..end].to_vec());
    let changed = (0..payload.len()).flat_map(|at| {
        [0x00, 0x01, 0x7F, 0x80, 0xFF].map(|byte| {
            let mut copy = payload.to_vec();
            copy[at] = byte;
            copy
        })
    });
    for damaged in cut.chain(changed) {
        let mut ample = Tables::for_payload(&damaged);
        let expected = rlc2::deserialize(&damaged, b"", ample.loan());
        let mut growing = Tables::new();
        assert_eq!(growing.deserialize(&damaged, b""), expected);
        let mut checked = Tables::new();
        match checked.house_check(&damaged, b"") {
            Ok(read) => assert_eq!(Ok(read), expected),
            Err(Refusal { number: 19, .. }) => assert!(expected.is_ok()),
            Err(refusal) => assert_eq!(Err(refusal), expected),
        }
    }
}

#[test]
fn tables_grow_from_nothing() {
    let mut payload = vec![0, 0, 0];
    payload.extend([0xA0, 0x8D, 0x06]); // 100,000 constants
    payload.extend(vec![0; 100_000]);
    payload.push(0);
    let mut tables = Tables::new();
    let read = tables.deserialize(&payload, b"").expect("reads");
    assert_eq!(read.program.rows.len(), 100_001);
    assert_eq!(read.consumed, payload.len());
}

#[test]
fn a_damaged_text_is_refused_where_its_body_begins() {
    let refused = Tables::new().house_check(DAMAGED, b"").unwrap_err();
    assert_eq!(refused.number, 3);
    let body = &DAMAGED[refused.place..];
    assert!(body.starts_with("Dies Bildnis".as_bytes()));
    let number = rlc2::house_check_own_tables(DAMAGED, b"");
    assert_eq!(number, Err(RefusalNumber(3)));
}

#[test]
fn natives_are_looked_for_in_the_names_list() {
    let payload = [1, 4, b's', b'h', b'o', b'w', 0, 0, 1, 8, 0, 0];
    let number = |names: &[u8]| Tables::new().house_check(&payload, names).map(|_| ());
    assert_eq!(number(b"hide\nshow\n"), Ok(()));
    assert_eq!(number(b"hide\nshow"), Err(refusal(14, 10)));
    assert_eq!(number(b""), Err(refusal(14, 10)));
}

#[test]
fn a_padded_number_or_a_byte_more_is_not_house_written() {
    assert!(Tables::new().house_check(ONE_NULL, b"").is_ok());
    for payload in [&[0x80, 0, 0, 0, 1, 0, 0][..], &[0, 0, 0, 1, 0, 0, 0]] {
        assert!(Tables::new().deserialize(payload, b"").is_ok());
        let check = Tables::new().house_check(payload, b"").map(|_| ());
        assert_eq!(check, Err(refusal(19, 0)));
        let small = rlc2::house_check_own_tables(payload, b"");
        assert_eq!(small, Err(RefusalNumber(19)));
    }
}

#[test]
fn what_is_longer_than_the_limit_is_refused() {
    let long = vec![0; rlc2::BYTE_LIMIT + 1];
    let read = Tables::new().deserialize(&long, b"").map(|_| ());
    assert_eq!(read, Err(refusal(16, 0)));
    let check = Tables::new().house_check(&long, b"").map(|_| ());
    assert_eq!(check, Err(refusal(16, 0)));
    let lines = rlc2::line_starts(&long, &mut [0; 4]).map(|_| ());
    assert_eq!(lines, Err(refusal(16, 0)));
}

#[test]
fn the_own_tables_end_where_it_is_said() {
    let Sizes { rows, .. } = Sizes::OWN_TABLES;
    let nulls = |count: usize| {
        let low = (count % 128) as u8 | 0x80;
        let mut payload = vec![0, 0, 0, low, (count / 128) as u8];
        payload.extend(vec![0; count]);
        payload.push(0);
        payload
    };
    assert_eq!(rlc2::house_check_own_tables(&nulls(rows - 1), b""), Ok(()));
    let full = rlc2::house_check_own_tables(&nulls(rows), b"");
    assert_eq!(full, Err(RefusalNumber(22)));
    assert!(Tables::new().house_check(&nulls(rows), b"").is_ok());
}

#[test]
fn a_write_names_the_row_or_the_length() {
    let program = |rows| Program {
        store: b"Cue",
        rows,
        spans: &[],
        line_index: None,
    };
    let unknown_tag = [[32, 0, 0, 1, 0], [27, 0, 0, 0, 0]];
    assert_eq!(program(&unknown_tag).to_payload(), Err(refusal(17, 1)));
    let row_missing = [[32, 0, 0, 1, 0]];
    assert_eq!(program(&row_missing).to_payload(), Err(refusal(17, 1)));
    let record_alone = [[32, 0, 0, 1, 0], [16, 0, 3, 0, 0]];
    assert_eq!(program(&record_alone).to_payload(), Err(refusal(18, 1)));
    let sound = [[32, 0, 0, 1, 0], [6, 0, 3, 0, 0]];
    assert!(program(&sound).to_payload().is_ok());
    let mut out = [9; 8];
    let short = rlc2::serialize(&program(&sound), &mut [[0; 2]], &mut out).map(|_| ());
    assert_eq!(short, Err(refusal(25, 11)));
    assert_eq!(out, [9; 8]);
    let no_pool = rlc2::serialize(&program(&sound), &mut [], &mut [0; 20]).map(|_| ());
    assert_eq!(no_pool, Err(refusal(21, 0)));
}

#[test]
fn a_program_of_ones_own_with_lines_is_written_and_read() {
    let program = Program {
        store: b"act.txt!\x11",
        rows: &[[32, 8, 1, 0, 0]],
        spans: &[[3, 5]],
        line_index: Some(LineIndex {
            name: [0, 7],
            starts: &[0, 4, 2],
        }),
    };
    let payload = program.to_payload().expect("sound");
    let mut tables = Tables::new();
    let read = tables.house_check(&payload, b"").expect("house-written");
    let index = read.program.line_index.expect("a line index");
    assert_eq!(read.program.text(index.name), "act.txt");
    assert_eq!(index.starts, [0, 4, 2]);
    assert_eq!(read.program.spans, program.spans);
}

#[test]
fn the_evenings_line_index_is_that_of_its_sheet() {
    let mut starts = vec![0; rlc2::line_count(EVENING_SHEET)];
    let starts = rlc2::line_starts(EVENING_SHEET, &mut starts).expect("enough starts");
    let mut tables = Tables::new();
    let read = tables.deserialize(SAMPLES[2], b"").expect("reads");
    let index = read.program.line_index.expect("a line index");
    assert_eq!(index.starts, starts);
    let at = rlc2::line_col(starts, 21).expect("rising");
    assert_eq!((at.line, at.column), (2, 1));
    assert_eq!(rlc2::line_col(&[0, 5, 5], 1), Err(refusal(20, 2)));
    assert_eq!(
        rlc2::line_starts(b"a\nb\n", &mut [0; 2]).map(|_| ()),
        Err(refusal(24, 3))
    );
}

#[test]
fn numbers_end_or_are_refused() {
    assert_eq!(rlc2::uvarint(&[]), Err(refusal(1, 0)));
    assert_eq!(rlc2::uvarint(&[0xFF; 9]), Err(refusal(1, 0)));
    assert_eq!(rlc2::uvarint(&[0xFF; 10]), Err(refusal(2, 0)));
    assert_eq!(rlc2::uvarint(&[0xFF; 11]), Err(refusal(2, 0)));
    let mut greatest = [0xFF; 10];
    greatest[9] = 1;
    let read = rlc2::uvarint(&greatest).expect("a number");
    assert_eq!((read.number, read.length), (u64::MAX, 10));
}
