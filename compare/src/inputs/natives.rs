//! Payloads of many natives, with names lists that are long enough for hints.

use crate::random::Random;

/// A payload, a names list, and the list's names.
pub struct Natives {
    pub payload: Vec<u8>,
    pub list: Vec<u8>,
    pub names: Vec<String>,
}

/// The pool has names of the list, some of them twice, and strings beside them; in half of the payloads, every native is listed.
pub fn natives(random: &mut Random) -> Natives {
    let count = 100 + random.below(900);
    let names: Vec<String> = (0..count).map(|_| name(random)).collect();
    let mut list = names.join("\n").into_bytes();
    list.push(b'\n');
    list.extend(random.pick(&[&b""[..], b"n", b"name that has no end"]));
    let all_listed = random.once_in(2);
    let strings: Vec<String> = (0..1 + random.below(2 * count))
        .map(|_| {
            let listed = names[random.below(count)].clone();
            match all_listed || !random.once_in(1000) {
                true => listed,
                false => beside(random, listed),
            }
        })
        .collect();
    let payload = payload(random, &strings);
    Natives {
        payload,
        list,
        names,
    }
}

/// A name with a number below 300, so that a list has some twice, and some are the begin or the end of others.
fn name(random: &mut Random) -> String {
    let front = random.pick(&[
        "",
        "n",
        "cue",
        "stage::cue",
        "a name of more than sixteen bytes ",
    ]);
    format!("{front}{}", random.below(300))
}

/// A string that is nearly a name.
fn beside(random: &mut Random, mut name: String) -> String {
    match random.below(4) {
        0 => name.push('0'),
        1 => name.insert(0, 'x'),
        2 => drop(name.pop()),
        _ => name.clear(),
    }
    name
}

/// The pool, a chunk without code, its natives and some other strings as constants, and no line index.
fn payload(random: &mut Random, strings: &[String]) -> Vec<u8> {
    let mut bytes = Vec::new();
    put_number(&mut bytes, strings.len());
    for string in strings {
        put_number(&mut bytes, string.len());
        bytes.extend(string.as_bytes());
    }
    bytes.extend([0, 0]);
    let rows = 1 + random.below(1500);
    put_number(&mut bytes, rows);
    let odds = random.pick(&[2, 10, 100]);
    for _ in 0..rows {
        bytes.push(if random.once_in(odds) { 6 } else { 8 });
        put_number(&mut bytes, random.below(strings.len()));
    }
    bytes.push(0);
    bytes
}

fn put_number(bytes: &mut Vec<u8>, number: usize) {
    original::write_uvarint(number as u64, bytes);
}
