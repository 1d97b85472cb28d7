//! Writes the sample payloads of `samples/`, and the cue sheets that they were made from: the same bytes each time.

use std::path::Path;
use std::process::ExitCode;
use std::{env, fs, io};

/// The instructions of rl that the samples use; an operand has two bytes, the low one first.
const CONST: u8 = 0;
const POP: u8 = 16;
const RETURN: u8 = 17;
const CALL: u8 = 23;

const ACT_SHEET: &str = "\
The Magic Flute, first act
Help me! Help me, or I am lost!
The serpent is upon me.
Die, monster, by our hand!
Triumph! The heroic deed is done.
He is freed by our courage.
What a gentle, handsome youth!
I shall stay and guard him.
No, no! You two go: I'll stay here.
Then all of us must leave him.
The birdcatcher am I, ever merry, hopsasa!
I'm known to old and young throughout the land.
This portrait is enchantingly beautiful.
Dies Bildnis ist bezaubernd schön.
";

const EVENING_SHEET: &str = "\
house lights at half
greet the house in its language
overture: no titles
act one: He is freed by our courage.
act one, chorus: Triumph! The heroic deed is done.
interval, 25 minutes
later: the bell, three times
";

enum Value {
    Null,
    Bool(bool),
    Int(i64),
    Float(f64),
    Str(&'static str),
    Function(Function),
    Arr(Vec<Value>),
    Map(Vec<(Value, Value)>),
    Record(&'static str, Vec<(&'static str, Value)>),
    Tag(&'static str, &'static str),
    Closure(Function, u64, Vec<Value>),
}

struct Function {
    name: &'static str,
    arity: u64,
    chunk: Chunk,
}

/// Code, one span a code byte, and constants.
#[derive(Default)]
struct Chunk {
    code: Vec<u8>,
    spans: Vec<(usize, usize)>,
    constants: Vec<Value>,
}

/// The name of a cue sheet, and its text.
struct Sheet(&'static str, &'static str);

impl Sheet {
    /// Where a line stands in the sheet.
    fn span(&self, line: &str) -> (usize, usize) {
        let start = self.1.find(line).expect("a line of the sheet");
        (start, start + line.len())
    }

    fn starts(&self) -> Vec<i64> {
        let ends = self.1.bytes().enumerate().filter(|(_, b)| *b == b'\n');
        let after = ends.map(|(i, _)| i as i64 + 1);
        [0].into_iter().chain(after).collect()
    }
}

impl Chunk {
    fn new(constants: Vec<Value>) -> Chunk {
        Chunk {
            constants,
            ..Chunk::default()
        }
    }

    fn then(mut self, code: &[u8], span: (usize, usize)) -> Chunk {
        self.code.extend(code);
        self.spans.extend(code.iter().map(|_| span));
        self
    }

    /// Takes a constant, calls it where it is a function, and drops what is left.
    fn cue(self, constant: u8, span: (usize, usize)) -> Chunk {
        let call: &[u8] = match self.constants[usize::from(constant)] {
            Value::Function(_) | Value::Closure(..) => &[CALL, 0, 0],
            _ => &[],
        };
        self.then(&[CONST, constant, 0], span)
            .then(call, span)
            .then(&[POP], span)
    }

    fn end(self, span: (usize, usize)) -> Chunk {
        self.then(&[RETURN], span)
    }
}

/// Payload bytes: varints, the pool, runs of equal spans, values.
#[derive(Default)]
struct Writer {
    pool: Vec<&'static str>,
    bytes: Vec<u8>,
}

impl Writer {
    fn payload(chunk: &Chunk, sheet: Option<&Sheet>) -> Vec<u8> {
        let mut writer = Writer::default();
        writer.gather_all(&chunk.constants);
        sheet.into_iter().for_each(|sheet| writer.gather(sheet.0));
        writer.put_pool();
        writer.put_chunk(chunk);
        writer.put_line_index(sheet);
        writer.bytes
    }

    /// Each string once, where it comes first.
    fn gather(&mut self, string: &'static str) {
        if !self.pool.contains(&string) {
            self.pool.push(string);
        }
    }

    fn gather_all(&mut self, values: &[Value]) {
        values.iter().for_each(|value| self.gather_value(value));
    }

    /// All strings but the names of records.
    fn gather_value(&mut self, value: &Value) {
        match value {
            Value::Null | Value::Bool(_) | Value::Int(_) | Value::Float(_) => (),
            Value::Str(text) => self.gather(text),
            Value::Tag(name, variant) => {
                self.gather(name);
                self.gather(variant);
            }
            Value::Function(function) => self.gather_function(function),
            Value::Closure(template, _, captured) => {
                self.gather_function(template);
                self.gather_all(captured);
            }
            Value::Arr(values) => self.gather_all(values),
            Value::Map(entries) => entries.iter().for_each(|(key, value)| {
                self.gather_value(key);
                self.gather_value(value);
            }),
            Value::Record(_, fields) => fields.iter().for_each(|(name, value)| {
                self.gather(name);
                self.gather_value(value);
            }),
        }
    }

    fn gather_function(&mut self, function: &Function) {
        self.gather(function.name);
        self.gather_all(&function.chunk.constants);
    }

    fn put_number(&mut self, number: u64) {
        let mut rest = number;
        while rest > 127 {
            self.bytes.push(rest as u8 | 128);
            rest >>= 7;
        }
        self.bytes.push(rest as u8);
    }

    fn put_count(&mut self, count: usize) {
        self.put_number(count as u64);
    }

    fn put_signed(&mut self, number: i64) {
        self.put_number(((number << 1) ^ (number >> 63)) as u64);
    }

    fn put_index(&mut self, string: &str) {
        let index = self.pool.iter().position(|pooled| *pooled == string);
        self.put_count(index.expect("a gathered string"));
    }

    fn put_pool(&mut self) {
        self.put_count(self.pool.len());
        for string in self.pool.clone() {
            self.put_count(string.len());
            self.bytes.extend(string.bytes());
        }
    }

    fn put_chunk(&mut self, chunk: &Chunk) {
        self.put_count(chunk.code.len());
        self.bytes.extend(&chunk.code);
        let runs: Vec<_> = chunk.spans.chunk_by(|a, b| a == b).collect();
        self.put_count(runs.len());
        let (mut start, mut end) = (0, 0);
        for run in runs {
            let next = (run[0].0 as i64, run[0].1 as i64);
            self.put_signed(next.0 - start);
            self.put_signed(next.1 - end);
            self.put_count(run.len());
            (start, end) = next;
        }
        self.put_count(chunk.constants.len());
        chunk.constants.iter().for_each(|value| self.put(value));
    }

    fn put(&mut self, value: &Value) {
        match value {
            Value::Null => self.bytes.push(0),
            Value::Int(number) => {
                self.bytes.push(1);
                self.put_signed(*number);
            }
            Value::Float(number) => {
                self.bytes.push(2);
                self.bytes.extend(number.to_le_bytes());
            }
            Value::Bool(truth) => self.bytes.extend([3, u8::from(*truth)]),
            Value::Str(text) => {
                self.bytes.push(6);
                self.put_index(text);
            }
            Value::Tag(name, variant) => {
                self.bytes.push(17);
                self.put_index(name);
                self.put_index(variant);
            }
            Value::Function(function) => self.put_function(function),
            _ => self.put_compound(value),
        }
    }

    fn put_function(&mut self, function: &Function) {
        self.bytes.push(7);
        self.put_index(function.name);
        self.put_number(function.arity);
        self.put_chunk(&function.chunk);
    }

    fn put_compound(&mut self, value: &Value) {
        match value {
            Value::Arr(values) => {
                self.bytes.push(12);
                self.put_count(values.len());
                values.iter().for_each(|value| self.put(value));
            }
            Value::Map(entries) => {
                self.bytes.push(15);
                self.put_count(entries.len());
                entries.iter().for_each(|(key, value)| {
                    self.put(key);
                    self.put(value);
                });
            }
            Value::Record(name, fields) => {
                self.bytes.push(16);
                self.put_index(name);
                self.put_count(fields.len());
                fields.iter().for_each(|(name, value)| {
                    self.put_index(name);
                    self.put(value);
                });
            }
            Value::Closure(template, capture_start, captured) => {
                self.bytes.push(18);
                self.put_function(template);
                self.put_number(*capture_start);
                self.put_count(captured.len());
                captured.iter().for_each(|value| self.put(value));
            }
            _ => unreachable!("a value of one row"),
        }
    }

    fn put_line_index(&mut self, sheet: Option<&Sheet>) {
        self.bytes.push(u8::from(sheet.is_some()));
        let Some(sheet) = sheet else { return };
        self.put_index(sheet.0);
        let starts = sheet.starts();
        self.put_count(starts.len());
        let mut before = 0;
        for start in starts {
            self.put_signed(start - before);
            before = start;
        }
    }
}

/// One title.
fn title() -> Vec<u8> {
    let text = "Good evening";
    let chunk = Chunk::new(vec![Value::Str(text)]);
    Writer::payload(&chunk.cue(0, (0, text.len())), None)
}

/// A title for each line of the sheet after the heading.
fn act() -> Vec<u8> {
    let sheet = Sheet("act.txt", ACT_SHEET);
    let lines: Vec<_> = ACT_SHEET.lines().skip(1).collect();
    let titles = lines.iter().map(|line| Value::Str(line)).collect();
    let mut chunk = Chunk::new(titles);
    for (i, line) in lines.iter().enumerate() {
        chunk = chunk.cue(i as u8, sheet.span(line));
    }
    let end = (ACT_SHEET.len(), ACT_SHEET.len());
    Writer::payload(&chunk.end(end), None)
}

/// Functions in functions, a record, a map, an array, a closure, and the sheet's lines.
fn evening() -> Vec<u8> {
    let sheet = Sheet("evening.txt", EVENING_SHEET);
    let at = |line| sheet.span(line);
    let chunk = Chunk::new(vec![
        Value::Str("Cue"),
        lights(),
        greetings(),
        function(
            "overture",
            0,
            Chunk::new(vec![Value::Null]).cue(0, at("overture: no titles")),
        ),
        act_one(&sheet),
        Value::Arr(vec![
            Value::Str("interval"),
            Value::Int(25),
            Value::Bool(true),
        ]),
        later(&sheet),
    ]);
    let chunk = chunk
        .cue(1, at("house lights at half"))
        .cue(2, at("greet the house in its language"))
        .cue(3, at("overture: no titles"))
        .cue(4, at("act one: He is freed by our courage."))
        .cue(5, at("interval, 25 minutes"))
        .cue(6, at("later: the bell, three times"))
        .end((EVENING_SHEET.len(), EVENING_SHEET.len()));
    Writer::payload(&chunk, Some(&sheet))
}

fn function(name: &'static str, arity: u64, chunk: Chunk) -> Value {
    Value::Function(Function { name, arity, chunk })
}

fn lights() -> Value {
    let fields = vec![
        ("number", Value::Int(-1)),
        ("text", Value::Null),
        ("level", Value::Float(0.5)),
        ("side", Value::Tag("Side", "House")),
    ];
    Value::Record("Cue", fields)
}

fn greetings() -> Value {
    let greeting = |language, text| (Value::Str(language), Value::Str(text));
    Value::Map(vec![
        greeting("de", "Guten Abend, schön, dass Sie da sind"),
        greeting("en", "Good evening"),
        greeting("it", "Buona sera"),
    ])
}

/// The chorus is a function among the act's constants.
fn act_one(sheet: &Sheet) -> Value {
    let (alone, all) = (
        "act one: He is freed by our courage.",
        "act one, chorus: Triumph! The heroic deed is done.",
    );
    let words = Chunk::new(vec![Value::Str("Triumph! The heroic deed is done.")]);
    let chorus = function("chorus", 2, words.cue(0, sheet.span(all)));
    let titles = Chunk::new(vec![Value::Str("He is freed by our courage."), chorus]);
    let chunk = titles.cue(0, sheet.span(alone)).cue(1, sheet.span(all));
    function("act_one", 0, chunk.end(sheet.span(all)))
}

fn later(sheet: &Sheet) -> Value {
    let bell = Chunk::new(vec![Value::Str("The bell rings")]);
    let template = Function {
        name: "bell",
        arity: 0,
        chunk: bell.cue(0, sheet.span("later: the bell, three times")),
    };
    Value::Closure(template, 0, vec![Value::Int(3)])
}

/// The act, with the second byte of its ö lost to a space.
fn damaged() -> Vec<u8> {
    let mut bytes = act();
    let place = bytes.windows(2).position(|pair| pair == "ö".as_bytes());
    bytes[place.expect("a title with an ö") + 1] = b' ';
    bytes
}

fn write_all(folder: &Path) -> io::Result<()> {
    fs::create_dir_all(folder)?;
    let write = |name: &str, bytes: &[u8]| fs::write(folder.join(name), bytes);
    write("title.rlc2", &title())?;
    write("act.txt", ACT_SHEET.as_bytes())?;
    write("act.rlc2", &act())?;
    write("evening.txt", EVENING_SHEET.as_bytes())?;
    write("evening.rlc2", &evening())?;
    write("damaged.rlc2", &damaged())
}

fn main() -> ExitCode {
    let Some(folder) = env::args_os().nth(1) else {
        eprintln!("usage: samples FOLDER");
        return ExitCode::from(2);
    };
    match write_all(Path::new(&folder)) {
        Ok(()) => ExitCode::SUCCESS,
        Err(e) => {
            eprintln!("samples: {}: {e}", Path::new(&folder).display());
            ExitCode::FAILURE
        }
    }
}
