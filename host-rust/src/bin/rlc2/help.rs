//! What `--help` prints.

pub const VERSION: &str = concat!("rlc2 ", env!("CARGO_PKG_VERSION"), "\n");

pub const COMMAND: &str = "\
Checks, lists and counts RLC2 payloads, the acts of a surtitle player.

Usage: rlc2 COMMAND [OPTIONS] FILE...

Commands:
  check   say of each file whether it passes the house check, or why and where it is refused
  list    list what a payload holds, one row a line
  stat    count what a payload holds

`rlc2 COMMAND --help` says more. `-` is standard input.
Exit status: 0 passed, 1 refused, 2 wrong usage or a file that cannot be read.
";

pub const CHECK: &str = "\
Says of each file whether it passes the house check: whether it is, byte for byte, what the writer
writes for the program that it holds. Prints one line for each file: passed, or the refusal's number,
its place, what it means, and the bytes there in brackets between their neighbours.

Usage: rlc2 check [--names FILE] FILE...

  --names FILE   the native functions that a payload may name, one a line (none without it)
  -h, --help     this text

`-` is standard input. A file that cannot be read is named on standard error, and the others are checked.
Exit status: 0 all passed, 1 some refused, 2 wrong usage or some file cannot be read.
";

pub const LIST: &str = "\
Lists what a payload holds: its rows by number, indented by the rows they stand in, with strings as text.

Usage: rlc2 list [--spans] [--lines] [--names FILE] FILE

  --spans        after each chunk, which code bytes come from which part of the source text
  --lines        at the end the line index; with --spans, source places as line:column
  --names FILE   the native functions that a payload may name, one a line (none without it)
  -h, --help     this text

`-` is standard input. A payload that reads is listed whether or not it is house-written.
Exit status: 0 listed, 1 refused, 2 wrong usage or the file cannot be read.
";

pub const STAT: &str = "\
Counts what a payload holds: rows by tag, strings, code, spans, the line index, and the tables it needs.

Usage: rlc2 stat [--names FILE] FILE

  --names FILE   the native functions that a payload may name, one a line (none without it)
  -h, --help     this text

`-` is standard input. A payload that reads is counted whether or not it is house-written.
Exit status: 0 counted, 1 refused, 2 wrong usage or the file cannot be read.
";
