//! `rlc2 check`: one line for each file.

use crate::arguments::Request;
use crate::explain::explained;
use crate::format::counted;
use crate::input::{self, Source};
use crate::progress::with_progress;
use crate::style::Style;
use crate::{Outcome, complain, names_list};
use rlc2::Tables;
use std::io::{self, Write};

pub fn check(request: &Request, out: &mut impl Write) -> io::Result<Outcome> {
    let Some(names) = names_list(request) else {
        return Ok(Outcome::Failed);
    };
    let style = Style::of_standard_output();
    let mut worst = Outcome::Passed;
    for (i, source) in request.files.iter().enumerate() {
        let what = format!("{source}, {} of {}", i + 1, request.files.len());
        let (outcome, line) = with_progress(&what, || checked(source, &names, style));
        match outcome {
            Outcome::Failed => complain(&line),
            _ => writeln!(out, "{line}")?,
        }
        out.flush()?;
        worst = worst.max(outcome);
    }
    Ok(worst)
}

fn checked(source: &Source, names: &[u8], style: Style) -> (Outcome, String) {
    let payload = match input::payload(source) {
        Ok(payload) => payload,
        Err(e) => return (Outcome::Failed, format!("{source}: {e}")),
    };
    match Tables::new().house_check(&payload, names) {
        Ok(read) => {
            let passed = style.good("passed");
            let bytes = counted(read.consumed, "byte");
            let rows = counted(read.program.rows.len(), "row");
            let strings = counted(read.strings.len(), "string");
            (
                Outcome::Passed,
                format!("{source}: {passed}, {bytes}, {rows}, {strings}"),
            )
        }
        Err(refusal) => {
            let line = explained(&payload, names, refusal, style);
            (Outcome::Refused, format!("{source}: {line}"))
        }
    }
}
