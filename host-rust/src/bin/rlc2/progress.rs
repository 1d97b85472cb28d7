//! A line on standard error while a call works for long, where standard error is a terminal.

use std::io::{self, IsTerminal, Write};
use std::sync::mpsc::{self, RecvTimeoutError};
use std::thread;
use std::time::{Duration, Instant};

/// Nothing is shown before this.
const PATIENCE: Duration = Duration::from_secs(1);
const STEP: Duration = Duration::from_millis(500);

/// Does the work; meanwhile says what it is and for how long it has been going on.
pub fn with_progress<T>(what: &str, work: impl FnOnce() -> T) -> T {
    if !io::stderr().is_terminal() {
        return work();
    }
    let (done, waiting) = mpsc::channel::<()>();
    thread::scope(|scope| {
        scope.spawn(move || say_until(&waiting, what));
        let result = work();
        drop(done);
        result
    })
}

/// Ends when the other side of the channel is dropped.
fn say_until(done: &mpsc::Receiver<()>, what: &str) {
    let begun = Instant::now();
    let mut pause = PATIENCE;
    let mut shown = false;
    while done.recv_timeout(pause) == Err(RecvTimeoutError::Timeout) {
        pause = STEP;
        shown = true;
        say(&format!("\r\x1b[K{what}, {} s", begun.elapsed().as_secs()));
    }
    if shown {
        say("\r\x1b[K");
    }
}

fn say(text: &str) {
    // Work goes on where standard error is closed.
    let _ = io::stderr().write_all(text.as_bytes());
}
