//! What `rt ci` printed: the verdict.

pub struct Gate {
    verdict: Option<String>,
    time: Option<String>,
}

impl Gate {
    /// The line `N passed, M failed`, and that of the shell's `time`, where there is one.
    pub fn of(log: &str) -> Gate {
        let verdict = log.lines().rev().find(|line| is_verdict(line));
        Gate {
            verdict: verdict.map(str::to_string),
            time: log
                .lines()
                .find_map(|line| line.strip_prefix("real\t"))
                .map(str::to_string),
        }
    }

    pub fn summary(&self) -> String {
        let verdict = self.verdict.as_deref().unwrap_or("no verdict");
        match &self.time {
            Some(time) => format!("\n`rt ci`: {verdict}, in {time}.\n"),
            None => format!("\n`rt ci`: {verdict}.\n"),
        }
    }
}

fn is_verdict(line: &str) -> bool {
    line.ends_with(" failed") && line.contains(" passed, ")
}

#[cfg(test)]
mod tests {
    use super::*;

    #[test]
    fn a_log_has_a_verdict() {
        let gate =
            Gate::of("rt: slices proved\nfn x: proved\nrt: utf8 proved\n153 passed, 0 failed\n");
        assert_eq!(gate.summary(), "\n`rt ci`: 153 passed, 0 failed.\n");
        let timed = Gate::of("153 passed, 0 failed\n\nreal\t16m40.2s\nuser\t30m1.0s\n");
        assert_eq!(
            timed.summary(),
            "\n`rt ci`: 153 passed, 0 failed, in 16m40.2s.\n"
        );
    }
}
