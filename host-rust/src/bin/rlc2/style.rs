//! Colour, where standard output is a terminal and nobody asked for none.

use std::io::{self, IsTerminal};

#[derive(Debug, Clone, Copy)]
pub struct Style {
    coloured: bool,
}

impl Style {
    pub const PLAIN: Style = Style { coloured: false };

    pub fn of_standard_output() -> Style {
        let refused = std::env::var_os("NO_COLOR").is_some_and(|value| !value.is_empty());
        Style {
            coloured: io::stdout().is_terminal() && !refused,
        }
    }

    pub fn good(self, text: &str) -> String {
        self.shown("32", text)
    }

    pub fn bad(self, text: &str) -> String {
        self.shown("31", text)
    }

    fn shown(self, code: &str, text: &str) -> String {
        if self.coloured {
            format!("\x1b[{code}m{text}\x1b[0m")
        } else {
            text.to_string()
        }
    }
}
