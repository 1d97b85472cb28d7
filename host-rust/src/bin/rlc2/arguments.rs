//! The words of the command line.

use crate::help;
use crate::input::Source;
use std::ffi::{OsStr, OsString};

#[derive(Debug, PartialEq)]
pub enum Command {
    Help(&'static str),
    Check(Request),
    List(Request, ListOptions),
    Stat(Request),
}

/// The files to work on, and the file of the names list.
#[derive(Debug, Default, PartialEq)]
pub struct Request {
    pub files: Vec<Source>,
    pub names: Option<Source>,
}

#[derive(Debug, Clone, Copy, Default, PartialEq)]
pub struct ListOptions {
    pub spans: bool,
    pub lines: bool,
}

/// Options and files in any order; after `--` every word is a file.
#[derive(Default)]
struct Words {
    request: Request,
    options: ListOptions,
    help: bool,
}

/// The command, or what is wrong with the words.
pub fn parse(words: &[OsString]) -> Result<Command, String> {
    let Some((name, rest)) = words.split_first() else {
        return Err("no command is given".to_string());
    };
    let subcommand = match name.to_str() {
        Some("-h" | "--help" | "help") => return help_on(rest),
        Some("-V" | "--version") => return Ok(Command::Help(help::VERSION)),
        Some(subcommand @ ("check" | "list" | "stat")) => subcommand,
        _ => return Err(format!("there is no command {name:?}")),
    };
    let words = sorted(subcommand, rest)?;
    if words.help {
        return help_on(std::slice::from_ref(name));
    }
    refuse_counts(subcommand, &words.request)?;
    Ok(match subcommand {
        "check" => Command::Check(words.request),
        "list" => Command::List(words.request, words.options),
        _ => Command::Stat(words.request),
    })
}

fn help_on(words: &[OsString]) -> Result<Command, String> {
    let text = match words.first().map(|word| word.to_str()) {
        None => help::COMMAND,
        Some(Some("check")) => help::CHECK,
        Some(Some("list")) => help::LIST,
        Some(Some("stat")) => help::STAT,
        Some(_) => return Err(format!("there is no command {:?}", words[0])),
    };
    Ok(Command::Help(text))
}

fn sorted(subcommand: &str, words: &[OsString]) -> Result<Words, String> {
    let mut sorted = Words::default();
    let mut rest = words.iter();
    while let Some(word) = rest.next() {
        match word.to_str() {
            Some("--") => {
                let files = rest.by_ref().map(|file| Source::File(file.into()));
                sorted.request.files.extend(files);
            }
            Some("-h" | "--help") => sorted.help = true,
            Some("--names") => {
                let file = rest.next().ok_or("--names needs a file")?;
                set_names(&mut sorted.request, file)?;
            }
            Some("--spans") if subcommand == "list" => sorted.options.spans = true,
            Some("--lines") if subcommand == "list" => sorted.options.lines = true,
            Some(text) if text.starts_with("--names=") => {
                let file = OsStr::new(text.trim_start_matches("--names="));
                set_names(&mut sorted.request, file)?;
            }
            Some(text) if text.starts_with('-') && text != "-" => {
                return Err(format!("`rlc2 {subcommand}` has no option {text}"));
            }
            _ => sorted.request.files.push(Source::named(word)),
        }
    }
    Ok(sorted)
}

fn set_names(request: &mut Request, file: &OsStr) -> Result<(), String> {
    match request.names.replace(Source::named(file)) {
        None => Ok(()),
        Some(_) => Err("--names is given twice".to_string()),
    }
}

/// Standard input can be read once; a listing is of one file.
fn refuse_counts(subcommand: &str, request: &Request) -> Result<(), String> {
    let sources = request.files.iter().chain(&request.names);
    if sources.filter(|s| **s == Source::StandardInput).count() > 1 {
        return Err("standard input can be named only once".to_string());
    }
    match request.files.len() {
        0 => Err(format!("`rlc2 {subcommand}` needs a file")),
        2.. if subcommand != "check" => Err(format!("`rlc2 {subcommand}` takes one file")),
        _ => Ok(()),
    }
}

#[cfg(test)]
mod tests {
    use super::*;

    fn parsed(line: &str) -> Result<Command, String> {
        let words: Vec<_> = line.split_whitespace().map(OsString::from).collect();
        parse(&words)
    }

    #[test]
    fn options_and_files_stand_in_any_order() {
        let expected = Request {
            files: vec![Source::File("a".into()), Source::StandardInput],
            names: Some(Source::File("n".into())),
        };
        assert_eq!(parsed("check a --names n -"), Ok(Command::Check(expected)));
    }

    #[test]
    fn after_two_dashes_every_word_is_a_file() {
        let Ok(Command::Check(request)) = parsed("check -- --names -") else {
            panic!("a check");
        };
        let files = [Source::File("--names".into()), Source::File("-".into())];
        assert_eq!(request.files, files);
    }

    #[test]
    fn wrong_words_are_named() {
        for line in [
            "",
            "cheque a",
            "check",
            "check --spans a",
            "check a --names",
            "check - -",
            "check a --names x --names=y",
            "list a b",
            "help me",
        ] {
            assert!(parsed(line).is_err(), "{line}");
        }
    }

    #[test]
    fn help_wins_over_missing_files() {
        assert_eq!(parsed("list --help"), Ok(Command::Help(help::LIST)));
        assert_eq!(parsed("help stat"), Ok(Command::Help(help::STAT)));
        assert_eq!(parsed("-h"), Ok(Command::Help(help::COMMAND)));
    }
}
