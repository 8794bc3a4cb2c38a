//! The command line.
use crate::rows::Form;
use std::ffi::OsString;
use std::path::PathBuf;

pub const HELP: &str = "\
tonkelvi: reads the packet headers of JPEG 2000 drawings with a proved engine

Usage:
  tonkelvi sheet [OPTIONS] PATH..   one row for each packet, as CSV
  tonkelvi check [OPTIONS] PATH..   writes each packet again and says where the bytes differ
  tonkelvi gather [OPTIONS] IN OUT  the file IN with its packet headers gathered in front (PPT), to OUT
  tonkelvi spread [OPTIONS] IN OUT  the file IN with gathered headers (PPT, PPM) in front of their bodies again, to OUT
  tonkelvi explain NUMBER           what a message means and what to do
  tonkelvi help | --help | --version

PATH is a file, or a folder that is searched for .j2k, .j2c, .jpc, .jp2 and .jpx files. OUT is written only where IN is whole and can be
moved; else there is a row with a message.

Options:
  --json             one JSON object a line in place of CSV
  --lang LANGUAGE    en, de or fr; without it the environment's language, or English
  --quiet            no progress on standard error
  --jobs N           reads N files at a time (1)
  --files-from FILE  takes further paths from FILE, one a line; - is standard input

Exit status: 0 all files are whole, 1 some are not or can't be moved, 2 the command line is wrong or the output failed.
";

#[derive(Clone, Copy, PartialEq, Eq, Debug)]
pub enum Command {
    Sheet,
    Check,
    Gather,
    Spread,
    Explain,
    Help,
    Version,
}

#[derive(Clone, PartialEq, Eq, Debug)]
pub struct Arguments {
    pub command: Command,
    pub paths: Vec<PathBuf>,
    pub files_from: Vec<PathBuf>,
    pub form: Form,
    pub language: Option<String>,
    pub quiet: bool,
    pub jobs: usize,
}

/// Reads the words after the program's name; the error is a sentence.
pub fn parse(words: impl IntoIterator<Item = OsString>) -> Result<Arguments, String> {
    let mut words = words.into_iter();
    let command = match words.next().map(|word| word.to_string_lossy().into_owned()).as_deref() {
        Some("sheet") => Command::Sheet,
        Some("check") => Command::Check,
        Some("gather") => Command::Gather,
        Some("spread") => Command::Spread,
        Some("explain") => Command::Explain,
        Some("help" | "--help" | "-h") => Command::Help,
        Some("--version" | "-V") => Command::Version,
        Some(other) => return Err(format!("there is no command {other}")),
        None => return Err("a command is missing".to_string()),
    };
    let mut arguments = Arguments { command, paths: vec![], files_from: vec![], form: Form::Csv, language: None, quiet: false, jobs: 1 };
    while let Some(word) = words.next() {
        if word == "--" {
            arguments.paths.extend(words.by_ref().map(PathBuf::from));
        } else {
            option(&mut arguments, word, &mut words)?;
        }
    }
    Ok(arguments)
}

/// Takes one option with its value, or a path.
fn option(arguments: &mut Arguments, word: OsString, rest: &mut dyn Iterator<Item = OsString>) -> Result<(), String> {
    let text = word.to_string_lossy().into_owned();
    let (name, given) = match text.split_once('=') {
        Some((name, value)) if text.starts_with("--") => (name, Some(OsString::from(value))),
        _ => (text.as_str(), None),
    };
    let mut value = || given.clone().or_else(|| rest.next()).ok_or(format!("{name} needs a value"));
    match name {
        "--json" => arguments.form = Form::Json,
        "--quiet" | "-q" => arguments.quiet = true,
        "--lang" => arguments.language = Some(value()?.to_string_lossy().into_owned()),
        "--jobs" | "-j" => arguments.jobs = jobs(&value()?.to_string_lossy())?,
        "--files-from" => arguments.files_from.push(value()?.into()),
        "--help" | "-h" => arguments.command = Command::Help,
        other if other.starts_with('-') && other != "-" => return Err(format!("there is no option {other}")),
        _ => arguments.paths.push(word.into()),
    }
    Ok(())
}

fn jobs(text: &str) -> Result<usize, String> {
    text.parse().ok().filter(|n| (1..=256).contains(n)).ok_or("--jobs takes a number from 1 to 256".to_string())
}

#[cfg(test)]
mod tests {
    use super::*;

    fn parsed(line: &str) -> Result<Arguments, String> {
        parse(line.split_whitespace().map(OsString::from))
    }

    #[test]
    fn options_in_any_place() {
        let arguments = parsed("sheet a --json --jobs=3 b --lang de -q --files-from - -- --c").unwrap();
        assert_eq!(arguments.paths, ["a", "b", "--c"].map(PathBuf::from));
        assert_eq!((arguments.form, arguments.jobs, arguments.quiet), (Form::Json, 3, true));
        assert_eq!((arguments.language.as_deref(), &arguments.files_from[..]), (Some("de"), &[PathBuf::from("-")][..]));
    }

    #[test]
    fn wrong_lines() {
        for line in ["", "shet a", "sheet --jsn a", "sheet --jobs 0 a", "sheet a --lang"] {
            assert!(parsed(line).is_err(), "{line}");
        }
        assert_eq!(parsed("sheet --help").unwrap().command, Command::Help);
    }
}
