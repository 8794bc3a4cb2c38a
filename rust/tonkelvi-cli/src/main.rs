//! The command tonkelvi.
use std::io::{self, IsTerminal, Write};
use std::path::{Path, PathBuf};
use std::process::ExitCode;
use tonkelvi_cli::arguments::{self, Arguments, Command};
use tonkelvi_cli::catalogue::{Catalogue, LANGUAGES};
use tonkelvi_cli::check::Check;
use tonkelvi_cli::message::Message;
use tonkelvi_cli::moves::{self, Way};
use tonkelvi_cli::rows::{self, Form, Sheet};
use tonkelvi_cli::walk::Note;
use tonkelvi_cli::{check, files, jobs};

fn main() -> ExitCode {
    let arguments = arguments::parse(std::env::args_os().skip(1));
    let done = arguments.and_then(|arguments| match arguments.command {
        Command::Help => print(arguments::HELP),
        Command::Version => print(concat!("tonkelvi ", env!("CARGO_PKG_VERSION"), "\n")),
        Command::Explain => explain(&arguments),
        Command::Sheet | Command::Check => over_files(&arguments),
        Command::Gather => move_headers(&arguments, Way::Gather),
        Command::Spread => move_headers(&arguments, Way::Spread),
    });
    done.unwrap_or_else(|sentence| {
        eprintln!("tonkelvi: {sentence}\nTry 'tonkelvi --help'.");
        ExitCode::from(2)
    })
}

fn print(text: &str) -> Result<ExitCode, String> {
    match io::stdout().write_all(text.as_bytes()) {
        Err(error) if error.kind() != io::ErrorKind::BrokenPipe => Err(format!("the output failed: {error}")),
        _ => Ok(ExitCode::SUCCESS),
    }
}

fn catalogue(arguments: &Arguments) -> Result<Catalogue, String> {
    let Some(language) = &arguments.language else { return Ok(Catalogue::of_environment()) };
    let known = LANGUAGES.map(|(name, _)| name).join(", ");
    Catalogue::of(language).ok_or(format!("there is no language {language}, only {known}"))
}

/// Prints what each message means and what to do.
fn explain(arguments: &Arguments) -> Result<ExitCode, String> {
    let catalogue = catalogue(arguments)?;
    if arguments.paths.is_empty() {
        return Err("explain needs a number".to_string());
    }
    for word in &arguments.paths {
        let word = word.to_string_lossy();
        let message = word.parse().ok().and_then(Message::from_number).ok_or(format!("there is no message {word}"))?;
        print(&format!("{}: {}\n{}\n", message.number(), catalogue.sentence(message), catalogue.advice(message)))?;
    }
    Ok(ExitCode::SUCCESS)
}

/// The paths that the command line and the lists name.
fn paths(arguments: &Arguments) -> Result<Vec<PathBuf>, String> {
    let mut paths = arguments.paths.clone();
    for list in &arguments.files_from {
        paths.extend(files::listed(list).map_err(|error| format!("{} can't be read: {error}", list.display()))?);
    }
    if paths.is_empty() && arguments.files_from.is_empty() {
        return Err("a path is missing".to_string());
    }
    Ok(files::collect(&paths))
}

/// A file's rows, a line for standard error, how many packets it has, and whether it is whole.
struct Answer {
    rows: String,
    line: Option<String>,
    packets: u64,
    whole: bool,
}

fn sheet_of(path: &Path, arguments: &Arguments, catalogue: &Catalogue) -> Answer {
    let name = path.to_string_lossy();
    let mut sheet = Sheet::new(&name, arguments.form, catalogue);
    sheet.read(std::fs::read(path));
    Answer { rows: sheet.rows, line: None, packets: sheet.packets, whole: sheet.whole }
}

fn check_of(path: &Path, arguments: &Arguments, catalogue: &Catalogue) -> Answer {
    let name = path.to_string_lossy();
    let file = std::fs::read(path).ok();
    let check = Check::of(&name, arguments.form, catalogue, file.as_deref());
    let others = check.packets - check.same - check.full_headers;
    let line = format!(
        "{name}: {} packets, {} written the same, {} full headers without contributions, {others} different",
        check.packets, check.same, check.full_headers
    );
    Answer { rows: check.text(), line: Some(line), packets: check.packets, whole: check.whole }
}

/// What has been done, for the progress line.
#[derive(Default)]
struct Done {
    files: usize,
    packets: u64,
    faulty: usize,
}

impl Done {
    /// Counts a file and says so on standard error.
    fn count(&mut self, answer: &Answer, total: usize, quiet: bool) {
        self.files += 1;
        self.packets += answer.packets;
        self.faulty += usize::from(!answer.whole);
        match &answer.line {
            _ if quiet => {}
            Some(line) => eprintln!("{line}"),
            None if io::stderr().is_terminal() => {
                let end = if self.files == total { "\n" } else { "" };
                eprint!("\r{} of {total} files, {} packets, not whole: {}{end}", self.files, self.packets, self.faulty);
            }
            None => {}
        }
    }
}

/// Moves the headers of a file, or prints a row that says why not.
fn move_headers(arguments: &Arguments, way: Way) -> Result<ExitCode, String> {
    let catalogue = catalogue(arguments)?;
    let [from, to] = &arguments.paths[..] else { return Err("a file to read and a file to write are needed".to_string()) };
    if !arguments.files_from.is_empty() {
        return Err("--files-from is for sheet and check".to_string());
    }
    if files::are_one(from, to) {
        return Err(format!("{} is the file that is read", to.display()));
    }
    let name = from.to_string_lossy();
    let unread = Note { tile: None, turn: None, offset: 0, message: Message::Unread };
    match std::fs::read(from).map_err(|_| unread).and_then(|file| moves::moved(&file, way)) {
        Err(note) => {
            let row = check::row(&name, arguments.form, &catalogue, note, None);
            let head = if arguments.form == Form::Csv { check::HEAD } else { "" };
            print(&format!("{head}{row}"))?;
            Ok(ExitCode::from(1))
        }
        Ok(moved) => {
            files::write_whole(to, &moved.file).map_err(|error| format!("{} can't be written: {error}", to.display()))?;
            if !arguments.quiet {
                eprintln!("{name}: {} packets, {} header bytes moved, {} tile-parts", moved.packets, moved.header_bytes, moved.tile_parts);
            }
            Ok(ExitCode::SUCCESS)
        }
    }
}

/// The first line of the output.
fn head(arguments: &Arguments) -> &'static str {
    match (arguments.form, arguments.command) {
        (Form::Json, _) => "",
        (Form::Csv, Command::Check) => check::HEAD,
        (Form::Csv, _) => rows::HEAD,
    }
}

/// Reads all files and prints their rows.
fn over_files(arguments: &Arguments) -> Result<ExitCode, String> {
    let catalogue = catalogue(arguments)?;
    let files = paths(arguments)?;
    let work = |path: &PathBuf| match arguments.command {
        Command::Check => check_of(path, arguments, &catalogue),
        _ => sheet_of(path, arguments, &catalogue),
    };
    let mut output = io::BufWriter::new(io::stdout());
    let mut done = Done::default();
    let printed = output.write_all(head(arguments).as_bytes()).and_then(|()| {
        jobs::run(&files, arguments.jobs, work, |answer| {
            done.count(&answer, files.len(), arguments.quiet);
            output.write_all(answer.rows.as_bytes())
        })
    });
    match printed.and_then(|()| output.flush()) {
        Err(error) if error.kind() != io::ErrorKind::BrokenPipe => Err(format!("the output failed: {error}")),
        _ => Ok(ExitCode::from(u8::from(done.faulty > 0))),
    }
}
