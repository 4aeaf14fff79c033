//! The command line.

use reference::book::{Book, Refusal};
use reference::comparison_cases;
use reference::deepest::{self, Link};
use reference::edges;
use reference::format_cases;
use reference::notation;
use reference::run::on_deep_stack;
use reference::run_cases;
use reference::run_list::{explain_list, next_day, run_list};
use std::env;
use std::ffi::OsString;
use std::fs;
use std::io::{self, Read, Write};
use std::path::Path;
use std::process::ExitCode;

const USAGE: &str = "usage: reference run|explain|next|assemble|list [FILE]
       reference cases|comparisons|deepest|edges FOLDER
  run          run the book in FILE, or in standard input, and list what it does
  explain      do the same, and name the place for which a test on labels failed
  next         run the book and write the one that it leaves for the next day
  assemble     write the book that a text describes
  list         write the text that describes a book
  cases        write cases for readers, writers and runners of books to FOLDER/stdin,
               and the lines that these cases have to give to FOLDER/stdout
  comparisons  write pairs of sets of places to FOLDER/stdin, and the lines that
               comparing them has to give to FOLDER/stdout
  deepest      write the books that nest deepest to FOLDER
  edges        write books at the edges of what `run` allows to FOLDER";

/// Exit code for a text with a fault and for a book that is refused. Only `run`
/// and `explain` list a refused book, or one that stops, with exit code 0.
const BAD_INPUT: u8 = 1;

/// Exit code for a command line that makes no sense or a file that cannot be
/// read.
const TROUBLE: u8 = 2;

/// What to say on standard error, and the exit code.
struct Failure {
    message: String,
    code: u8,
}

impl From<String> for Failure {
    fn from(message: String) -> Failure {
        Failure {
            message,
            code: TROUBLE,
        }
    }
}

fn bad_input(message: String) -> Failure {
    Failure {
        message,
        code: BAD_INPUT,
    }
}

fn refused(refusal: Refusal) -> Failure {
    bad_input(format!("refused {} {}", refusal.number, refusal.index))
}

fn main() -> ExitCode {
    let arguments: Vec<OsString> = env::args_os().skip(1).collect();
    if let Err(failure) = dispatch(&arguments) {
        eprintln!("{}", failure.message);
        return ExitCode::from(failure.code);
    }
    ExitCode::SUCCESS
}

fn dispatch(arguments: &[OsString]) -> Result<(), Failure> {
    let (command, file) = match arguments {
        [command] => (command, None),
        [command, file] => (command, Some(Path::new(file))),
        _ => return Err(USAGE.to_string().into()),
    };
    match command.to_str() {
        Some("run") => print_list(file, run_list),
        Some("explain") => print_list(file, explain_list),
        Some("next") => next(file),
        Some("assemble") => assemble(file),
        Some("list") => list(file),
        Some("cases") => write_cases(file),
        Some("comparisons") => write_comparisons(file),
        Some("deepest") => write_deepest(file),
        Some("edges") => write_edges(file),
        _ => {
            let command = command.to_string_lossy();
            Err(format!("reference: unknown command {command}\n{USAGE}").into())
        }
    }
}

fn print_list(file: Option<&Path>, list: fn(&[u8]) -> String) -> Result<(), Failure> {
    let book = input(file)?;
    let text = on_deep_stack(|| list(&book));
    print(text.as_bytes())
}

fn next(file: Option<&Path>) -> Result<(), Failure> {
    let book = input(file)?;
    let next = on_deep_stack(|| next_day(&book)).map_err(refused)?;
    print(&next)
}

fn assemble(file: Option<&Path>) -> Result<(), Failure> {
    let text = String::from_utf8(input(file)?).map_err(|error| bad_input(error.to_string()))?;
    let book = notation::assemble(&text).map_err(|fault| bad_input(fault.to_string()))?;
    let bytes = book.encode();
    Book::decode(&bytes).map_err(refused)?;
    print(&bytes)
}

fn list(file: Option<&Path>) -> Result<(), Failure> {
    let book = Book::decode(&input(file)?).map_err(refused)?;
    print(notation::list(&book).as_bytes())
}

/// The folder to write to, which has to be named.
fn named(folder: Option<&Path>) -> Result<&Path, Failure> {
    folder.ok_or_else(|| USAGE.to_string().into())
}

/// The format cases and then the run cases.
fn write_cases(folder: Option<&Path>) -> Result<(), Failure> {
    let folder = named(folder)?;
    let format = format_cases::all();
    let run = run_cases::all();
    let stream = [format_cases::stream(&format), run_cases::stream(&run)].concat();
    output(&folder.join("stdin"), &stream)?;
    let answers = format_cases::answers(&format) + &on_deep_stack(|| run_cases::answers(&run));
    output(&folder.join("stdout"), answers.as_bytes())
}

/// The pairs, and then the first again but for its last byte: what is no whole
/// pair has no line.
fn write_comparisons(folder: Option<&Path>) -> Result<(), Failure> {
    let folder = named(folder)?;
    let pairs = comparison_cases::all();
    let mut stream = comparison_cases::stream(&pairs);
    stream.extend_from_within(..127);
    output(&folder.join("stdin"), &stream)?;
    let answers = comparison_cases::answers(&pairs);
    output(&folder.join("stdout"), answers.as_bytes())
}

fn write_deepest(folder: Option<&Path>) -> Result<(), Failure> {
    let folder = named(folder)?;
    for (name, link) in [
        ("deepest_if.book", Link::If),
        ("deepest_then.book", Link::Then),
    ] {
        output(&folder.join(name), &deepest::book(link).encode())?;
    }
    Ok(())
}

fn write_edges(folder: Option<&Path>) -> Result<(), Failure> {
    let folder = named(folder)?;
    for (name, bytes) in edges::files() {
        output(&folder.join(name), &bytes)?;
    }
    Ok(())
}

fn output(path: &Path, bytes: &[u8]) -> Result<(), Failure> {
    fs::write(path, bytes).map_err(|error| trouble(path, error).into())
}

/// The bytes of a file, or of standard input.
fn input(file: Option<&Path>) -> Result<Vec<u8>, String> {
    if let Some(path) = file {
        return fs::read(path).map_err(|error| trouble(path, error));
    }
    let mut bytes = Vec::new();
    io::stdin()
        .read_to_end(&mut bytes)
        .map_err(|error| format!("reference: standard input: {error}"))?;
    Ok(bytes)
}

fn trouble(path: &Path, error: io::Error) -> String {
    format!("reference: {}: {error}", path.display())
}

fn print(bytes: &[u8]) -> Result<(), Failure> {
    io::stdout()
        .write_all(bytes)
        .map_err(|error| format!("reference: standard output: {error}").into())
}
