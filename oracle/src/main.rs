//! The oracle: the given Rust as the judge of the port's solver calls. README.md tells the commands and the forms.

mod changed;
mod check;
#[cfg(port)]
mod compare;
mod damage;
mod division;
mod expect;
mod features;
mod generate;
mod list;
mod notation;
#[cfg(port)]
mod port;
mod random;
mod read;
mod record;
mod rust;
mod sample;
mod scope;
mod script;
mod twins;
mod words;

use std::io::{self, BufRead, Write};
use std::path::Path;
use std::process::ExitCode;

use generate::Size;
use list::List;
use record::{Answer, Digest, Record};
use rust::{Run, Way};
use scope::Scope;

const USAGE: &str = "usage: oracle COMMAND
  calls [anyway|public]   lists to the calls and marks of the Rust
  calls [divisions] [inductive]
                          the same, with the calls of divisions, in the inductive mode
  digest [divisions] [inductive]
                          the same, the words and marks as one number
  read                    lists to `accepted` or `refused N at P`
  show, words             lists to document 01's notation, and back
  script [divisions] [inductive]
                          lists to the text of the calls
  sat                     lists to what the Rust does when the solver says sat
  generate [divisions] [inductive] SEED COUNT [tiny|small|medium|long|mixed]
  damage [divisions] [inductive] SEED COUNT
  check [divisions] [inductive] SEED COUNT [SIZE]
                          many lists through everything, with the figures
  compare [divisions] [inductive] SEED COUNT [SIZE]
                          many lists through the proved archive and the Rust, with the figures
  expect                  a document's rows of lists with expected answers: which differ
  sample SEED FOLDER      writes the stored sample
Lists are lines of words on standard input, eight hexadecimal digits each.";

fn main() -> ExitCode {
    rust::hush();
    let arguments = std::env::args().skip(1).collect::<Vec<_>>();
    let arguments = arguments.iter().map(String::as_str).collect::<Vec<_>>();
    match command(&arguments) {
        Ok(true) => ExitCode::SUCCESS,
        Ok(false) => ExitCode::FAILURE,
        Err(message) => {
            eprintln!("{message}");
            ExitCode::from(2)
        }
    }
}

/// Runs a command; whether all was well, or what cannot be done.
fn command(arguments: &[&str]) -> Result<bool, String> {
    match arguments {
        ["calls", "anyway"] => lines(|line| on_words(line, |words| calls_anyway(words, Way::AsListed))),
        ["calls", "public"] => lines(|line| on_words(line, |words| calls_anyway(words, Way::PublicCalls))),
        ["digest"] => lines(|line| on_words(line, digest)),
        ["read"] => lines(|line| on_words(line, expect::by_the_rules)),
        ["show"] => lines(|line| on_words(line, notation::show)),
        ["words"] => lines(|line| notation::parse(line).map(|words| words::to_line(&words))),
        ["sat"] => lines(|line| on_words(line, after_sat)),
        ["expect"] => {
            let text = io::read_to_string(io::stdin()).map_err(|error| error.to_string())?;
            let (compared, differing) = expect::compare_all(&text).map_err(|token| format!("'{token}' is no word"))?;
            println!("{compared} lists, {differing} answers differ");
            Ok(differing == 0)
        }
        ["sample", seed, folder] => sample::sample(number(seed)?, Path::new(folder)),
        [name, rest @ ..] => {
            let (scope, rest) = Scope::parse(rest);
            let answer = match *name {
                "calls" => calls,
                "digest" => digest_of_calls,
                "script" => script_text,
                _ => return on_lists(name, rest, scope),
            };
            if !rest.is_empty() {
                return Err(USAGE.to_string());
            }
            lines(|line| on_words(line, |words| on_list(words, false, |list| scoped(list, scope, answer))))
        }
        [] => Err(USAGE.to_string()),
    }
}

/// Runs a command on lists from a seed.
fn on_lists(name: &str, arguments: &[&str], scope: Scope) -> Result<bool, String> {
    match (name, arguments) {
        ("damage", [seed, count]) => {
            let seed = number(seed)?;
            write_lines((0..number(count)?).map(|index| words::to_line(&damage::damage(seed, index, scope))))
        }
        ("generate" | "check" | "compare", [seed, count, size @ ..]) if size.len() < 2 => {
            let size = size.first().map_or(Ok(Size::Mixed), |size| size_of(size))?;
            let run = match name {
                "generate" => generated,
                "check" => |seed, count, size, scope| Ok(check::check(seed, count, size, scope)),
                _ => compared,
            };
            run(number(seed)?, number(count)?, size, scope)
        }
        _ => Err(USAGE.to_string()),
    }
}

fn number(text: &str) -> Result<u64, String> {
    text.parse().map_err(|_| format!("'{text}' is no number\n{USAGE}"))
}

fn size_of(text: &str) -> Result<Size, String> {
    match text {
        "tiny" => Ok(Size::Tiny),
        "small" => Ok(Size::Small),
        "medium" => Ok(Size::Medium),
        "long" => Ok(Size::Long),
        "mixed" => Ok(Size::Mixed),
        _ => Err(format!("'{text}' is no size\n{USAGE}")),
    }
}

/// Answers each line of standard input with a line.
fn lines(mut answer: impl FnMut(&str) -> Result<String, String>) -> Result<bool, String> {
    let mut out = io::BufWriter::new(io::stdout().lock());
    for line in io::stdin().lock().lines() {
        let line = line.map_err(|error| error.to_string())?;
        let text = answer(&line).map_err(|token| format!("'{token}' is no word"))?;
        writeln!(out, "{text}").map_err(|error| error.to_string())?;
    }
    out.flush().map_err(|error| error.to_string())?;
    Ok(true)
}

fn write_lines(texts: impl Iterator<Item = String>) -> Result<bool, String> {
    let mut out = io::BufWriter::new(io::stdout().lock());
    for text in texts {
        writeln!(out, "{text}").map_err(|error| error.to_string())?;
    }
    out.flush().map_err(|error| error.to_string())?;
    Ok(true)
}

fn on_words(line: &str, answer: impl FnOnce(&[u32]) -> String) -> Result<String, String> {
    words::from_line(line).map(|words| answer(&words))
}

#[cfg(port)]
fn compared(seed: u64, count: u64, size: Size, scope: Scope) -> Result<bool, String> {
    Ok(compare::compare(seed, count, size, scope))
}

#[cfg(not(port))]
fn compared(_seed: u64, _count: u64, _size: Size, _scope: Scope) -> Result<bool, String> {
    Err("built without the archive: `rt lib` in crates/virginalmimas, then oracle/build".to_string())
}

fn generated(seed: u64, count: u64, size: Size, scope: Scope) -> Result<bool, String> {
    write_lines((0..count).map(|index| words::to_line(&generate::generate(seed, index, size, scope).words())))
}

/// The calls of a list in an answer's form, or the Rust's panic.
fn scoped(list: &List, scope: Scope, answer: impl FnOnce(&Record) -> String) -> String {
    unless_panic(scope.run(list), answer)
}

fn unless_panic(run: Run, answer: impl FnOnce(&Record) -> String) -> String {
    run.panic.map_or_else(|| answer(&run.record), |message| expect::panic_text(&message))
}

/// How many call words and marks there are, then the words, then the marks.
fn calls(record: &Record) -> String {
    let lengths = [record.words.len(), record.marks.len()].map(|length| length as u32);
    words::to_line(&[&lengths, record.words.as_slice(), &record.marks].concat())
}

/// The same of the Rust on a list that may be refused.
fn calls_anyway(words: &[u32], way: Way) -> String {
    on_list(words, true, |list| unless_panic(rust::run(list, way, Answer::Unsat, true), calls))
}

/// The digest of the Rust's calls, which are not kept: they may be many.
fn digest(words: &[u32]) -> String {
    on_list(words, false, |list| {
        unless_panic(rust::run(list, Way::AsListed, Answer::Unsat, false), |record| digest_line(record, record.digest))
    })
}

/// The same of calls that are kept.
fn digest_of_calls(record: &Record) -> String {
    let mut digest = Digest::default();
    record.words.iter().for_each(|word| digest.add(*word));
    digest_line(record, digest)
}

/// The number of call words and of marks, and the digest of both, given that of the words.
fn digest_line(record: &Record, mut digest: Digest) -> String {
    record.marks.iter().for_each(|mark| digest.add(*mark));
    format!("{} {} {:016x}", record.count, record.marks.len(), digest.0)
}

fn script_text(record: &Record) -> String {
    script::script(&record.words, &record.marks)
}

/// What becomes of a run in which the solver says sat. It need not end.
fn after_sat(words: &[u32]) -> String {
    on_list(words, false, |list| {
        let run = rust::run(list, Way::AsListed, Answer::Sat, false);
        run.panic.map_or("no panic".to_string(), |message| expect::panic_text(&message))
    })
}

/// An accepted list to its answer, a refused one to its fault, or to its answer too if the Rust can be asked anyway.
fn on_list(words: &[u32], anyway: bool, answer: impl FnOnce(&List) -> String) -> String {
    match read::read(words) {
        Ok(list) => answer(&list),
        Err(fault) if anyway => read::read_layout(words).map_or(fault.to_string(), |list| answer(&list)),
        Err(fault) => fault.to_string(),
    }
}
