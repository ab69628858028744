//! Lists with the answers that are expected of them, as rows of a table in a document: the list in document 01's
//! notation, what the rules say, and, where it matters, what the Rust does with it as listed and by its public calls, and
//! how many call words there are in the inductive mode.

use crate::notation;
use crate::read;
use crate::record::Answer;
use crate::rust::{self, Run, Way};
use crate::scope::Scope;

/// What document 01's rules say to a list.
pub fn by_the_rules(words: &[u32]) -> String {
    match read::read(words) {
        Ok(_) => "accepted".to_string(),
        Err(fault) => fault.to_string(),
    }
}

/// What the Rust does with a list: how many call words it makes, or its panic.
fn by_the_rust(words: &[u32], way: Way) -> String {
    read::read_layout(words)
        .map_or("no such design".to_string(), |list| counted(rust::run(&list, way, Answer::Unsat, false)))
}

/// What the inductive mode makes of a list.
fn in_the_inductive_mode(words: &[u32]) -> String {
    let scope = Scope { divisions: true, inductive: true };
    read::read(words).map_or_else(|fault| fault.to_string(), |list| counted(scope.run(&list)))
}

fn counted(run: Run) -> String {
    run.panic.map_or(format!("{} call words", run.record.count), |message| panic_text(&message))
}

pub fn panic_text(message: &str) -> String {
    format!("panic {}", message.replace('\n', " "))
}

/// The cells of a table's row that begins with a quoted list.
fn row(line: &str) -> Option<Vec<String>> {
    let cells = line.strip_prefix('|')?.trim_end().strip_suffix('|')?;
    cells.trim_start().starts_with('`').then(|| cells.split('|').map(plain).collect())
}

/// A text without the quotes of a table.
fn plain(text: &str) -> String {
    text.replace('`', "").trim().to_string()
}

/// The answers to a row's list that differ from the expected ones; an empty cell expects nothing.
fn compare(row: &[String]) -> Result<Vec<String>, String> {
    let words = notation::parse(&row[0])?;
    let (as_listed, public) = (by_the_rust(&words, Way::AsListed), by_the_rust(&words, Way::PublicCalls));
    let answers = [by_the_rules(&words), as_listed, public, in_the_inductive_mode(&words)];
    let asked = ["rules", "Rust", "Rust by public calls", "inductive mode"];
    let compared = row[1..].iter().zip(answers).zip(asked);
    let differing = compared.filter(|((expected, answer), _)| !expected.is_empty() && **expected != plain(answer));
    Ok(differing.map(|((_, answer), who)| format!("{who}: {answer}")).collect())
}

/// Compares every row of a document. How many there are, and how many answers differ.
pub fn compare_all(text: &str) -> Result<(usize, usize), String> {
    let (mut compared, mut differing) = (0, 0);
    for (line, row) in text.lines().filter_map(|line| Some((line, row(line)?))) {
        compared += 1;
        for answer in compare(&row)? {
            differing += 1;
            println!("{line}\n  {answer}");
        }
    }
    Ok((compared, differing))
}
