//! From a design list to a verdict on one step: little-endian words from a file, the script to a solver, its reply read
//! back. Whether edits that hold for one step stand when they are applied is told by `vm check` (docs/UNSAT.md).
//!
//!     cargo run --example verdict -- FILE [SOLVER [ARGUMENT ..]]      the solver is `z3 -in` if none is named

use std::io::Write;
use std::process::{Command, ExitCode, Stdio};

use virginalmimas::*;

fn reply_of(solver: &[String], script: &[u8]) -> std::io::Result<Vec<u8>> {
    let mut child = Command::new(&solver[0]).args(&solver[1..]).stdin(Stdio::piped()).stdout(Stdio::piped()).spawn()?;
    child.stdin.take().expect("the pipe that was asked for").write_all(script)?;
    Ok(child.wait_with_output()?.stdout)
}

fn main() -> ExitCode {
    let mut arguments = std::env::args().skip(1);
    let Some(file) = arguments.next() else {
        eprintln!("usage: verdict FILE [SOLVER [ARGUMENT ..]]");
        return ExitCode::from(2);
    };
    let mut solver = arguments.collect::<Vec<_>>();
    if solver.is_empty() {
        solver = ["z3", "-in"].map(String::from).to_vec();
    }
    let bytes = std::fs::read(&file).expect("a readable file");
    let mut list = bytes.chunks_exact(4).map(|word| u32::from_le_bytes(word.try_into().unwrap())).collect::<Vec<_>>();
    if bytes.len() % 4 != 0 {
        // A broken last word; past 16,384 words the list is refused as too long.
        if list.len() < 16384 {
            println!("{:?}", Read::Refused { number: 1, place: list.len() });
            return ExitCode::from(1);
        }
        list.push(0);
    }

    let Read::Accepted { slots } = read(&list) else {
        println!("{:?}", read(&list));
        return ExitCode::from(1);
    };
    let words = match counts(&list) {
        Counted::Refused { number, place } => panic!("an accepted list was refused: {number} at {place}"),
        Counted::NothingAsked(_) => {
            println!("nothing asked: the list has no obligation, and nothing is proved");
            return ExitCode::from(3);
        }
        Counted::Asked(counts) => counts.words as usize,
    };
    let (mut calls, mut recorded) = (vec![0; words], vec![0; slots]);
    verify(&list, &mut calls, &mut recorded);
    let mut nodes = vec![0; slots];
    let looped = match order(&list, &mut nodes) {
        Order::Refused { number, place } => panic!("an accepted list was refused: {number} at {place}"),
        Order::Ordered { .. } => &[],
        Order::Looped { length } => &nodes[..length],
    };

    let mut tables = Tables::for_words(words);
    let Script::Refused { place: bytes, .. } = script_with(&calls, &recorded, &mut [], &mut tables) else { unreachable!() };
    let mut text = vec![0; bytes];
    script_with(&calls, &recorded, &mut text, &mut tables);
    let reply = reply_of(&solver, &text).expect("a solver that runs");

    let mut trits = vec![3; slots];
    match answer(&reply, &recorded, &mut trits) {
        Answer::Unsat if looped.is_empty() => {
            println!("holds for one step: every choice of the sources keeps every obligation")
        }
        Answer::Unsat => {
            print!("loop");
            looped.iter().for_each(|slot| print!(" s{slot}"));
            println!(": with a current loop unsat proves nothing");
            return ExitCode::from(7);
        }
        Answer::Sat => {
            println!("broken, for example here:");
            trits.iter().enumerate().for_each(|(slot, trit)| println!("  s{slot} {}", ["0", "1", "X", "-"][*trit as usize]));
            return ExitCode::from(4);
        }
        Answer::Refused { number, place } => {
            println!("no verdict: fault {number} at byte {place} of the reply");
            return ExitCode::from(5);
        }
    }
    ExitCode::SUCCESS
}
