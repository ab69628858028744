//! The example `verdict`, with a command in a solver's place.

use std::process::Command;

/// Runs the example on a list, where the solver answers what is given: its first line and its exit status.
fn verdict(name: &str, list: &[u32], reply: &str) -> (String, Option<i32>) {
    verdict_of(name, &list.iter().flat_map(|word| word.to_le_bytes()).collect::<Vec<_>>(), reply)
}

/// The same of the bytes of a file.
fn verdict_of(name: &str, bytes: &[u8], reply: &str) -> (String, Option<i32>) {
    let folder = std::env::current_exe().unwrap().parent().unwrap().parent().unwrap().join("examples");
    let file = std::env::temp_dir().join(format!("verdict-{}-{name}", std::process::id()));
    std::fs::write(&file, bytes).unwrap();
    let solver = format!("cat >/dev/null; echo '{reply}'");
    let run = Command::new(folder.join("verdict")).arg(&file).args(["sh", "-c", &solver]).output().unwrap();
    std::fs::remove_file(&file).unwrap();
    (String::from_utf8(run.stdout).unwrap().lines().next().unwrap().to_string(), run.status.code())
}

/// #2 #0 #0 #1, Input #1, Not #1 of a net, s1 s0.
fn not_of(net: u32) -> [u32; 11] {
    let (number, input, not) = (0x6000_0000, 0x4000_0035, 0x4000_0042);
    [number | 2, number, number, number | 1, input, number | 1, not, number | 1, net, 3, 2]
}

const SAT: &str = "sat ((n0x #b0) (n0y #b0) (n1x #b0) (n1y #b1))";

fn says(line: &str, status: i32) -> (String, Option<i32>) {
    (line.to_string(), Some(status))
}

#[test]
fn without_a_loop() {
    let holds = says("holds for one step: every choice of the sources keeps every obligation", 0);
    assert_eq!(verdict("holds", &not_of(2), "unsat"), holds);
    assert_eq!(verdict("broken", &not_of(2), SAT), says("broken, for example here:", 4));
}

#[test]
fn unsat_with_a_loop_is_no_proof() {
    let loop_of_one = says("loop s1: with a current loop unsat proves nothing", 7);
    assert_eq!(verdict("loop", &not_of(3), "unsat"), loop_of_one);
    assert_eq!(verdict("broken-loop", &not_of(3), SAT), says("broken, for example here:", 4));
    assert_eq!(verdict("unknown", &not_of(3), "unknown"), says("no verdict: fault 18 at byte 0 of the reply", 5));
    // A second Not, s2, which s1 reads and which reads s1.
    let mut two = not_of(4).to_vec();
    two.splice(9..9, [0x4000_0042, 0x6000_0001, 3]);
    two[0] += 1;
    assert_eq!(verdict("two", &two, "unsat"), says("loop s1 s2: with a current loop unsat proves nothing", 7));
}

#[test]
fn a_broken_last_word() {
    for (name, words, bytes, line) in [
        ("two-more", 11, 2, "Refused { number: 1, place: 11 }"),
        ("one-more", 16383, 1, "Refused { number: 1, place: 16383 }"),
        ("too-long", 16384, 3, "Refused { number: 4, place: 16384 }"),
    ] {
        let mut file = not_of(2).iter().flat_map(|word| word.to_le_bytes()).collect::<Vec<_>>();
        file.resize(4 * words + bytes, 0);
        assert_eq!(verdict_of(name, &file, "unsat"), says(line, 1));
    }
}
