//! Document 01's example through every function: an Input, its Not, and the Not's net replaced by the Input's. Twin
//! flip-flops through those that take a mode. Loops through `order`.

use virginalmimas::*;

/// #2 #0 #0 #1, Input #1, Not #1 s0, s1 s0.
#[rustfmt::skip]
const LIST: [u32; 11] = [
    0x6000_0002, 0x6000_0000, 0x6000_0000, 0x6000_0001, // header
    0x4000_0035, 0x6000_0001, // Input #1
    0x4000_0042, 0x6000_0001, 0x0000_0002, // Not #1 s0
    0x0000_0003, 0x0000_0002, // s1 s0
];

/// The same without the replacement.
fn unchanged() -> Vec<u32> {
    let mut list = LIST[..9].to_vec();
    list[3] = 0x6000_0000;
    list
}

/// Its script.
const SCRIPT: &str = include_str!("../../oracle/example.smt2");
const WORDS: usize = 60;
const UNTOUCHED: u32 = 0xa5a5_a5a5;

fn verified() -> ([u32; WORDS], [u8; 2]) {
    let (mut calls, mut recorded) = ([UNTOUCHED; WORDS], [9; 2]);
    assert_eq!(verify(&LIST, &mut calls, &mut recorded), Verified::Asked { words: WORDS });
    (calls, recorded)
}

#[test]
fn reads() {
    assert_eq!(read(&LIST), Read::Accepted { slots: 2 });
    assert_eq!(read(&LIST[..10]), Read::Refused { number: 1, place: 10 });
    assert_eq!(read(&[]), Read::Refused { number: 1, place: 0 });
}

#[test]
fn counts_before_any_room_is_lent() {
    let all = Counts { terms: 17, temporaries: 0, words: WORDS as u64 };
    assert_eq!(counts(&LIST), Counted::Asked(all));
    assert_eq!(counts(&unchanged()), Counted::NothingAsked(Counts { terms: 8, temporaries: 0, words: 33 }));
    assert_eq!(counts(&LIST[..10]), Counted::Refused { number: 1, place: 10 });
}

#[test]
fn verifies() {
    let (mut calls, mut recorded) = ([UNTOUCHED; WORDS + 3], [9; 4]);
    assert_eq!(verify(&LIST, &mut calls, &mut recorded), Verified::Asked { words: WORDS });
    assert_eq!(calls[..WORDS], verified().0);
    assert_eq!(calls[WORDS..], [UNTOUCHED; 3]);
    assert_eq!(recorded, [1, 1, 9, 9]);
    assert_eq!(verify(&unchanged(), &mut calls, &mut recorded), Verified::NothingAsked { words: 33 });
}

#[test]
fn a_refusal_leaves_both_slices() {
    let (mut calls, mut recorded) = ([UNTOUCHED; WORDS], [9; 2]);
    let refused = |number, place| Verified::Refused { number, place };
    assert_eq!(verify(&LIST[..10], &mut calls, &mut recorded), refused(1, 10));
    assert_eq!(verify(&LIST, &mut calls[..WORDS - 1], &mut recorded[..1]), refused(14, WORDS));
    assert_eq!(verify(&LIST, &mut calls, &mut recorded[..1]), refused(14, 2));
    assert_eq!((calls, recorded), ([UNTOUCHED; WORDS], [9; 2]));
}

#[test]
fn writes_the_script() {
    let (calls, recorded) = verified();
    let mut text = [b'.'; 2_000];
    assert_eq!(script(&calls, &recorded, &mut text), Script::Written { bytes: SCRIPT.len() });
    assert_eq!(&text[..SCRIPT.len()], SCRIPT.as_bytes());
    assert!(text[SCRIPT.len()..].iter().all(|byte| *byte == b'.'));
    assert_eq!(script(&calls, &recorded, &mut text[..9]), Script::Refused { number: 15, place: SCRIPT.len() });
    assert_eq!(script(&calls[..4], &recorded, &mut text), Script::Refused { number: 19, place: 0 });
}

#[test]
fn evaluates() {
    let (calls, _) = verified();
    let mut values = [9; 18];
    // The Input is 1 and its Not 0: the replacement is wrong there, and the query holds.
    assert_eq!(evaluate(&calls, &[0, 1, 0, 0], &mut values), Evaluated::Evaluated { false_assertions: 0 });
    assert_eq!(values[..5], [0, 1, 0, 0, 0]);
    assert_eq!(values[17], 9);
    // A Not of 1 that is 1 breaks its own assertion, and the query.
    assert_eq!(evaluate(&calls, &[0, 1, 0, 1], &mut values), Evaluated::Evaluated { false_assertions: 2 });
    assert_eq!(evaluate(&calls, &[0, 1, 0], &mut values), Evaluated::Refused { number: 20, place: 4 });
}

#[test]
fn reads_the_answer() {
    let (_, recorded) = verified();
    let mut trits = [9; 3];
    assert_eq!(answer(b"unsat", &recorded, &mut trits), Answer::Unsat);
    assert_eq!(answer(b"unknown", &recorded, &mut trits), Answer::Refused { number: 18, place: 0 });
    assert_eq!(trits, [9; 3]);
    let sat = b"sat\n((n0x #b0)\n (n0y #b1)\n (n1x #b0)\n (n1y #b0))\n";
    assert_eq!(answer(sat, &recorded, &mut trits), Answer::Sat);
    assert_eq!(trits, [1, 0, 9]);
}

#[test]
fn checks_and_takes_tables() {
    let (calls, recorded) = verified();
    assert_eq!(check(&calls), Checked::WellFormed { terms: 17, declared: 4 });
    assert_eq!(check(&calls[..WORDS - 2]), Checked::Malformed { place: WORDS - 3 });
    for words in [0, 10, 100] {
        let mut tables = Tables::for_words(words);
        let mut text = vec![0; SCRIPT.len()];
        assert_eq!(script_with(&calls, &recorded, &mut text, &mut tables), Script::Written { bytes: SCRIPT.len() });
        assert_eq!(text, SCRIPT.as_bytes());
        let (mut values, mut same) = ([0; 17], [0; 17]);
        let answer = evaluate(&calls, &[0, 0, 0, 1], &mut values);
        assert_eq!(evaluate_with(&calls, &[0, 0, 0, 1], &mut same, &mut tables), answer);
        assert_eq!(values, same);
    }
}

/// #4 #0 #0 #1, Input #1, Input #1, Dff #1 #0 s0 0 0 1 s1 X X, Dff #1 #0 s0 0 0 1 s1 X X, s3 s2.
#[rustfmt::skip]
const TWINS: [u32; 30] = [
    0x6000_0004, 0x6000_0000, 0x6000_0000, 0x6000_0001, // header
    0x4000_0035, 0x6000_0001, // Input #1
    0x4000_0035, 0x6000_0001, // Input #1
    0x4000_0133, 0x6000_0001, 0x6000_0000, 2, 0, 0, 1, 3, 0x1fff_ffff, 0x1fff_ffff, // Dff
    0x4000_0133, 0x6000_0001, 0x6000_0000, 2, 0, 0, 1, 3, 0x1fff_ffff, 0x1fff_ffff, // Dff
    5, 4, // s3 s2
];

#[test]
fn a_mode_decides_how_twins_are_judged() {
    let room = |mode| match counts_in(mode, &TWINS) {
        Counted::Asked(counts) => counts.words as usize,
        other => panic!("{other:?}"),
    };
    let (ported, inductive) = (room(Mode::Ported), room(Mode::Inductive));
    // The ordinary obligation has 20 words and is an argument of the query's and.
    assert_eq!(ported, inductive + 21);
    assert_eq!(counts(&TWINS), counts_in(Mode::Ported, &TWINS));

    let (mut calls, mut recorded) = (vec![UNTOUCHED; ported], [9; 4]);
    let refused = |place| Verified::Refused { number: 14, place };
    assert_eq!(verify_in(Mode::Inductive, &TWINS, &mut calls[..inductive - 1], &mut recorded), refused(inductive));
    assert_eq!(verify(&TWINS, &mut calls[..inductive], &mut recorded), refused(ported));
    assert_eq!((&calls[..], recorded), (&vec![UNTOUCHED; ported][..], [9; 4]));

    assert_eq!(verify_in(Mode::Inductive, &TWINS, &mut calls, &mut recorded), Verified::Asked { words: inductive });
    assert_eq!(calls[inductive..], [UNTOUCHED; 21]);
    // s2 is read current last; the clock's last read is its past.
    assert_eq!(recorded, [2, 1, 1, 1]);
    let step = calls[..inductive - 7].to_vec();
    assert_eq!(verify(&TWINS, &mut calls, &mut recorded), Verified::Asked { words: ported });
    assert_eq!(recorded, [2, 1, 2, 1]);
    assert_eq!(calls[..inductive - 7], step);
    let same = calls.clone();
    assert_eq!(verify_in(Mode::Ported, &TWINS, &mut calls, &mut recorded), Verified::Asked { words: ported });
    assert_eq!((calls, recorded), (same, [2, 1, 2, 1]));
}

#[test]
fn a_mode_says_nothing_of_other_edits() {
    let (calls, recorded) = verified();
    for mode in [Mode::Ported, Mode::Inductive] {
        let (mut same, mut marks) = ([UNTOUCHED; WORDS], [9; 2]);
        assert_eq!(verify_in(mode, &LIST, &mut same, &mut marks), Verified::Asked { words: WORDS });
        assert_eq!((same, marks), (calls, recorded));
        assert_eq!(counts_in(mode, &LIST), counts(&LIST));
        assert_eq!(counts_in(mode, &LIST[..10]), Counted::Refused { number: 1, place: 10 });
    }
}

/// #6 #0 #0 #0, Input #1, Buf #1 s2, Not #1 s0, Aig s5 s1, Buf #1 s4, Buf #1 s3: s2 and s1 get ready. s3 and s5 are a
/// loop, and s4 is one.
#[rustfmt::skip]
const LOOPS: [u32; 21] = [
    0x6000_0006, 0x6000_0000, 0x6000_0000, 0x6000_0000, // header
    0x4000_0035, 0x6000_0001, // Input #1
    0x4000_0041, 0x6000_0001, 4, // Buf #1 s2
    0x4000_0042, 0x6000_0001, 2, // Not #1 s0
    0x4000_0048, 7, 3, // Aig s5 s1
    0x4000_0041, 0x6000_0001, 6, // Buf #1 s4
    0x4000_0041, 0x6000_0001, 5, // Buf #1 s3
];

/// `order` in a slice of so many words, and the slice afterwards.
fn ordered(list: &[u32], room: usize) -> (Order, Vec<u32>) {
    let mut slots = vec![UNTOUCHED; room];
    (order(list, &mut slots), slots)
}

#[test]
fn orders() {
    assert_eq!(ordered(&LIST, 3), (Order::Ordered { length: 1 }, vec![1, UNTOUCHED, UNTOUCHED]));
    // The Inputs are left out.
    assert_eq!(ordered(&TWINS, 4), (Order::Ordered { length: 2 }, vec![2, 3, UNTOUCHED, UNTOUCHED]));
    // Both loops cut, by a read of 0.
    let mut list = LOOPS;
    (list[13], list[17]) = (0, 0);
    assert_eq!(ordered(&list, 6), (Order::Ordered { length: 5 }, vec![2, 1, 3, 4, 5, UNTOUCHED]));
    assert_eq!(order(&[0x6000_0000; 4], &mut []), Order::Ordered { length: 0 });
}

#[test]
fn names_a_loop() {
    let rest = vec![UNTOUCHED; 4];
    assert_eq!(ordered(&LOOPS, 6), (Order::Looped { length: 2 }, [vec![3, 5], rest].concat()));
    // The first one cut: s3 and s5 get ready.
    let mut list = LOOPS;
    list[13] = 0;
    assert_eq!(ordered(&list, 6), (Order::Looped { length: 1 }, [vec![4], vec![UNTOUCHED; 5]].concat()));
    // s3 reads s4: it is the lowest that never gets ready, and on no loop.
    list[13] = 6;
    assert_eq!(ordered(&list, 6), (Order::Looped { length: 1 }, [vec![4], vec![UNTOUCHED; 5]].concat()));
}

#[test]
fn an_order_refused_leaves_the_slice() {
    let refused = |number, place, room| (Order::Refused { number, place }, vec![UNTOUCHED; room]);
    assert_eq!(ordered(&LIST, 1), refused(14, 2, 1));
    assert_eq!(ordered(&LOOPS, 5), refused(14, 6, 5));
    assert_eq!(ordered(&LOOPS[..20], 0), refused(1, 20, 0));
    assert_eq!(ordered(&LOOPS[..20], 6), refused(1, 20, 6));
    assert_eq!(ordered(&[], 0), refused(1, 0, 0));
}

#[test]
fn the_stack_of_an_order() {
    let run = || (ordered(&LIST, 2).0, ordered(&LOOPS, 6).0);
    let thread = std::thread::Builder::new().stack_size(256 * 1024).spawn(run).unwrap();
    assert_eq!(thread.join().unwrap(), (Order::Ordered { length: 1 }, Order::Looped { length: 2 }));
}
