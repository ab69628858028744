//! Virginalmimas from Rust: a function for each entry of its proved archive, over slices, with an enum for each answer.
//!
//! Words, fault numbers and places are those of `include/virginalmimas.h`. Any words may be handed in: a bad list is
//! refused with the number and place of its first fault, and a refusal leaves every lent slice as it was. There is no
//! heap; tables are on the stack, so a thread that calls an entry needs 192 KB of it, and 256 KB for `order`.

/// The entries, as `include/virginalmimas.h` declares them.
mod entries {
    unsafe extern "C" {
        pub fn vm_read(list: *const u32, len: usize) -> u64;
        pub fn vm_verify_mode(
            mode: u32, list: *const u32, len: usize, calls: *mut u32, c: usize, recorded: *mut u8, r: usize,
        ) -> u64;
        pub fn vm_counts_mode(mode: u32, list: *const u32, len: usize, counts: *mut u64, c: usize) -> u64;
        pub fn vm_order(list: *const u32, n: usize, slots: *mut u32, s: usize) -> u64;
        pub fn vm_evaluate(calls: *const u32, n: usize, bits: *const u64, m: usize, values: *mut u64, v: usize) -> u64;
        pub fn vm_script(calls: *const u32, n: usize, recorded: *const u8, r: usize, text: *mut u8, t: usize) -> u64;
        pub fn vm_check(calls: *const u32, n: usize, sizes: *mut u64, s: usize) -> u64;
        pub fn vm_evaluate_with(
            calls: *const u32, n: usize, bits: *const u64, m: usize, values: *mut u64, v: usize,
            sorts: *mut u8, terms: usize, names: *mut u8, bytes: usize,
        ) -> u64;
        pub fn vm_script_with(
            calls: *const u32, n: usize, recorded: *const u8, r: usize, text: *mut u8, t: usize,
            places: *mut u32, records: usize, sorts: *mut u8, terms: usize, names: *mut u8, bytes: usize,
        ) -> u64;
        pub fn vm_answer(text: *const u8, t: usize, recorded: *const u8, r: usize, trits: *mut u8, s: usize) -> u64;
    }
}

/// A packed answer taken apart: a refusal's number and place, or what the entry says.
fn unpacked(packed: u64) -> Result<u64, (u16, usize)> {
    let value = packed & ((1 << 48) - 1);
    match (packed >> 48) as u16 {
        0 => Ok(value),
        number => Err((number, value as usize)),
    }
}

/// How the net of a Dff that is replaced by the net of a Dff is judged: as the original does, with an ordinary
/// obligation besides, or by its induction step alone. Every other edit is judged alike in both.
#[derive(Debug, Clone, Copy, PartialEq, Eq, Default)]
pub enum Mode {
    #[default]
    Ported = 0,
    Inductive = 1,
}

/// What `verify` does with a design list. Where nothing is asked there is no check among the calls, and no solver is
/// needed.
#[derive(Debug, Clone, Copy, PartialEq, Eq)]
pub enum Verified {
    Refused { number: u16, place: usize },
    NothingAsked { words: usize },
    Asked { words: usize },
}

/// The words of the solver calls go into `calls`, and the mark of each slot into `recorded`. A slice too short is
/// fault 14 at the room needed, `calls` before `recorded`; `counts` and `read` tell both beforehand. The mode is
/// `Mode::Ported`.
pub fn verify(list: &[u32], calls: &mut [u32], recorded: &mut [u8]) -> Verified {
    verify_in(Mode::Ported, list, calls, recorded)
}

/// The same in a mode.
pub fn verify_in(mode: Mode, list: &[u32], calls: &mut [u32], recorded: &mut [u8]) -> Verified {
    let (mode, room, slots) = (mode as u32, calls.len(), recorded.len());
    let (calls, recorded) = (calls.as_mut_ptr(), recorded.as_mut_ptr());
    // Safety: each pointer goes with the length of its slice, and the archive keeps within them.
    match unpacked(unsafe { entries::vm_verify_mode(mode, list.as_ptr(), list.len(), calls, room, recorded, slots) }) {
        Err((number, place)) => Verified::Refused { number, place },
        Ok(value) if is_flagged(value) => Verified::Asked { words: many_of(value) },
        Ok(value) => Verified::NothingAsked { words: many_of(value) },
    }
}

/// Bit 47: something is asked, or there is a loop.
fn is_flagged(value: u64) -> bool {
    value >> 47 == 1
}

/// The bits below: how many words or slots are written.
fn many_of(value: u64) -> usize {
    (value & ((1 << 47) - 1)) as usize
}

/// How many terms and temporaries the calls of a list make, and how many words they take.
#[derive(Debug, Clone, Copy, PartialEq, Eq)]
pub struct Counts {
    pub terms: u64,
    pub temporaries: u64,
    pub words: u64,
}

/// What `counts` does with a design list.
#[derive(Debug, Clone, Copy, PartialEq, Eq)]
pub enum Counted {
    Refused { number: u16, place: usize },
    NothingAsked(Counts),
    Asked(Counts),
}

/// What `verify` would count if its slices had room enough.
pub fn counts(list: &[u32]) -> Counted {
    counts_in(Mode::Ported, list)
}

/// What `verify_in` would count.
pub fn counts_in(mode: Mode, list: &[u32]) -> Counted {
    let mut counts = [0; 3];
    let room = counts.len();
    // Safety: as in `verify_in`.
    let packed = unsafe { entries::vm_counts_mode(mode as u32, list.as_ptr(), list.len(), counts.as_mut_ptr(), room) };
    let [terms, temporaries, words] = counts;
    let counts = Counts { terms, temporaries, words };
    match unpacked(packed) {
        Err((number, place)) => Counted::Refused { number, place },
        Ok(value) if is_flagged(value) => Counted::Asked(counts),
        Ok(_) => Counted::NothingAsked(counts),
    }
}

/// What `read` does with a design list. Its slots are base + added: as many marks are recorded.
#[derive(Debug, Clone, Copy, PartialEq, Eq)]
pub enum Read {
    Refused { number: u16, place: usize },
    Accepted { slots: usize },
}

/// Reads a design list.
pub fn read(list: &[u32]) -> Read {
    // Safety: as in `verify_in`.
    match unpacked(unsafe { entries::vm_read(list.as_ptr(), list.len()) }) {
        Err((number, place)) => Read::Refused { number, place },
        Ok(slots) => Read::Accepted { slots: slots as usize },
    }
}

/// What `order` does with a design list: how many slots are written, an order's or a loop's.
#[derive(Debug, Clone, Copy, PartialEq, Eq)]
pub enum Order {
    Refused { number: u16, place: usize },
    /// There is no current loop. Each slot comes after all that its cell or Void reads currently, the lowest ready one
    /// always next.
    Ordered { length: usize },
    /// Each slot's cell or Void reads the next one currently, and the last reads the first.
    Looped { length: usize },
}

/// Orders the asserted cells but Input and IoBuf, and the replaced Voids, or names a current loop of them: their first
/// slots go into `slots`, none twice. A slice shorter than the list's slots, which `read` tells, is fault 14. The mode
/// does not matter.
pub fn order(list: &[u32], slots: &mut [u32]) -> Order {
    let (slots, room) = (slots.as_mut_ptr(), slots.len());
    // Safety: as in `verify_in`.
    match unpacked(unsafe { entries::vm_order(list.as_ptr(), list.len(), slots, room) }) {
        Err((number, place)) => Order::Refused { number, place },
        Ok(value) if is_flagged(value) => Order::Looped { length: many_of(value) },
        Ok(value) => Order::Ordered { length: many_of(value) },
    }
}

/// What `check` does with a call list: how many terms it makes and names it declares, so that values and bits can be
/// lent.
#[derive(Debug, Clone, Copy, PartialEq, Eq)]
pub enum Checked {
    Malformed { place: usize },
    WellFormed { terms: usize, declared: usize },
}

/// Checks a call list (fault 19).
pub fn check(calls: &[u32]) -> Checked {
    let mut sizes = [0; 2];
    // Safety: as in `verify_in`.
    match unpacked(unsafe { entries::vm_check(calls.as_ptr(), calls.len(), sizes.as_mut_ptr(), sizes.len()) }) {
        Err((_, place)) => Checked::Malformed { place },
        Ok(_) => Checked::WellFormed { terms: sizes[0] as usize, declared: sizes[1] as usize },
    }
}

/// Tables for call lists of more than 16,384 words: with them `evaluate_with` and `script_with` take time that grows with
/// the list, and answer what `evaluate` and `script` do.
pub struct Tables {
    places: Vec<u32>,
    sorts: Vec<u8>,
    names: Vec<u8>,
}

impl Tables {
    /// For lists of so many words: a term takes at least two, and the nine names of an index at least five each.
    pub fn for_words(words: usize) -> Self {
        Tables { places: vec![0; words / 2], sorts: vec![0; words / 2], names: vec![0; words / 5 * 9] }
    }
}

/// What `evaluate` does with a call list.
#[derive(Debug, Clone, Copy, PartialEq, Eq)]
pub enum Evaluated {
    Refused { number: u16, place: usize },
    Evaluated { false_assertions: usize },
}

/// Evaluates a call list under the bits of its declared names, in the order of their declarations; the number of every
/// term goes into `values`.
pub fn evaluate(calls: &[u32], bits: &[u64], values: &mut [u64]) -> Evaluated {
    let (values, room) = (values.as_mut_ptr(), values.len());
    // Safety: as in `verify_in`.
    let packed = unsafe { entries::vm_evaluate(calls.as_ptr(), calls.len(), bits.as_ptr(), bits.len(), values, room) };
    evaluated(packed)
}

/// The same with tables.
pub fn evaluate_with(calls: &[u32], bits: &[u64], values: &mut [u64], tables: &mut Tables) -> Evaluated {
    let (values, room) = (values.as_mut_ptr(), values.len());
    let (sorts, names) = (&mut tables.sorts, &mut tables.names);
    // Safety: as in `verify_in`.
    evaluated(unsafe {
        entries::vm_evaluate_with(
            calls.as_ptr(), calls.len(), bits.as_ptr(), bits.len(), values, room,
            sorts.as_mut_ptr(), sorts.len(), names.as_mut_ptr(), names.len(),
        )
    })
}

fn evaluated(packed: u64) -> Evaluated {
    match unpacked(packed) {
        Err((number, place)) => Evaluated::Refused { number, place },
        Ok(many) => Evaluated::Evaluated { false_assertions: many as usize },
    }
}

/// What `script` does with a call list and its recorded marks.
#[derive(Debug, Clone, Copy, PartialEq, Eq)]
pub enum Script {
    Refused { number: u16, place: usize },
    Written { bytes: usize },
}

/// Writes the script for an SMT-LIB solver into `text`.
pub fn script(calls: &[u32], recorded: &[u8], text: &mut [u8]) -> Script {
    let (text, room) = (text.as_mut_ptr(), text.len());
    let (marks, slots) = (recorded.as_ptr(), recorded.len());
    // Safety: as in `verify_in`.
    written(unsafe { entries::vm_script(calls.as_ptr(), calls.len(), marks, slots, text, room) })
}

/// The same with tables.
pub fn script_with(calls: &[u32], recorded: &[u8], text: &mut [u8], tables: &mut Tables) -> Script {
    let (text, room) = (text.as_mut_ptr(), text.len());
    let (marks, slots) = (recorded.as_ptr(), recorded.len());
    let Tables { places, sorts, names } = tables;
    // Safety: as in `verify_in`.
    written(unsafe {
        entries::vm_script_with(
            calls.as_ptr(), calls.len(), marks, slots, text, room, places.as_mut_ptr(), places.len(),
            sorts.as_mut_ptr(), sorts.len(), names.as_mut_ptr(), names.len(),
        )
    })
}

fn written(packed: u64) -> Script {
    match unpacked(packed) {
        Err((number, place)) => Script::Refused { number, place },
        Ok(bytes) => Script::Written { bytes: bytes as usize },
    }
}

/// What `answer` does with a solver's reply.
#[derive(Debug, Clone, Copy, PartialEq, Eq)]
pub enum Answer {
    Refused { number: u16, place: usize },
    /// Of a design without a current loop: every choice of the sources keeps every obligation (docs/UNSAT.md). With a
    /// loop nothing is proved; `order` tells whether there is one.
    Unsat,
    /// Of a design without one: some choice of the sources breaks an obligation.
    Sat,
}

/// Reads a solver's reply against the recorded marks. After sat `trits` has 0, 1, 2 (X) or 3 (not recorded) for each
/// mark.
pub fn answer(text: &[u8], recorded: &[u8], trits: &mut [u8]) -> Answer {
    let (trits, room) = (trits.as_mut_ptr(), trits.len());
    let (marks, slots) = (recorded.as_ptr(), recorded.len());
    // Safety: as in `verify_in`.
    match unpacked(unsafe { entries::vm_answer(text.as_ptr(), text.len(), marks, slots, trits, room) }) {
        Err((number, place)) => Answer::Refused { number, place },
        Ok(0) => Answer::Unsat,
        Ok(_) => Answer::Sat,
    }
}
