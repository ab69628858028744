//! Runs the given Rust on a list: its design is made, and `Design::verify` is given a recording engine.

use std::panic::{self, AssertUnwindSafe};
use std::sync::atomic::{AtomicBool, Ordering};

use netlist::design::door::{self, Listed};
use netlist::{
    AssignCell, Cell, Const, ControlNet, Design, FlipFlop, IoBuffer, IoValue, MatchCell, Net, SmtBuilder, Trit, Value,
};

use crate::features;
use crate::list::{self, Cell as Word, Control, List};
use crate::record::{Answer, Record, Recorder, Stopped};

fn net(net: list::Net) -> Net {
    match net {
        list::Net::ZERO => Net::ZERO,
        list::Net::ONE => Net::ONE,
        list::Net::X => Net::UNDEF,
        slot => door::net(slot.0 as usize - 2),
    }
}

fn value(nets: &[list::Net]) -> Value {
    Value::from_iter(nets.iter().map(|word| net(*word)))
}

fn constant(nets: &[list::Net]) -> Const {
    Const::from_iter(nets.iter().map(|word| Trit::try_from(net(*word)).expect("a constant")))
}

fn control(control: &Control) -> ControlNet {
    ControlNet::from_net_invert(net(control.net), control.inverted)
}

/// The Rust's cell for a cell of a list; a Void is none.
fn cell(cell: &Word) -> Listed {
    Some(match cell {
        Word::Void => return None,
        Word::One(op, a) => match *op {
            list::BUF => Cell::Buf(value(a)),
            _ => Cell::Not(value(a)),
        },
        Word::Two(op, a, b) => {
            let make = match list::NAMES[*op as usize] {
                "And" => Cell::And,
                "Or" => Cell::Or,
                "Xor" => Cell::Xor,
                "Eq" => Cell::Eq,
                "ULt" => Cell::ULt,
                "SLt" => Cell::SLt,
                "Mul" => Cell::Mul,
                "UDiv" => Cell::UDiv,
                "UMod" => Cell::UMod,
                "SDivTrunc" => Cell::SDivTrunc,
                "SModTrunc" => Cell::SModTrunc,
                other => unreachable!("{other} has no two operands"),
            };
            make(value(a), value(b))
        }
        Word::Mux(s, a, b) => Cell::Mux(net(*s), value(a), value(b)),
        Word::Adc(a, b, c) => Cell::Adc(value(a), value(b), net(*c)),
        Word::Aig(a, b) => Cell::Aig(control(a), control(b)),
        Word::Shift { op, value: shifted, amount, stride } => {
            let make = match *op {
                list::SHL => Cell::Shl,
                list::USHR => Cell::UShr,
                list::SSHR => Cell::SShr,
                _ => Cell::XShr,
            };
            make(value(shifted), value(amount), *stride)
        }
        Word::Match { value: compared, enable, patterns } => Cell::Match(MatchCell {
            value: value(compared),
            enable: net(*enable),
            patterns: patterns.iter().map(|all| all.iter().map(|one| constant(one)).collect()).collect(),
        }),
        Word::Assign { value: old, enable, update, offset } => Cell::Assign(AssignCell {
            value: value(old),
            enable: net(*enable),
            update: value(update),
            offset: *offset as usize,
        }),
        Word::Dff(dff) => Cell::Dff(FlipFlop {
            data: value(&dff.data),
            clock: control(&dff.clock),
            clear: control(&dff.clear),
            reset: control(&dff.reset),
            enable: control(&dff.enable),
            reset_over_enable: dff.reset_over_enable,
            clear_value: constant(&dff.clear_value),
            reset_value: constant(&dff.reset_value),
            init_value: Const::undef(dff.data.len()),
        }),
        Word::IoBuf(width) => Cell::IoBuf(IoBuffer {
            io: IoValue::from_range(0..*width),
            output: Value::zero(*width as usize),
            enable: ControlNet::ZERO,
        }),
        Word::Input(width) => Cell::Input(String::new(), *width as usize),
        Word::Note => Cell::Output(String::new(), Value::new()),
    })
}

/// The design of a list, with every cell and replacement as it stands there.
pub fn design_as_listed(list: &List) -> Design {
    let mut design = Design::new();
    for word in &list.base {
        door::push_base(&mut design, cell(word));
    }
    for word in &list.added {
        door::push_added(&mut design, cell(word));
    }
    for (slot, word) in &list.cell_replacements {
        door::replace_cell(&mut design, *slot as usize, cell(word));
    }
    for (from, to) in &list.net_replacements {
        design.replace_net(net(*from), net(*to));
    }
    design
}

/// The design of a list, changed by the Rust's public calls only; the base is as listed.
fn design_by_public_calls(list: &List) -> Design {
    let mut design = Design::new();
    for word in &list.base {
        door::push_base(&mut design, cell(word));
    }
    for word in &list.added {
        match cell(word) {
            Some(cell) => design.add_cell(cell),
            None => design.add_void(1),
        };
    }
    for (slot, word) in &list.cell_replacements {
        let replaced = design.iter_cells().find(|old| old.debug_index() == *slot as usize);
        replaced.expect("public calls reach no such cell").replace(cell(word).expect("the Rust has no void cell"));
    }
    for (from, to) in &list.net_replacements {
        design.replace_net(net(*from), net(*to));
    }
    design
}

/// How a list is turned into a design.
#[derive(Debug, Clone, Copy, PartialEq, Eq)]
pub enum Way {
    AsListed,
    PublicCalls,
}

/// While it is set, a panic writes nothing.
static QUIET: AtomicBool = AtomicBool::new(false);

/// To be called once, before the first run.
pub fn hush() {
    let loud = panic::take_hook();
    panic::set_hook(Box::new(move |info| {
        if !QUIET.load(Ordering::Relaxed) {
            loud(info)
        }
    }));
}

/// What the Rust's calls were, and the message if it panicked.
pub struct Run {
    pub record: Record,
    pub panic: Option<String>,
}

/// Runs `Design::verify` on a list.
pub fn run(list: &List, way: Way, answer: Answer, keep: bool) -> Run {
    heard(list, answer, keep, |engine| {
        let design = match way {
            Way::AsListed => design_as_listed(list),
            Way::PublicCalls => design_by_public_calls(list),
        };
        design.verify(engine)
    })
}

/// Hands a list's cells and replacements to the Rust's builder itself, in the order of `Design::verify` and by the rules
/// of document 01. In the inductive mode a Dff's net replaced by a Dff's makes no ordinary obligation.
pub fn run_builder(list: &List, inductive: bool, answer: Answer, keep: bool) -> Run {
    heard(list, answer, keep, |engine| {
        let design = design_as_listed(list);
        let mut builder = SmtBuilder::new(&design, engine);
        let mut slot = 0;
        for old in list.base.iter().chain(&list.added) {
            let output = (slot..slot + old.output_width()).map(list::Net::of_slot).collect::<Vec<_>>();
            let new = list.cell_replacements.iter().find(|(at, _)| *at == slot);
            slot += old.slots();
            match (cell(old), new.and_then(|(_, new)| cell(new))) {
                _ if output.is_empty() => (),
                (Some(old), Some(new)) => builder.replace_cell(&value(&output), &old, &new)?,
                (Some(old), None) => builder.add_cell(&value(&output), &old)?,
                (None, _) => unreachable!("a Void with an output"),
            }
        }
        let cells = |from, to| [from, to].map(|net| features::cell_of(list, net).map(|(cell, _)| cell));
        for (from, to) in list.net_replacements.iter().filter(|(from, to)| from != to) {
            let (old, new) = (net(*from), net(*to));
            match cells(*from, *to) {
                [Some(Word::Void), _] => builder.replace_void_net(old, new)?,
                [Some(Word::Dff(_)), Some(Word::Dff(_))] => {
                    builder.replace_dff_net(old, new)?;
                    if !inductive {
                        builder.replace_net(old, new)?;
                    }
                }
                _ => builder.replace_net(old, new)?,
            }
        }
        builder.check().map(|_| ())
    })
}

/// What a recording engine hears of the Rust's work on a list.
fn heard(list: &List, answer: Answer, keep: bool, work: impl FnOnce(Recorder) -> Result<(), Stopped>) -> Run {
    let (engine, heard) = Recorder::new(list.slots() as usize, answer, keep);
    QUIET.store(true, Ordering::Relaxed);
    // An error is the engine's own, after sat; what it heard tells the rest.
    let ended = panic::catch_unwind(AssertUnwindSafe(|| work(engine).unwrap_or(())));
    QUIET.store(false, Ordering::Relaxed);
    let panic = ended.err().map(|message| match message.downcast::<String>() {
        Ok(text) => *text,
        Err(message) => message.downcast_ref::<&str>().copied().unwrap_or("without a message").to_string(),
    });
    let record = heard.take();
    Run { record, panic }
}
