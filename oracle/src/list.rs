//! A design list as document 01 ("The exact rules and the build") lays it out: its cells, its replacements, its words.

use crate::words::{self, LAST};

/// A net by its payload: constants 0 and 1, then slots, and X last.
#[derive(Debug, Clone, Copy, PartialEq, Eq, PartialOrd, Ord)]
pub struct Net(pub u32);

impl Net {
    pub const ZERO: Net = Net(0);
    pub const ONE: Net = Net(1);
    pub const X: Net = Net(LAST);

    pub fn of_slot(slot: u32) -> Net {
        Net(2 + slot)
    }

    /// The slot that the net names, if it is no constant.
    pub fn slot(self) -> Option<u32> {
        if self < Net(2) || self == Net::X { None } else { Some(self.0 - 2) }
    }
}

/// A net that may be inverted.
#[derive(Debug, Clone, Copy, PartialEq, Eq)]
pub struct Control {
    pub net: Net,
    pub inverted: bool,
}

// Operations, by their numbers.
pub const VOID: u32 = 0;
pub const BUF: u32 = 1;
pub const NOT: u32 = 2;
pub const AND: u32 = 3;
pub const OR: u32 = 4;
pub const XOR: u32 = 5;
pub const MUX: u32 = 6;
pub const ADC: u32 = 7;
pub const AIG: u32 = 8;
pub const EQ: u32 = 9;
pub const ULT: u32 = 10;
pub const SLT: u32 = 11;
pub const SHL: u32 = 12;
pub const USHR: u32 = 13;
pub const SSHR: u32 = 14;
pub const XSHR: u32 = 15;
pub const MUL: u32 = 16;
pub const MATCH: u32 = 17;
pub const ASSIGN: u32 = 18;
pub const DFF: u32 = 19;
pub const IOBUF: u32 = 20;
pub const INPUT: u32 = 21;
pub const NOTE: u32 = 22;
// The divisions, which document 02 adds: laid out like Mul. There is no operation after them.
pub const UDIV: u32 = 23;
pub const UMOD: u32 = 24;
pub const SDIVTRUNC: u32 = 25;
pub const SMODTRUNC: u32 = 26;

#[rustfmt::skip]
pub const NAMES: [&str; 27] = [
    "Void", "Buf", "Not", "And", "Or", "Xor", "Mux", "Adc", "Aig", "Eq", "ULt", "SLt", "Shl", "UShr", "SShr", "XShr",
    "Mul", "Match", "Assign", "Dff", "IoBuf", "Input", "Note", "UDiv", "UMod", "SDivTrunc", "SModTrunc",
];

/// A cell. Operations of one layout share a case.
#[derive(Debug, Clone, PartialEq, Eq)]
pub enum Cell {
    Void,
    /// Buf, Not.
    One(u32, Vec<Net>),
    /// And, Or, Xor, Eq, ULt, SLt, Mul, and the divisions.
    Two(u32, Vec<Net>, Vec<Net>),
    Mux(Net, Vec<Net>, Vec<Net>),
    Adc(Vec<Net>, Vec<Net>, Net),
    Aig(Control, Control),
    /// Shl, UShr, SShr, XShr.
    Shift {
        op: u32,
        value: Vec<Net>,
        amount: Vec<Net>,
        stride: u32,
    },
    /// A pattern is its alternates, an alternate its constants.
    Match {
        value: Vec<Net>,
        enable: Net,
        patterns: Vec<Vec<Vec<Net>>>,
    },
    Assign {
        value: Vec<Net>,
        enable: Net,
        update: Vec<Net>,
        offset: u32,
    },
    Dff(Dff),
    IoBuf(u32),
    Input(u32),
    Note,
}

#[derive(Debug, Clone, PartialEq, Eq)]
pub struct Dff {
    pub reset_over_enable: bool,
    pub clock: Control,
    pub clear: Control,
    pub reset: Control,
    pub enable: Control,
    pub data: Vec<Net>,
    pub clear_value: Vec<Net>,
    pub reset_value: Vec<Net>,
}

impl Cell {
    pub fn operation(&self) -> u32 {
        match self {
            Cell::Void => VOID,
            Cell::One(op, ..) | Cell::Two(op, ..) | Cell::Shift { op, .. } => *op,
            Cell::Mux(..) => MUX,
            Cell::Adc(..) => ADC,
            Cell::Aig(..) => AIG,
            Cell::Match { .. } => MATCH,
            Cell::Assign { .. } => ASSIGN,
            Cell::Dff(_) => DFF,
            Cell::IoBuf(_) => IOBUF,
            Cell::Input(_) => INPUT,
            Cell::Note => NOTE,
        }
    }

    pub fn output_width(&self) -> u32 {
        let width = match self {
            Cell::Void | Cell::Note => 0,
            Cell::Two(EQ | ULT | SLT, ..) | Cell::Aig(..) => 1,
            Cell::One(_, a) | Cell::Two(_, a, _) | Cell::Mux(_, a, _) => a.len(),
            Cell::Adc(a, ..) => a.len() + 1,
            Cell::Shift { value, .. } | Cell::Assign { value, .. } => value.len(),
            Cell::Match { patterns, .. } => patterns.len(),
            Cell::Dff(dff) => dff.data.len(),
            Cell::IoBuf(width) | Cell::Input(width) => *width as usize,
        };
        width as u32
    }

    /// The slots that the cell takes.
    pub fn slots(&self) -> u32 {
        self.output_width().max(1)
    }

    pub fn divides(&self) -> bool {
        matches!(self.operation(), UDIV..=SMODTRUNC)
    }

    /// The cell's record: its head and its body.
    pub fn words(&self) -> Vec<u32> {
        let mut body = Body(vec![]);
        match self {
            Cell::Void | Cell::Note => (),
            Cell::One(_, a) => {
                body.number(a.len() as u32).nets(a);
            }
            Cell::Two(_, a, b) => {
                body.number(a.len() as u32).nets(a).nets(b);
            }
            Cell::Mux(s, a, b) => {
                body.number(a.len() as u32).net(*s).nets(a).nets(b);
            }
            Cell::Adc(a, b, c) => {
                body.number(a.len() as u32).nets(a).nets(b).net(*c);
            }
            Cell::Aig(a, b) => {
                body.control(*a).control(*b);
            }
            Cell::Shift { value, amount, stride, .. } => {
                body.number(value.len() as u32).number(amount.len() as u32).number(*stride).nets(value).nets(amount);
            }
            Cell::Match { value, enable, patterns } => {
                body.number(value.len() as u32).number(patterns.len() as u32).net(*enable).nets(value);
                for alternates in patterns {
                    body.number(alternates.len() as u32);
                    for alternate in alternates {
                        body.nets(alternate);
                    }
                }
            }
            Cell::Assign { value, enable, update, offset } => {
                body.number(value.len() as u32).number(update.len() as u32).number(*offset);
                body.net(*enable).nets(value).nets(update);
            }
            Cell::Dff(dff) => {
                body.number(dff.data.len() as u32).number(dff.reset_over_enable as u32);
                body.control(dff.clock).control(dff.clear).control(dff.reset).control(dff.enable);
                body.nets(&dff.data).nets(&dff.clear_value).nets(&dff.reset_value);
            }
            Cell::IoBuf(width) | Cell::Input(width) => {
                body.number(*width);
            }
        }
        let mut record = vec![words::head(self.operation(), body.0.len())];
        record.append(&mut body.0);
        record
    }
}

/// The words of a body as they are put together.
struct Body(Vec<u32>);

impl Body {
    fn number(&mut self, value: u32) -> &mut Self {
        self.0.push(words::number(value));
        self
    }

    fn net(&mut self, net: Net) -> &mut Self {
        self.0.push(words::word(words::NET, net.0));
        self
    }

    fn nets(&mut self, nets: &[Net]) -> &mut Self {
        for net in nets {
            self.net(*net);
        }
        self
    }

    fn control(&mut self, control: Control) -> &mut Self {
        let kind = if control.inverted { words::INVERTED } else { words::NET };
        self.0.push(words::word(kind, control.net.0));
        self
    }
}

/// A design list taken apart.
#[derive(Debug, Clone, Default, PartialEq, Eq)]
pub struct List {
    pub base: Vec<Cell>,
    pub added: Vec<Cell>,
    /// Replaced slot and new cell.
    pub cell_replacements: Vec<(u32, Cell)>,
    /// From and to.
    pub net_replacements: Vec<(Net, Net)>,
}

impl List {
    pub fn base_slots(&self) -> u32 {
        self.base.iter().map(Cell::slots).sum()
    }

    pub fn slots(&self) -> u32 {
        self.base_slots() + self.added.iter().map(Cell::slots).sum::<u32>()
    }

    /// All cells, the new ones of replacements last.
    pub fn cells(&self) -> impl Iterator<Item = &Cell> {
        self.base.iter().chain(&self.added).chain(self.cell_replacements.iter().map(|(_, new)| new))
    }

    pub fn words(&self) -> Vec<u32> {
        let base = self.base_slots();
        let counts =
            [base, self.slots() - base, self.cell_replacements.len() as u32, self.net_replacements.len() as u32];
        let mut list = Vec::from(counts.map(words::number));
        for cell in self.base.iter().chain(&self.added) {
            list.extend(cell.words());
        }
        for (slot, cell) in &self.cell_replacements {
            list.push(words::number(*slot));
            list.extend(cell.words());
        }
        for (from, to) in &self.net_replacements {
            list.extend([from, to].map(|net| words::word(words::NET, net.0)));
        }
        list
    }
}
