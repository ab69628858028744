//! The list reader, written from document 01 ("Words", "Faults and what stays") with the divisions of document 02: what
//! a list holds, or the number and the place of its first fault. It shares nothing with the Rattle reader that it is to
//! be compared with.

use crate::list::{self, Cell, Control, Dff, List, Net};
use crate::words::{self, HEAD, INVERTED, NET, NUMBER};

/// Number and place of a refusal.
#[derive(Debug, Clone, Copy, PartialEq, Eq)]
pub struct Fault {
    pub number: u32,
    pub place: usize,
}

impl std::fmt::Display for Fault {
    fn fmt(&self, f: &mut std::fmt::Formatter) -> std::fmt::Result {
        write!(f, "refused {} at {}", self.number, self.place)
    }
}

const LENGTH: usize = 16_384;
const SLOTS: u32 = 4_096;
const REPLACEMENTS: u32 = 4_096;
const WIDTH: u32 = 63;
const AMOUNT: u32 = 32;
const ALTERNATES: u32 = 64;
/// What stands for a bound when the layout alone is read, so that no list asks the Rust for hours of work.
const LAYOUT_BOUND: u32 = 65_535;

/// Reads a list by all the rules.
pub fn read(words: &[u32]) -> Result<List, Fault> {
    Reader::new(words, true).list()
}

/// Reads a list by its layout alone: kinds, counts and constants. The rules that the types of the Rust know nothing of
/// (4, 6, 7, 9, 10, 11, 12, 13) are passed over, to see what the Rust does with such a list.
pub fn read_layout(words: &[u32]) -> Result<List, Fault> {
    Reader::new(words, false).list()
}

struct Reader<'a> {
    words: &'a [u32],
    strict: bool,
    /// The next word.
    place: usize,
    /// Where the fields of the record being read must end.
    end: usize,
    /// base + added, once the header is read.
    slots: u32,
    /// The net words that may not name a Void of the base, with their places, in list order.
    read_nets: Vec<(usize, u32)>,
}

type Read<T> = Result<T, Fault>;

fn refuse<T>(number: u32, place: usize) -> Read<T> {
    Err(Fault { number, place })
}

impl<'a> Reader<'a> {
    fn new(words: &'a [u32], strict: bool) -> Self {
        Reader { words, strict, place: 0, end: 0, slots: 0, read_nets: vec![] }
    }

    /// A rule that the layout does not need.
    fn rule(&self, broken: bool, number: u32, place: usize) -> Read<()> {
        if broken && self.strict { refuse(number, place) } else { Ok(()) }
    }

    fn list(mut self) -> Read<List> {
        self.rule(self.words.len() > LENGTH, 4, LENGTH)?;
        if self.words.len() < 4 {
            return refuse(1, self.words.len());
        }
        let base = self.header_number(SLOTS)?;
        let added = self.header_number(SLOTS.saturating_sub(base))?;
        let cell_replacements = self.header_number(REPLACEMENTS)?;
        let net_replacements = self.header_number(REPLACEMENTS)?;
        self.slots = base.saturating_add(added);

        let mut list = List::default();
        // The cell that heads each slot of the base; `None` within a cell.
        let mut heads: Vec<Option<Cell>> = vec![];
        list.base = self.cells(base)?;
        for cell in &list.base {
            heads.push(Some(cell.clone()));
            heads.extend((1..cell.slots()).map(|_| None));
        }
        list.added = self.cells(added)?;
        for _ in 0..cell_replacements {
            let last = list.cell_replacements.last().map(|(slot, _)| *slot);
            list.cell_replacements.push(self.cell_replacement(&heads, last)?);
        }
        for _ in 0..net_replacements {
            let last = list.net_replacements.last().map(|(from, _)| *from);
            list.net_replacements.push(self.net_replacement(last)?);
        }
        if self.place < self.words.len() {
            return refuse(1, self.place);
        }
        for (place, slot) in &self.read_nets {
            let void = matches!(heads.get(*slot as usize), Some(Some(Cell::Void)));
            self.rule(void, 10, *place)?;
        }
        Ok(list)
    }

    fn header_number(&mut self, bound: u32) -> Read<u32> {
        self.end = 4;
        self.number(bound)
    }

    /// Cells until they take so many slots.
    fn cells(&mut self, slots: u32) -> Read<Vec<Cell>> {
        let mut cells = vec![];
        let mut taken = 0;
        while taken < slots {
            let head = self.place;
            let cell = self.cell()?;
            self.rule(cell.slots() > slots - taken, 11, head)?;
            taken += cell.slots();
            cells.push(cell);
        }
        Ok(cells)
    }

    /// #slot and a cell; `last` is the slot replaced before.
    fn cell_replacement(&mut self, heads: &[Option<Cell>], last: Option<u32>) -> Read<(u32, Cell)> {
        let place = self.place;
        let word = self.word()?;
        if words::kind(word) != NUMBER {
            return refuse(2, place);
        }
        let slot = words::payload(word);
        let new = self.cell()?;
        let replaceable = match heads.get(slot as usize) {
            None | Some(None) | Some(Some(Cell::Void)) => false,
            Some(Some(old)) => old.output_width() == new.output_width(),
        };
        let ascending = last.is_none_or(|last| last < slot);
        let new_refused = matches!(new, Cell::Void | Cell::Input(_) | Cell::Note);
        self.rule(!replaceable || !ascending || new_refused, 12, place)?;
        Ok((slot, new))
    }

    /// From and to; `last` is the from before.
    fn net_replacement(&mut self, last: Option<Net>) -> Read<(Net, Net)> {
        let place = self.place;
        let from = self.word()?;
        let from = self.plain_net(from, place)?;
        let to = self.word()?;
        let to = self.plain_net(to, place + 1)?;
        self.note_read(to, place + 1);
        self.rule(last.is_some_and(|last| last >= from), 13, place)?;
        Ok((from, to))
    }

    /// The next word of the list, outside any record's count.
    fn word(&mut self) -> Read<u32> {
        let Some(word) = self.words.get(self.place) else { return refuse(1, self.words.len()) };
        self.place += 1;
        Ok(*word)
    }

    fn cell(&mut self) -> Read<Cell> {
        let place = self.place;
        let head = self.word()?;
        if words::kind(head) != HEAD {
            return refuse(2, place);
        }
        let op = words::operation(head);
        if op > list::SMODTRUNC {
            return refuse(3, place);
        }
        self.end = self.place + words::count(head);
        if self.end > self.words.len() {
            return refuse(1, self.words.len());
        }
        let cell = self.body(op)?;
        if self.place < self.end {
            return refuse(5, self.place);
        }
        Ok(cell)
    }

    fn body(&mut self, op: u32) -> Read<Cell> {
        Ok(match op {
            list::VOID => Cell::Void,
            list::NOTE => Cell::Note,
            list::BUF | list::NOT => {
                let n = self.number(WIDTH)?;
                Cell::One(op, self.nets(n)?)
            }
            list::AND | list::OR | list::XOR | list::MUL | list::UDIV | list::UMOD => {
                let n = self.number(WIDTH)?;
                Cell::Two(op, self.nets(n)?, self.nets(n)?)
            }
            list::EQ | list::ULT | list::SLT | list::SDIVTRUNC | list::SMODTRUNC => {
                let n = self.width_above_0()?;
                Cell::Two(op, self.nets(n)?, self.nets(n)?)
            }
            list::MUX => {
                let n = self.number(WIDTH)?;
                Cell::Mux(self.net()?, self.nets(n)?, self.nets(n)?)
            }
            list::ADC => {
                let n = self.number(WIDTH)?;
                Cell::Adc(self.nets(n)?, self.nets(n)?, self.net()?)
            }
            list::AIG => Cell::Aig(self.control()?, self.control()?),
            list::SHL | list::USHR | list::SSHR | list::XSHR => {
                let n = if op == list::SSHR { self.width_above_0()? } else { self.number(WIDTH)? };
                let m = self.number(AMOUNT)?;
                let stride = self.number(u32::MAX)?;
                Cell::Shift { op, value: self.nets(n)?, amount: self.nets(m)?, stride }
            }
            list::MATCH => self.match_body()?,
            list::ASSIGN => {
                let n = self.number(WIDTH)?;
                let u = self.number(WIDTH)?;
                let place = self.place;
                let offset = self.number(u32::MAX)?;
                self.rule(offset as u64 + u as u64 > n as u64, 9, place)?;
                Cell::Assign { enable: self.net()?, value: self.nets(n)?, update: self.nets(u)?, offset }
            }
            list::DFF => {
                let n = self.number(WIDTH)?;
                Cell::Dff(Dff {
                    reset_over_enable: self.number(1)? != 0,
                    clock: self.clock()?,
                    clear: self.control()?,
                    reset: self.control()?,
                    enable: self.control()?,
                    data: self.nets(n)?,
                    clear_value: self.constants(n)?,
                    reset_value: self.constants(n)?,
                })
            }
            list::IOBUF => Cell::IoBuf(self.number(WIDTH)?),
            list::INPUT => Cell::Input(self.number(WIDTH)?),
            _ => unreachable!("an operation that `cell` has refused"),
        })
    }

    fn match_body(&mut self) -> Read<Cell> {
        let n = self.number(WIDTH)?;
        let k = self.number(WIDTH)?;
        let enable = self.net()?;
        let value = self.nets(n)?;
        let mut patterns = vec![];
        for _ in 0..k {
            let mut alternates = vec![];
            for _ in 0..self.number(ALTERNATES)? {
                alternates.push(self.constants(n)?);
            }
            patterns.push(alternates);
        }
        Ok(Cell::Match { value, enable, patterns })
    }

    /// The next field of a record: the word and its place.
    fn field(&mut self) -> Read<(u32, usize)> {
        if self.place == self.end {
            return refuse(5, self.place);
        }
        let place = self.place;
        self.place += 1;
        Ok((self.words[place], place))
    }

    fn number(&mut self, bound: u32) -> Read<u32> {
        let (word, place) = self.field()?;
        if words::kind(word) != NUMBER {
            return refuse(2, place);
        }
        let number = words::payload(word);
        let bound = if self.strict { bound } else { bound.max(LAYOUT_BOUND) };
        if number > bound { refuse(4, place) } else { Ok(number) }
    }

    /// #n of Eq, ULt, SLt, SShr and the signed divisions.
    fn width_above_0(&mut self) -> Read<u32> {
        let place = self.place;
        let n = self.number(WIDTH)?;
        self.rule(n == 0, 7, place)?;
        Ok(n)
    }

    /// A net word that may not be inverted: kind, then slot.
    fn plain_net(&mut self, word: u32, place: usize) -> Read<Net> {
        if words::kind(word) != NET {
            return refuse(2, place);
        }
        self.known_net(word, place)
    }

    fn known_net(&self, word: u32, place: usize) -> Read<Net> {
        let net = Net(words::payload(word));
        self.rule(net.slot().is_some_and(|slot| slot >= self.slots), 6, place)?;
        Ok(net)
    }

    /// Keeps a net word for the last test, that it names no Void of the base.
    fn note_read(&mut self, net: Net, place: usize) {
        if let Some(slot) = net.slot() {
            self.read_nets.push((place, slot));
        }
    }

    fn net(&mut self) -> Read<Net> {
        let (word, place) = self.field()?;
        let net = self.plain_net(word, place)?;
        self.note_read(net, place);
        Ok(net)
    }

    fn nets(&mut self, n: u32) -> Read<Vec<Net>> {
        (0..n).map(|_| self.net()).collect()
    }

    /// A control that may name a Void of the base.
    fn clock(&mut self) -> Read<Control> {
        let (word, place) = self.field()?;
        let inverted = match words::kind(word) {
            NET => false,
            INVERTED => true,
            _ => return refuse(2, place),
        };
        Ok(Control { net: self.known_net(word, place)?, inverted })
    }

    fn control(&mut self) -> Read<Control> {
        let place = self.place;
        let control = self.clock()?;
        self.note_read(control.net, place);
        Ok(control)
    }

    fn constants(&mut self, n: u32) -> Read<Vec<Net>> {
        (0..n).map(|_| self.constant()).collect()
    }

    fn constant(&mut self) -> Read<Net> {
        let (word, place) = self.field()?;
        if words::kind(word) != NET {
            return refuse(2, place);
        }
        let net = Net(words::payload(word));
        if net.slot().is_some() { refuse(8, place) } else { Ok(net) }
    }
}
