//! Accepted design lists from a seed.
//!
//! First the shapes of all cells are drawn, which fixes the slots; then the nets, so that a cell may read any slot.

use crate::list::{self, Cell, Control, Dff, List, Net};
use crate::random::Random;
use crate::scope::Scope;

/// How large a list is to be.
#[derive(Debug, Clone, Copy, PartialEq, Eq)]
pub enum Size {
    /// Up to four narrow cells.
    Tiny,
    /// Up to six cells, mostly narrow.
    Small,
    /// Up to 25 cells of all widths.
    Medium,
    /// Near the bounds.
    Long,
    /// Mostly small, some medium, a long one now and then.
    Mixed,
}

/// The operation of a cell and the numbers of its body, without its nets.
#[derive(Debug, Clone)]
struct Shape {
    op: u32,
    n: u32,
    /// m of a shift, u of an Assign.
    m: u32,
    /// The alternates of each pattern of a Match.
    alternates: Vec<u32>,
}

impl Shape {
    fn output_width(&self) -> u32 {
        match self.op {
            list::VOID | list::NOTE => 0,
            list::EQ | list::ULT | list::SLT | list::AIG => 1,
            list::ADC => self.n + 1,
            list::MATCH => self.alternates.len() as u32,
            _ => self.n,
        }
    }

    fn slots(&self) -> u32 {
        self.output_width().max(1)
    }

    /// The length of the cell's record.
    fn length(&self) -> u32 {
        let n = self.n;
        1 + match self.op {
            list::VOID | list::NOTE => 0,
            list::BUF | list::NOT => 1 + n,
            list::MUX | list::ADC => 2 + 2 * n,
            list::AIG => 2,
            list::SHL..=list::XSHR => 3 + n + self.m,
            list::MATCH => 3 + n + self.alternates.iter().map(|count| 1 + count * n).sum::<u32>(),
            list::ASSIGN => 4 + n + self.m,
            list::DFF => 6 + 3 * n,
            list::IOBUF | list::INPUT => 1,
            _ => 1 + 2 * n,
        }
    }
}

/// Operations that every list may hold, each as often as it stands here.
#[rustfmt::skip]
const OPERATIONS: [u32; 31] = [
    list::VOID, list::VOID, list::BUF, list::NOT, list::AND, list::OR, list::XOR, list::MUX, list::MUX, list::ADC,
    list::ADC, list::AIG, list::EQ, list::ULT, list::SLT, list::SHL, list::USHR, list::SSHR, list::XSHR, list::MUL,
    list::MATCH, list::MATCH, list::MATCH, list::ASSIGN, list::ASSIGN, list::DFF, list::DFF, list::DFF, list::IOBUF,
    list::INPUT, list::NOTE,
];

const DIVISIONS: [u32; 4] = [list::UDIV, list::UMOD, list::SDIVTRUNC, list::SMODTRUNC];

const NARROW: [u32; 12] = [0, 1, 1, 1, 1, 2, 2, 2, 3, 3, 4, 5];
const ANY_WIDTH: [u32; 20] = [0, 0, 1, 1, 1, 2, 2, 2, 3, 4, 8, 15, 16, 17, 17, 31, 32, 33, 62, 63];
const STRIDES: [u32; 16] = [0, 0, 1, 1, 1, 2, 3, 4, 7, 8, 63, 64, 1_000, 1 << 15, 1 << 28, (1 << 29) - 1];

pub struct Generator {
    random: Random,
    size: Size,
    scope: Scope,
    /// Which slots of the base hold Voids.
    base_voids: Vec<bool>,
    /// Slots that a net word may name.
    readable: Vec<u32>,
    /// Slots of flip-flops.
    dff_slots: Vec<u32>,
    added_voids: Vec<u32>,
    slots: u32,
    /// The first slot of the cell that is being drawn.
    here: u32,
}

/// The list of this index under this seed.
pub fn generate(seed: u64, index: u64, size: Size, scope: Scope) -> List {
    let mut random = Random::new(seed, index);
    let size = match size {
        Size::Mixed => match random.below(200) {
            0 => Size::Long,
            1..=50 => Size::Medium,
            51..=90 => Size::Tiny,
            _ => Size::Small,
        },
        size => size,
    };
    Generator::new(random, size, scope).list()
}

/// A list of an Input and one cell of this operation and width, one of whose nets is replaced.
pub fn single(seed: u64, index: u64, op: u32, n: u32) -> List {
    let mut generator = Generator::new(Random::new(seed, index), Size::Tiny, Scope::default());
    let input = generator.shape_of(list::INPUT, n.clamp(1, 4));
    let mut shape = generator.shape_of(op, n);
    if op == list::MATCH {
        shape.alternates = vec![1];
    }
    let mut list = generator.lay_out(vec![input, shape], vec![]);
    list.net_replacements.push((Net::of_slot(list.slots() - 1), Net::of_slot(0)));
    list
}

/// Takes replacements out until the list has no more than 16,384 words; its cells alone never have more.
fn fit(mut list: List) -> List {
    while list.words().len() > 16_384 {
        if list.cell_replacements.pop().is_none() {
            list.net_replacements.pop();
        }
    }
    list
}

impl Generator {
    fn new(random: Random, size: Size, scope: Scope) -> Self {
        Generator {
            random,
            size,
            scope,
            base_voids: vec![],
            readable: vec![],
            dff_slots: vec![],
            added_voids: vec![],
            slots: 0,
            here: 0,
        }
    }

    fn list(mut self) -> List {
        let least = self.scope.inductive as u32;
        match self.size {
            Size::Long => fit(self.long_list()),
            Size::Tiny => {
                let (base, added) = (least + self.random.below(3), self.random.below(3));
                self.cells_and_replacements(base, added)
            }
            Size::Small => {
                let (base, added) = (least + self.random.below(5), self.random.below(3));
                self.cells_and_replacements(base, added)
            }
            Size::Medium | Size::Mixed => {
                let (base, added) = (self.random.between(3, 15), self.random.below(10));
                self.cells_and_replacements(base, added)
            }
        }
    }

    fn cells_and_replacements(&mut self, base: u32, added: u32) -> List {
        let mut words = 12_000;
        let base = self.shapes(base, &mut words);
        let added = self.shapes(added, &mut words);
        let mut list = self.lay_out(base, added);
        let most = if self.size == Size::Medium { 8 } else { 2 };
        self.replace_cells(&mut list, most, 40);
        let least = if self.scope.inductive { most } else { 0 };
        let wanted = least + self.random.below(2 * most + 1);
        self.replace_nets(&mut list, wanted);
        fit(list)
    }

    /// So many shapes, as long as there are words for them.
    fn shapes(&mut self, count: u32, words: &mut u32) -> Vec<Shape> {
        let drawn = (0..count).map(|_| self.shape()).collect::<Vec<_>>();
        let fitting = drawn.into_iter().take_while(|shape| {
            let fits = shape.length() <= *words;
            *words -= if fits { shape.length() } else { 0 };
            fits
        });
        fitting.collect()
    }

    fn width(&mut self) -> u32 {
        match self.size {
            Size::Medium | Size::Long => self.random.pick(&ANY_WIDTH),
            Size::Tiny if self.random.percent(97) => self.random.pick(&NARROW).min(2),
            _ if self.random.percent(90) => self.random.pick(&NARROW),
            _ => self.random.pick(&ANY_WIDTH),
        }
    }

    fn operation(&mut self) -> u32 {
        if self.scope.inductive && self.random.percent(35) {
            return list::DFF;
        }
        let divides = self.scope.divisions && self.random.percent(30);
        self.random.pick(if divides { &DIVISIONS } else { &OPERATIONS })
    }

    fn shape(&mut self) -> Shape {
        let op = self.operation();
        let n = self.width();
        self.shape_of(op, n)
    }

    /// A shape of this operation whose n is about this.
    fn shape_of(&mut self, op: u32, n: u32) -> Shape {
        let n = match op {
            list::EQ | list::ULT | list::SLT | list::SSHR | list::SDIVTRUNC | list::SMODTRUNC => n.max(1),
            list::VOID | list::NOTE | list::AIG => 0,
            _ => n,
        };
        let m = match op {
            list::SHL..=list::XSHR => self.amount_width(),
            list::ASSIGN => self.random.between(0, n),
            _ => 0,
        };
        let alternates = match op {
            list::MATCH => {
                let k = self.width();
                self.alternates(n, k)
            }
            _ => vec![],
        };
        Shape { op, n, m, alternates }
    }

    fn amount_width(&mut self) -> u32 {
        match self.size {
            Size::Tiny => self.random.pick(&[0, 1, 1, 2]),
            Size::Small => self.random.pick(&[0, 1, 1, 2, 2, 3, 6]),
            _ => self.random.pick(&[0, 1, 2, 3, 5, 6, 16, 31, 32]),
        }
    }

    /// How many alternates each of k patterns of n constants has.
    fn alternates(&mut self, n: u32, k: u32) -> Vec<u32> {
        let many = self.size == Size::Medium && self.random.percent(5) && n * k < 70;
        (0..k)
            .map(|_| match self.random.below(10) {
                0 => 0,
                1..=6 => 1,
                7 | 8 => 2,
                _ if many => 64,
                _ => 3,
            })
            .collect()
    }

    /// A shape of this output width, for a replacement's new cell.
    fn shape_of_width(&mut self, width: u32) -> Shape {
        loop {
            let op = self.operation();
            let shape = match op {
                list::VOID | list::INPUT | list::NOTE => continue,
                list::ADC if width == 0 => continue,
                list::ADC => self.shape_of(op, width - 1),
                list::EQ | list::ULT | list::SLT | list::AIG => {
                    let n = self.width();
                    self.shape_of(op, n)
                }
                list::MATCH => {
                    let n = self.width();
                    let alternates = self.alternates(n, width);
                    Shape { op, n, m: 0, alternates }
                }
                _ => self.shape_of(op, width),
            };
            // No cell but Adc has 64 bits.
            if shape.output_width() == width && shape.n < 64 && shape.alternates.len() < 64 {
                return shape;
            }
        }
    }

    /// Fixes the slots of all shapes and draws the nets of their cells.
    fn lay_out(&mut self, base: Vec<Shape>, added: Vec<Shape>) -> List {
        for (shape, in_base) in base.iter().map(|shape| (shape, true)).chain(added.iter().map(|shape| (shape, false))) {
            let void = shape.op == list::VOID;
            for slot in self.slots..self.slots + shape.slots() {
                if in_base {
                    self.base_voids.push(void);
                }
                if !(in_base && void) {
                    self.readable.push(slot);
                }
                if shape.op == list::DFF {
                    self.dff_slots.push(slot);
                }
                if void && !in_base {
                    self.added_voids.push(slot);
                }
            }
            self.slots += shape.slots();
        }
        let mut list = List::default();
        self.here = 0;
        for shape in &base {
            list.base.push(self.cell(shape));
            self.here += shape.slots();
        }
        for shape in &added {
            list.added.push(self.cell(shape));
            self.here += shape.slots();
        }
        list
    }

    fn constant(&mut self) -> Net {
        self.random.pick(&[Net::ZERO, Net::ONE, Net::X])
    }

    /// A net to be read: often a slot before the cell, so that lists without a loop are common.
    fn net(&mut self) -> Net {
        if self.readable.is_empty() || self.random.percent(20) {
            return self.constant();
        }
        let earlier = self.readable.partition_point(|slot| *slot < self.here) as u32;
        let among = if earlier > 0 && self.random.percent(75) { earlier } else { self.readable.len() as u32 };
        Net::of_slot(self.readable[self.random.below(among) as usize])
    }

    fn nets(&mut self, n: u32) -> Vec<Net> {
        match self.random.below(8) {
            // A run of neighbouring slots.
            0..=2 if !self.readable.is_empty() => {
                let start = self.random.below(self.readable.len() as u32) as usize;
                let run = self.readable[start..].iter().take(n as usize).map(|slot| Net::of_slot(*slot));
                let mut nets = run.collect::<Vec<_>>();
                while nets.len() < n as usize {
                    nets.push(self.net());
                }
                nets
            }
            3 => {
                let repeated = self.net();
                vec![repeated; n as usize]
            }
            4 => self.constants(n),
            _ => (0..n).map(|_| self.net()).collect(),
        }
    }

    fn constants(&mut self, n: u32) -> Vec<Net> {
        (0..n).map(|_| self.constant()).collect()
    }

    fn control(&mut self) -> Control {
        Control { net: self.net(), inverted: self.random.percent(35) }
    }

    /// A clock may name any slot, a Void of the base too.
    fn clock(&mut self) -> Control {
        let mut control = self.control();
        if self.random.percent(30) {
            control.net = Net::of_slot(self.random.below(self.slots));
        }
        control
    }

    fn cell(&mut self, shape: &Shape) -> Cell {
        let n = shape.n;
        match shape.op {
            list::VOID => Cell::Void,
            list::BUF | list::NOT => Cell::One(shape.op, self.nets(n)),
            list::MUX => Cell::Mux(self.net(), self.nets(n), self.nets(n)),
            list::ADC => Cell::Adc(self.nets(n), self.nets(n), self.net()),
            list::AIG => Cell::Aig(self.control(), self.control()),
            list::SHL..=list::XSHR => {
                let stride = self.random.pick(&STRIDES);
                Cell::Shift { op: shape.op, value: self.nets(n), amount: self.nets(shape.m), stride }
            }
            list::MATCH => {
                let pattern = |many: &u32, all: &mut Self| (0..*many).map(|_| all.constants(n)).collect();
                let patterns = shape.alternates.iter().map(|many| pattern(many, self)).collect();
                Cell::Match { value: self.nets(n), enable: self.net(), patterns }
            }
            list::ASSIGN => {
                let offset = self.random.between(0, n - shape.m);
                Cell::Assign { value: self.nets(n), enable: self.net(), update: self.nets(shape.m), offset }
            }
            list::DFF => self.dff(n),
            list::IOBUF => Cell::IoBuf(n),
            list::INPUT => Cell::Input(n),
            list::NOTE => Cell::Note,
            op => Cell::Two(op, self.nets(n), self.nets(n)),
        }
    }

    fn dff(&mut self, n: u32) -> Cell {
        let never = Control { net: Net::ZERO, inverted: false };
        let mut clear = self.control();
        if self.random.percent(40) {
            clear = self.random.pick(&[never, Control { net: Net::ONE, inverted: true }]);
        }
        Cell::Dff(Dff {
            reset_over_enable: self.random.percent(50),
            clock: self.clock(),
            clear,
            reset: if self.random.percent(30) { never } else { self.control() },
            enable: self.control(),
            data: self.nets(n),
            clear_value: self.constants(n),
            reset_value: self.constants(n),
        })
    }

    /// Replaces some cells of the base, each with this chance.
    fn replace_cells(&mut self, list: &mut List, most: u32, chance: u32) {
        let mut slot = 0;
        for old in list.base.clone() {
            self.here = slot;
            let full = list.cell_replacements.len() as u32 >= most;
            if old != Cell::Void && !full && self.random.percent(chance) {
                let same = !matches!(old, Cell::Input(_) | Cell::Note) && self.random.percent(8);
                let new = if same {
                    old.clone()
                } else {
                    let shape = self.shape_of_width(old.output_width());
                    self.cell(&shape)
                };
                list.cell_replacements.push((slot, new));
            }
            slot += old.slots();
        }
    }

    /// Replaces about so many nets: constants, Voids, flip-flops by flip-flops, and any others.
    fn replace_nets(&mut self, list: &mut List, wanted: u32) {
        self.here = self.slots;
        let mut froms = (0..wanted).map(|_| self.from()).collect::<Vec<_>>();
        froms.sort();
        froms.dedup();
        list.net_replacements = froms.into_iter().map(|from| (from, self.to(from))).collect();
    }

    fn from(&mut self) -> Net {
        let voids = self.base_voids.iter().filter(|void| **void).count() as u32;
        if self.scope.inductive && !self.dff_slots.is_empty() && self.random.percent(50) {
            return Net::of_slot(self.random.pick(&self.dff_slots));
        }
        match self.random.below(10) {
            0 => self.constant(),
            1..=3 if !self.dff_slots.is_empty() => Net::of_slot(self.random.pick(&self.dff_slots)),
            4 | 5 if voids > 0 => {
                let wanted = self.random.below(voids) as usize;
                let void = self.base_voids.iter().enumerate().filter(|(_, void)| **void).nth(wanted);
                Net::of_slot(void.unwrap().0 as u32)
            }
            6 if !self.added_voids.is_empty() => Net::of_slot(self.random.pick(&self.added_voids)),
            _ if self.slots > 0 => Net::of_slot(self.random.below(self.slots)),
            _ => self.constant(),
        }
    }

    /// What replaces a net. A flip-flop's net is replaced by an added Void's now and then, where the Rust traps.
    fn to(&mut self, from: Net) -> Net {
        let of_dff = from.slot().is_some_and(|slot| self.dff_slots.contains(&slot));
        let of_base_void = from.slot().is_some_and(|slot| self.base_voids.get(slot as usize) == Some(&true));
        if of_dff && self.random.percent(if self.scope.inductive { 80 } else { 55 }) {
            return Net::of_slot(self.random.pick(&self.dff_slots));
        }
        if !of_base_void && self.random.percent(6) {
            return from;
        }
        let mut to = self.net();
        while of_dff && to.slot().is_some_and(|slot| self.added_voids.contains(&slot)) && self.random.percent(60) {
            to = self.net();
        }
        to
    }

    /// Lists near a bound, of eight kinds; where flip-flops are to be joined, of those that hold some, and one more.
    fn long_list(&mut self) -> List {
        match if self.scope.inductive { self.random.pick(&[1, 7, 8]) } else { self.random.below(8) } {
            // Wide cells until the list has exactly 16,384 words.
            0 => self.full_list(|all| {
                let op = all.random.pick(&OPERATIONS);
                let n = all.random.pick(&[63, 63, 62, 33, 17]);
                all.shape_of(op, n)
            }),
            // Any cells until the list has exactly 16,384 words.
            1 => self.full_list(Generator::shape),
            // 4,095 cells of width 0, all replaced: exactly 16,384 words.
            2 => {
                let note = Shape { op: list::NOTE, n: 0, m: 0, alternates: vec![] };
                let mut list = self.lay_out(vec![note; 4_095], vec![]);
                let new = |op| if op == list::IOBUF { Cell::IoBuf(0) } else { Cell::One(op, vec![]) };
                let ops = [list::BUF, list::NOT, list::IOBUF];
                list.cell_replacements = (0..4_095).map(|slot| (slot, new(self.random.pick(&ops)))).collect();
                list
            }
            // 4,096 slots and 4,096 replaced nets.
            3 => {
                let base = self.random.between(0, 4_096);
                let cells = (0..4_096).map(|_| Shape {
                    op: self.random.pick(&[list::VOID, list::VOID, list::NOTE]),
                    n: 0,
                    m: 0,
                    alternates: vec![],
                });
                let mut base_cells = cells.collect::<Vec<_>>();
                let added_cells = base_cells.split_off(base as usize);
                let mut list = self.lay_out(base_cells, added_cells);
                let first = self.random.below(4);
                let froms = (first..first + 4_096).map(|at| if at < 4_098 { Net(at) } else { Net::X });
                list.net_replacements = froms.map(|from| (from, self.to(from))).collect();
                list
            }
            // 4,096 slots of narrow cells and of a few wide ones.
            4 => self.all_slots(),
            // Matches of no width with 63 patterns of 64 empty alternates each: the most calls for a list's length.
            5 => {
                let wide = Shape { op: list::MATCH, n: 0, m: 0, alternates: vec![64; 63] };
                let cells = self.random.between(1, 4) as usize;
                let mut list = self.lay_out(vec![wide; cells], vec![]);
                self.replace_nets(&mut list, 3);
                list
            }
            // A Match of 63 nets, with patterns of 64 alternates.
            6 => {
                let patterns = self.random.between(1, 3) as usize;
                let deep = Shape { op: list::MATCH, n: 63, m: 0, alternates: vec![64; patterns] };
                let mut list =
                    self.lay_out(vec![Shape { op: list::INPUT, n: 63, m: 0, alternates: vec![] }], vec![deep]);
                self.replace_nets(&mut list, 3);
                list
            }
            // Flip-flops of one bit, as many as the words allow, each net replaced.
            8 => {
                let dff = Shape { op: list::DFF, n: 1, m: 0, alternates: vec![] };
                let base = self.random.between(0, 1_365);
                let mut list = self.lay_out(vec![dff.clone(); base as usize], vec![dff; 1_365 - base as usize]);
                list.net_replacements = (2..2 + self.slots).map(|at| (Net(at), self.to(Net(at)))).collect();
                list
            }
            // Flip-flops of 63 bits, all their nets replaced by each other's.
            _ => {
                let dff = Shape { op: list::DFF, n: 63, m: 0, alternates: vec![] };
                let (base, added) = (self.random.between(1, 30), self.random.between(1, 10));
                let mut list = self.lay_out(vec![dff.clone(); base as usize], vec![dff; added as usize]);
                self.replace_cells(&mut list, 12, 40);
                let wanted = self.random.below(self.slots);
                self.replace_nets(&mut list, wanted);
                list
            }
        }
    }

    /// Cells drawn by `shape` while slots and words last, then Notes and pairs until the list has 16,384 words.
    fn full_list(&mut self, shape: impl Fn(&mut Self) -> Shape) -> List {
        let for_replacements = self.random.below(4_000);
        let (mut words, mut slots) = (16_384 - 4 - for_replacements, 4_096 - 600);
        let mut cells = vec![];
        loop {
            let next = shape(self);
            if next.length() > words || next.slots() > slots {
                break;
            }
            words -= next.length();
            slots -= next.slots();
            cells.push(next);
        }
        let base = self.random.between(0, cells.len() as u32) as usize;
        let added = cells.split_off(base);
        let mut list = self.lay_out(cells, added);
        self.replace_cells(&mut list, 20, 10);
        let wanted = self.random.below(for_replacements / 4 + 1);
        self.replace_nets(&mut list, wanted);
        let mut list = fit(list);
        let missing = 16_384 - list.words().len() as u32;
        list.added.extend((0..missing.min(4_096 - list.slots())).map(|_| Cell::Note));
        list
    }

    /// Narrow cells and a few wide ones, filled up with Voids to 4,096 slots.
    fn all_slots(&mut self) -> List {
        self.size = Size::Small;
        let (mut words, mut slots, mut cells) = (14_000, 4_096, vec![]);
        loop {
            let next = if self.random.percent(70) { self.narrow() } else { self.shape() };
            if next.length() > words || next.slots() > slots {
                break;
            }
            words -= next.length();
            slots -= next.slots();
            cells.push(next);
        }
        cells.extend((0..slots.min(words)).map(|_| Shape { op: list::VOID, n: 0, m: 0, alternates: vec![] }));
        let base = self.random.between(0, cells.len() as u32) as usize;
        let added = cells.split_off(base);
        let mut list = self.lay_out(cells, added);
        self.replace_cells(&mut list, 50, 5);
        let wanted = self.random.below(300);
        self.replace_nets(&mut list, wanted);
        list
    }

    /// A cell whose record is short for the slots it takes.
    fn narrow(&mut self) -> Shape {
        let (op, n) = self.random.pick(&[
            (list::VOID, 0),
            (list::NOTE, 0),
            (list::AIG, 0),
            (list::BUF, 0),
            (list::NOT, 1),
            (list::INPUT, 2),
            (list::INPUT, 63),
            (list::IOBUF, 17),
        ]);
        self.shape_of(op, n)
    }
}
