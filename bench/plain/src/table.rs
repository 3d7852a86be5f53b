//! What a script holds, compact: an entry is a kind and up to three operands of a byte, its constant stands aside.

pub const MOST_ENTRIES: usize = 128;
pub const MOST_IMPORTS: usize = 48;
pub const MOST_VARIABLES: usize = 32;
pub const MOST_LABEL: usize = 32;
pub const MOST_SCRIPT: usize = 4096;

/// The kinds, in the order of their numbers 0 to 24.
#[derive(Clone, Copy, PartialEq, Eq, Debug)]
#[repr(u8)]
pub enum Kind {
    ConditionImport,
    Defined,
    Pair,
    Not,
    Or,
    And,
    Implies,
    Less,
    Equal,
    EventImport,
    Start,
    End,
    Both,
    Either,
    When,
    Constant,
    Variable,
    Sum,
    Difference,
    Clock,
    Value,
    TimeOf,
    Update,
    Alarm,
    Property,
}

use Kind::*;

#[derive(Clone, Copy, PartialEq, Eq, Debug)]
pub enum Sort {
    Condition,
    Event,
    Number,
    None,
}

/// What stands in an operand's place.
#[derive(Clone, Copy, PartialEq, Eq, Debug)]
pub enum Operand {
    Entry(Sort),
    Import(Sort),
    Variable,
    Constant,
}

const KINDS: [Kind; 25] = [
    ConditionImport,
    Defined,
    Pair,
    Not,
    Or,
    And,
    Implies,
    Less,
    Equal,
    EventImport,
    Start,
    End,
    Both,
    Either,
    When,
    Constant,
    Variable,
    Sum,
    Difference,
    Clock,
    Value,
    TimeOf,
    Update,
    Alarm,
    Property,
];

impl Kind {
    /// The kind of this number; none from 25 on.
    pub fn of_number(number: u64) -> Option<Kind> {
        KINDS.get(number as usize).copied()
    }

    pub fn sort(self) -> Sort {
        match self as u8 {
            0..=8 => Sort::Condition,
            9..=14 => Sort::Event,
            15..=21 => Sort::Number,
            _ => Sort::None,
        }
    }

    /// The operands of a kind, in their order.
    pub fn operands(self) -> &'static [Operand] {
        const C: Operand = Operand::Entry(Sort::Condition);
        const E: Operand = Operand::Entry(Sort::Event);
        const N: Operand = Operand::Entry(Sort::Number);
        match self {
            ConditionImport => &[Operand::Import(Sort::Condition)],
            EventImport | Value => &[Operand::Import(Sort::Event)],
            Defined | Not | Start | End | Property => &[C],
            Or | And | Implies => &[C, C],
            Pair | Both | Either => &[E, E],
            When => &[E, C],
            Less | Equal | Sum | Difference => &[N, N],
            TimeOf | Alarm => &[E],
            Update => &[E, Operand::Variable, N],
            Constant => &[Operand::Constant],
            Variable => &[Operand::Variable],
            Clock => &[],
        }
    }

    pub fn has_label(self) -> bool {
        matches!(self, Alarm | Property)
    }

    /// How many bits an entry of this kind takes.
    pub fn width(self) -> usize {
        5 + self.operands().iter().map(|operand| operand.width()).sum::<usize>()
    }
}

impl Operand {
    /// "An entry number takes 7 bits, an import 6, a variable 5, a constant 48"
    pub fn width(self) -> usize {
        match self {
            Operand::Entry(_) => 7,
            Operand::Import(_) => 6,
            Operand::Variable => 5,
            Operand::Constant => 48,
        }
    }
}

/// An entry: its kind, and its operands from the front; a constant stands in the table's `constants`.
#[derive(Clone, Copy, PartialEq, Eq, Debug)]
pub struct Entry {
    pub kind: Kind,
    pub operands: [u8; 3],
}

/// A script's table.
#[derive(Clone, PartialEq, Eq, Debug)]
pub struct Table {
    /// How many entries, imports and variables there are.
    pub n: u8,
    pub q: u8,
    pub v: u8,
    /// Bit i is set where import i is an event.
    pub events: u64,
    /// The number a variable starts with, if it starts defined.
    pub variables: [Option<i64>; MOST_VARIABLES],
    pub entries: [Entry; MOST_ENTRIES],
    /// At the place of an entry of kind constant: the constant.
    pub constants: [i64; MOST_ENTRIES],
}

impl Table {
    /// "counts 0, all slots unused"
    pub fn empty() -> Table {
        Table {
            n: 0,
            q: 0,
            v: 0,
            events: 0,
            variables: [None; MOST_VARIABLES],
            entries: [Entry { kind: Constant, operands: [0; 3] }; MOST_ENTRIES],
            constants: [0; MOST_ENTRIES],
        }
    }

    /// The entries in use.
    #[inline(always)]
    pub fn used(&self) -> &[Entry] {
        &self.entries[..usize::from(self.n)]
    }

    pub fn is_event(&self, import: u8) -> bool {
        self.events >> import & 1 == 1
    }

    /// An operand of entry k that is an entry, an import or a variable: 7, then 8.
    pub fn judge(&self, k: usize, operand: Operand, number: u8) -> Result<(), u8> {
        let place = usize::from(number);
        let is_there = match operand {
            Operand::Entry(_) => place < k,
            Operand::Import(_) => number < self.q,
            Operand::Variable => number < self.v,
            Operand::Constant => true,
        };
        if !is_there {
            return Err(7);
        }
        let is_right = match operand {
            Operand::Entry(sort) => self.entries[place].kind.sort() == sort,
            Operand::Import(sort) => self.is_event(number) == (sort == Sort::Event),
            _ => true,
        };
        if is_right {
            Ok(())
        } else {
            Err(8)
        }
    }

    /// How many bytes the table takes in a script.
    pub fn packed_size(&self) -> usize {
        let entries: usize = self.used().iter().map(|entry| entry.kind.width()).sum();
        (32 + usize::from(self.q) + 49 * usize::from(self.v) + entries).div_ceil(8)
    }
}
