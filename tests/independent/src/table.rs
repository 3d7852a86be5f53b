//! What a script holds: "An entry is one of twenty-five kinds, each with its own operands."

pub const MOST_ENTRIES: usize = 128;
pub const MOST_IMPORTS: usize = 48;
pub const MOST_VARIABLES: usize = 32;
pub const MOST_LABEL: usize = 32;
pub const MOST_SCRIPT: usize = 4096;
/// "a whole number from −2^47 to 2^47−1"
pub const LEAST_NUMBER: i64 = -(1 << 47);
pub const GREATEST_NUMBER: i64 = (1 << 47) - 1;

#[derive(Clone, Copy, PartialEq, Eq, Debug)]
pub enum Sort {
    Condition,
    Event,
    Number,
    None,
}

/// What stands in the place of an operand.
#[derive(Clone, Copy, PartialEq, Eq, Debug)]
pub enum Operand {
    Entry(Sort),
    ConditionImport,
    EventImport,
    Variable,
    Constant,
}

impl Operand {
    /// "An entry number takes 7 bits, an import 6, a variable 5, a constant 48."
    pub fn width(self) -> usize {
        match self {
            Operand::Entry(_) => 7,
            Operand::ConditionImport | Operand::EventImport => 6,
            Operand::Variable => 5,
            Operand::Constant => 48,
        }
    }
}

/// The kinds, in the order of their numbers 0 to 24.
#[derive(Clone, Copy, PartialEq, Eq, Debug)]
pub enum Kind {
    ConditionImport,
    Defined,
    Pair,
    Not,
    Or,
    And,
    Implies,
    Less,
    Equal,
    EventImport,
    Start,
    End,
    Both,
    Either,
    When,
    Constant,
    Variable,
    Sum,
    Difference,
    Clock,
    Value,
    Time,
    Update,
    Alarm,
    Property,
}

pub const KINDS: [Kind; 25] = [
    Kind::ConditionImport,
    Kind::Defined,
    Kind::Pair,
    Kind::Not,
    Kind::Or,
    Kind::And,
    Kind::Implies,
    Kind::Less,
    Kind::Equal,
    Kind::EventImport,
    Kind::Start,
    Kind::End,
    Kind::Both,
    Kind::Either,
    Kind::When,
    Kind::Constant,
    Kind::Variable,
    Kind::Sum,
    Kind::Difference,
    Kind::Clock,
    Kind::Value,
    Kind::Time,
    Kind::Update,
    Kind::Alarm,
    Kind::Property,
];

impl Kind {
    /// The table's first column: conditions 0 to 8, events 9 to 14, numbers 15 to 21, none 22 to 24.
    pub fn sort(self) -> Sort {
        match self as usize {
            0..=8 => Sort::Condition,
            9..=14 => Sort::Event,
            15..=21 => Sort::Number,
            _ => Sort::None,
        }
    }

    /// The operands of a kind, in the order in which the document names them.
    pub fn operands(self) -> &'static [Operand] {
        const C: Operand = Operand::Entry(Sort::Condition);
        const E: Operand = Operand::Entry(Sort::Event);
        const N: Operand = Operand::Entry(Sort::Number);
        match self {
            Kind::ConditionImport => &[Operand::ConditionImport],
            Kind::Defined | Kind::Not | Kind::Start | Kind::End | Kind::Property => &[C],
            Kind::Or | Kind::And | Kind::Implies => &[C, C],
            Kind::Less | Kind::Equal | Kind::Sum | Kind::Difference => &[N, N],
            Kind::EventImport | Kind::Value => &[Operand::EventImport],
            Kind::Pair | Kind::Both | Kind::Either => &[E, E],
            Kind::When => &[E, C],
            Kind::Constant => &[Operand::Constant],
            Kind::Variable => &[Operand::Variable],
            Kind::Clock => &[],
            Kind::Time | Kind::Alarm => &[E],
            Kind::Update => &[E, Operand::Variable, N],
        }
    }

    pub fn has_label(self) -> bool {
        self == Kind::Alarm || self == Kind::Property
    }
}

/// An entry: its kind, and its operands from the front; places without an operand hold 0.
#[derive(Clone, Copy, PartialEq, Eq, Debug)]
pub struct Entry {
    pub kind: Kind,
    pub operands: [i64; 3],
}

impl Entry {
    /// The operand at this place as an entry, import or variable number.
    pub fn place(&self, operand: usize) -> usize {
        self.operands[operand] as usize
    }

    /// The entries that stand as operands of this one.
    pub fn operand_entries(&self) -> Vec<usize> {
        let wanted = self.kind.operands().iter().enumerate();
        wanted
            .filter(|(_, operand)| matches!(operand, Operand::Entry(_)))
            .map(|(place, _)| self.place(place))
            .collect()
    }
}

/// An accepted script.
#[derive(Clone, Default, Debug)]
pub struct Table {
    /// For each import: whether it is an event.
    pub imports: Vec<bool>,
    /// For each variable: the number it starts with, if it starts defined.
    pub variables: Vec<Option<i64>>,
    pub entries: Vec<Entry>,
    /// "For each alarm and property entry, in order"
    pub labels: Vec<Vec<u8>>,
}

impl Table {
    /// Which of the labels is this entry's: as many stand before it as labelled entries do.
    pub fn label_place(&self, entry: usize) -> usize {
        let before = &self.entries[..entry];
        before.iter().filter(|e| e.kind.has_label()).count()
    }

    /// The updates of a variable, in script order.
    pub fn updates_of(&self, variable: usize) -> Vec<usize> {
        let entries = self.entries.iter().enumerate();
        entries
            .filter(|(_, e)| e.kind == Kind::Update && e.place(1) == variable)
            .map(|(number, _)| number)
            .collect()
    }
}
