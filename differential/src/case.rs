//! A public call with everything that it takes, refusable calls among them, and what a call answers.
//!
//! A field that a question gains has one place each: here (and in [`Case::taken`]), in `faces` (how it is passed), in
//! `reference` and `model` (what must be answered), in `command` (its word), in `shrink` (how it is made smaller) and in
//! `record` (its tag). A field that an answer gains: [`Call::fields`], `faces`, `reference` and `model`, or `expect` for
//! one of the planner's that the Rust does not have.

use std::sync::Arc;

/// A public call, by its number in the vectors' file.
#[derive(Clone, Copy, Debug, PartialEq, Eq)]
pub enum Call {
    Plan = 0,
    Replay = 1,
    Mark = 2,
    Pack = 3,
    StarSwap = 4,
    DeleteTail = 5,
    /// Stepping back.
    Rewind = 6,
}

impl Call {
    pub const COUNT: usize = 7;
    pub const ALL: [Self; Self::COUNT] =
        [Self::Plan, Self::Replay, Self::Mark, Self::Pack, Self::StarSwap, Self::DeleteTail, Self::Rewind];

    pub fn name(self) -> &'static str {
        ["planner", "replay", "marking", "packing", "star-swap", "delete-tail", "rewind"][self as usize]
    }

    pub fn from_name(name: &str) -> Option<Self> {
        Self::ALL.into_iter().find(|call| call.name() == name)
    }

    /// Whether the call takes the items beneath.
    pub fn takes_beneath(self) -> bool {
        matches!(self, Self::Plan | Self::Replay | Self::Mark | Self::Rewind)
    }

    /// The fields of an answer behind the refusal, in order. A new field goes to the end.
    pub fn fields(self) -> &'static [&'static str] {
        match self {
            Self::Plan => &PLAN_FIELDS,
            Self::Replay => &["index", "length", "highest"],
            Self::Mark => &["index", "mark", "highest"],
            Self::Pack => &["bits 0 to 31", "bits 32 to 63", "bits 64 to 95", "bits 96 to 127"],
            Self::StarSwap | Self::DeleteTail => &["step count"],
            Self::Rewind => &["length"],
        }
    }
}

const PLAN_FIELDS: [&str; 10] = [
    "found",
    "step count",
    "plan gas",
    "plan bytes",
    "ceiling gas",
    "ceiling bytes",
    "origin",
    "ending",
    "expansions",
    "highest",
];

/// Places of some of the planner's fields.
pub const FOUND: usize = 0;
pub const STEP_COUNT: usize = 1;
pub const PLAN_COST: usize = 2;
pub const CEILING: usize = 4;
pub const ORIGIN: usize = 6;
pub const ENDING: usize = 7;
pub const EXPANSIONS: usize = 8;
pub const HIGHEST: usize = 9;

/// The place of the highest window among the fields of replay and of marking.
pub const HIGHEST_REPLAYED: usize = 2;

/// The most items that a stack has, those beneath the window among them.
pub const STACK_LEN: usize = 1_024;

/// Reaches, greatest length, the items beneath the window, and allowances.
#[derive(Clone, Copy, Debug, Default, PartialEq, Eq)]
pub struct Limits {
    pub dup_max: usize,
    pub swap_max: usize,
    pub max_len: usize,
    pub beneath: usize,
    pub max_expansions: usize,
    pub states_without: usize,
    pub states_with: usize,
}

impl Limits {
    /// In document 01's order: reaches, `max_len`, allowances. The items beneath stand beside them.
    pub fn numbers(&self) -> [usize; 6] {
        [self.dup_max, self.swap_max, self.max_len, self.max_expansions, self.states_without, self.states_with]
    }

    /// The planner's window: the smaller of `max_len` and 1,024 less the items beneath, 0 where these are more.
    pub fn window(&self) -> usize {
        self.max_len.min(STACK_LEN.saturating_sub(self.beneath))
    }

    /// The same with that window as `max_len` and nothing beneath.
    pub fn narrowed(&self) -> Self {
        Self { max_len: self.window(), beneath: 0, ..*self }
    }
}

/// The limits of numbers in document 01's order, with nothing beneath.
pub fn limits(numbers: [usize; 6]) -> Limits {
    let [dup_max, swap_max, max_len, max_expansions, states_without, states_with] = numbers;
    Limits { dup_max, swap_max, max_len, beneath: 0, max_expansions, states_without, states_with }
}

/// Lengths of the lists lent, as counts of numbers; `steps` is the result list's for a replay and a stepping back,
/// `popped` that of the list for a replay's popped keys.
#[derive(Clone, Copy, Debug, Default, PartialEq, Eq)]
pub struct Lengths {
    pub steps: usize,
    pub nodes: usize,
    pub heads: usize,
    pub open: usize,
    pub popped: usize,
}

impl Lengths {
    pub fn numbers(&self) -> [usize; 5] {
        [self.steps, self.nodes, self.heads, self.open, self.popped]
    }

    pub fn of(numbers: [usize; 5]) -> Self {
        let [steps, nodes, heads, open, popped] = numbers;
        Self { steps, nodes, heads, open, popped }
    }
}

/// Kinds and prices of any length and value.
#[derive(Clone, Debug, PartialEq, Eq)]
pub struct Tables {
    pub kinds: Vec<u8>,
    pub prices: Vec<u32>,
}

/// Places of the pairs in a price list.
pub const POP: usize = 0;
pub const DUP: usize = 1;
pub const SWAP: usize = 17;
pub const KEY: usize = 34;
pub const PAIRS: usize = 98;

impl Tables {
    /// The desk's tables: pop 2/1, Dup 3/1, Swap 3/1, keys 0 to 31 values 6/3, key 32 zero 2/1, others immediates 3/2.
    pub fn desk() -> Self {
        let mut kinds = vec![0; 32];
        kinds.push(2);
        kinds.resize(64, 1);
        let mut tables = Self { kinds, prices: Vec::new() };
        tables.price(|pair| match pair {
            POP => (2, 1),
            66 => (2, 1),
            pair if pair < KEY => (3, 1),
            pair if pair < KEY + 32 => (6, 3),
            _ => (3, 2),
        });
        tables
    }

    /// The desk's kinds and these prices, by the place of the pair.
    pub fn desk_with(price: impl FnMut(usize) -> (u32, u32)) -> Self {
        let mut tables = Self::desk();
        tables.price(price);
        tables
    }

    /// Sets all prices, by the place of the pair.
    pub fn price(&mut self, mut price: impl FnMut(usize) -> (u32, u32)) {
        self.prices = (0..PAIRS).map(&mut price).flat_map(|(gas, bytes)| [gas, bytes]).collect();
    }
}

/// A call with everything that it takes. What it does not take is as [`Case::new`] has it, and means nothing.
#[derive(Clone, Debug, PartialEq, Eq)]
pub struct Case {
    pub call: Call,
    /// The window that the call begins with: the start, of a stepping back the end.
    pub start: Vec<u8>,
    pub goal: Vec<u8>,
    /// The steps that a replay, a marking or a stepping back is asked.
    pub steps: Vec<u16>,
    /// The popped keys that a stepping back is given, the first popped first.
    pub popped: Vec<u8>,
    pub limits: Limits,
    pub tables: Arc<Tables>,
    /// What a marking holds the steps to: gas, bytes.
    pub ceiling: [u32; 2],
    pub lent: Lengths,
}

impl Case {
    /// A call of nothing, with these tables.
    pub fn new(call: Call, tables: &Arc<Tables>) -> Self {
        Self {
            call,
            start: Vec::new(),
            goal: Vec::new(),
            steps: Vec::new(),
            popped: Vec::new(),
            limits: Limits::default(),
            tables: Arc::clone(tables),
            ceiling: [0; 2],
            lent: Lengths::default(),
        }
    }

    /// A planning with the least lists.
    pub fn plan(limits: Limits, start: &[u8], goal: &[u8], tables: &Arc<Tables>) -> Self {
        let mut case = Self { limits, start: start.to_vec(), goal: goal.to_vec(), ..Self::new(Call::Plan, tables) };
        case.lent = case.least();
        case
    }

    /// The same call without what it does not take.
    pub fn taken(&self) -> Self {
        let Limits { dup_max, swap_max, max_len, beneath, .. } = self.limits;
        let machine = Limits { dup_max, swap_max, max_len, beneath, ..Limits::default() };
        let desk = Tables::desk();
        let mut case = self.clone();
        if self.call != Call::Rewind {
            case.popped = Vec::new();
        }
        match self.call {
            Call::Plan => {
                (case.steps, case.ceiling) = (Vec::new(), [0; 2]);
                case.lent.popped = 0;
            }
            Call::Replay | Call::Rewind => {
                let popped = if self.call == Call::Replay { self.lent.popped } else { 0 };
                (case.goal, case.ceiling) = (Vec::new(), [0; 2]);
                case.limits = machine;
                case.lent = Lengths { steps: self.lent.steps, popped, ..Lengths::default() };
                Arc::make_mut(&mut case.tables).prices = desk.prices;
            }
            Call::Mark => {
                case.limits = machine;
                case.lent = Lengths::default();
            }
            Call::Pack => case = Self { start: case.start, ..Self::new(Call::Pack, &Arc::new(desk)) },
            Call::StarSwap | Call::DeleteTail => {
                case = Self { start: case.start, goal: case.goal, ..Self::new(self.call, &Arc::new(desk)) };
                case.limits.swap_max = swap_max;
                case.lent.steps = self.lent.steps;
            }
        }
        case
    }

    /// The same call with nothing beneath.
    pub fn with_none_beneath(&self) -> Self {
        Self { limits: Limits { beneath: 0, ..self.limits }, ..self.clone() }
    }

    /// The larger state allowance.
    pub fn states(&self) -> usize {
        self.limits.states_without.max(self.limits.states_with)
    }

    /// The least lists that the call asks for.
    pub fn least(&self) -> Lengths {
        match self.call {
            Call::Plan => {
                let entries = self.states().saturating_add(50);
                Lengths {
                    steps: self.limits.max_expansions.max(128),
                    nodes: entries.saturating_mul(8),
                    heads: entries,
                    open: entries.saturating_mul(4),
                    popped: 0,
                }
            }
            Call::Replay => Lengths { steps: 21, popped: self.steps.len(), ..Lengths::default() },
            Call::Rewind => Lengths { steps: 21, ..Lengths::default() },
            Call::StarSwap | Call::DeleteTail => Lengths { steps: 128, ..Lengths::default() },
            Call::Mark | Call::Pack => Lengths::default(),
        }
    }
}

/// The most fields that a call answers.
const FIELDS: usize = PLAN_FIELDS.len();

/// What a call answers and writes.
#[derive(Clone, Debug, Default, PartialEq, Eq)]
pub struct Answer {
    pub refusal: u32,
    /// By the places of [`Call::fields`]; the rest 0.
    pub fields: [u64; FIELDS],
    /// What is written to the step list.
    pub plan: Vec<u16>,
    /// What is written to the result list.
    pub window: Vec<u8>,
    /// What is written to the list for popped keys.
    pub popped: Vec<u8>,
}

impl Answer {
    pub fn refused(refusal: u32) -> Self {
        Self { refusal, ..Self::default() }
    }

    /// An answer of these fields.
    pub fn of<const N: usize>(refusal: u32, fields: [u64; N]) -> Self {
        let mut answer = Self::refused(refusal);
        answer.fields[..N].copy_from_slice(&fields);
        answer
    }

    /// Gas and bytes at a place of the fields.
    pub fn cost(&self, at: usize) -> (u64, u64) {
        (self.fields[at], self.fields[at + 1])
    }

    /// In words: the refusal or each field, then the steps, the window and the popped keys.
    pub fn text(&self, call: Call) -> String {
        let mut text = if self.refusal != 0 { format!("refused {}", self.refusal) } else { String::from("accepted") };
        // Beside a refusal a field is shown only if it is not 0.
        for (name, field) in call.fields().iter().zip(self.fields) {
            if self.refusal == 0 || field != 0 {
                text += &format!(", {name} {field}");
            }
        }
        if !self.plan.is_empty() {
            let steps: Vec<String> = self.plan.iter().map(|&code| step_text(code)).collect();
            text += &format!("; {}", steps.join(", "));
        }
        if !self.window.is_empty() {
            text += &format!("; window {:?}", self.window);
        }
        if !self.popped.is_empty() {
            text += &format!("; popped {:?}", self.popped);
        }
        text
    }
}

/// A step code in words.
pub fn step_text(code: u16) -> String {
    let operand = code % 256;
    match code / 256 {
        0 if operand == 0 => "pop".into(),
        1 => format!("dup {operand}"),
        2 => format!("swap {operand}"),
        3 => format!("push {operand}"),
        4 => format!("load {operand}"),
        _ => format!("code {code}"),
    }
}
