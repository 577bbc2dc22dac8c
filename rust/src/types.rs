//! What a question and its answer are made of.

use crate::sys;
use std::{
    ffi::{CStr, c_char},
    fmt,
};

/// Gas and bytes; compared by gas, then bytes.
#[derive(Clone, Copy, Debug, Default, PartialEq, Eq, PartialOrd, Ord, Hash)]
#[non_exhaustive]
pub struct Cost {
    pub gas: u32,
    pub bytes: u32,
}

impl Cost {
    pub const fn new(gas: u32, bytes: u32) -> Self {
        Self { gas, bytes }
    }
}

/// One step on a window.
#[derive(Clone, Copy, Debug, PartialEq, Eq, Hash)]
pub enum Step {
    /// Drops the top.
    Pop,
    /// Copies the item at this place to the top.
    Dup(u8),
    /// Exchanges the top with the item at this depth.
    Swap(u8),
    /// Pushes this key, an immediate.
    PushImm(u8),
    /// Loads this key, a value.
    LoadVal(u8),
}

impl Step {
    /// Kind times 256 plus operand.
    pub const fn code(self) -> u16 {
        match self {
            Step::Pop => 0,
            Step::Dup(place) => 256 + place as u16,
            Step::Swap(depth) => 512 + depth as u16,
            Step::PushImm(key) => 768 + key as u16,
            Step::LoadVal(key) => 1024 + key as u16,
        }
    }

    /// The step of a code; none for another kind or a Pop with an operand.
    pub const fn from_code(code: u16) -> Option<Self> {
        let operand = (code & 255) as u8;
        match code >> 8 {
            0 if operand == 0 => Some(Step::Pop),
            1 => Some(Step::Dup(operand)),
            2 => Some(Step::Swap(operand)),
            3 => Some(Step::PushImm(operand)),
            4 => Some(Step::LoadVal(operand)),
            _ => None,
        }
    }
}

/// As the desk prints a step.
impl fmt::Display for Step {
    fn fmt(&self, f: &mut fmt::Formatter<'_>) -> fmt::Result {
        match self {
            Step::Pop => write!(f, "pop"),
            Step::Dup(place) => write!(f, "dup {place}"),
            Step::Swap(depth) => write!(f, "swap {depth}"),
            Step::PushImm(key) => write!(f, "push {key}"),
            Step::LoadVal(key) => write!(f, "load {key}"),
        }
    }
}

/// How far Dup and Swap reach, and how long a window may get.
#[derive(Clone, Copy, Debug, PartialEq, Eq)]
pub struct Reaches {
    /// Dup copies the items 0 to `dup_max` - 1; 0 to 16.
    pub dup_max: usize,
    /// Swap reaches the items 1 to `swap_max` - 1; 0 to 17.
    pub swap_max: usize,
    /// No window on the way is longer; 0 to 21.
    pub max_len: usize,
}

/// The greatest.
impl Default for Reaches {
    fn default() -> Self {
        Self { dup_max: 16, swap_max: 17, max_len: 21 }
    }
}

/// How much a planning may do, 0 to 65,536 each.
#[derive(Clone, Copy, Debug, PartialEq, Eq)]
pub struct Allowances {
    /// States that may be expanded.
    pub max_expansions: usize,
    /// States and open entries that may be held while no plan is in hand.
    pub states_without: usize,
    /// States and open entries that may be held with a plan in hand.
    pub states_with: usize,
}

/// A thousand each.
impl Default for Allowances {
    fn default() -> Self {
        Self { max_expansions: 1000, states_without: 1000, states_with: 1000 }
    }
}

/// What a key stands for.
#[derive(Clone, Copy, Debug, Default, PartialEq, Eq)]
pub enum Kind {
    #[default]
    Value,
    Immediate,
    /// The immediate zero; at most one key has this kind.
    Zero,
}

/// The price of each step, each number at most 30,000.
#[derive(Clone, Debug, PartialEq, Eq)]
pub struct PriceList {
    pub pop: Cost,
    pub dup: [Cost; 16],
    /// By depth; depth 0 is unused but checked.
    pub swap: [Cost; 17],
    /// Pushing or loading each key.
    pub key: [Cost; 64],
}

/// Kinds and prices, in the form that the planner takes.
#[derive(Clone, Debug, PartialEq, Eq)]
pub struct Tables {
    pub(crate) kinds: [u8; 64],
    pub(crate) prices: [u32; 196],
}

impl Tables {
    pub fn new(kinds: &[Kind; 64], list: &PriceList) -> Self {
        let costs = std::iter::once(&list.pop).chain(&list.dup).chain(&list.swap).chain(&list.key);
        let mut prices = [0; 196];
        for (pair, cost) in prices.chunks_exact_mut(2).zip(costs) {
            pair.copy_from_slice(&[cost.gas, cost.bytes]);
        }
        Self { kinds: kinds.map(|kind| kind as u8), prices }
    }

    /// The exam desk's tables: pop 2/1, Dup 3/1, Swap 3/1, keys 0 to 31 values 6/3, key 32 zero 2/1, others immediates
    /// 3/2.
    pub fn desk() -> Self {
        let mut kinds = [Kind::Immediate; 64];
        let mut key = [Cost::new(3, 2); 64];
        kinds[..32].fill(Kind::Value);
        key[..32].fill(Cost::new(6, 3));
        kinds[32] = Kind::Zero;
        key[32] = Cost::new(2, 1);
        let list = PriceList { pop: Cost::new(2, 1), dup: [Cost::new(3, 1); 16], swap: [Cost::new(3, 1); 17], key };
        Self::new(&kinds, &list)
    }

    /// One byte a key: 0 value, 1 immediate, 2 the immediate zero.
    pub fn kinds(&self) -> &[u8; 64] {
        &self.kinds
    }

    /// Pairs gas, bytes: pop, Dup 0 to 15, Swap 0 to 16, keys 0 to 63.
    pub fn prices(&self) -> &[u32; 196] {
        &self.prices
    }
}

/// The library's sentence for a number.
fn sentence(text: unsafe extern "C" fn(u32) -> *const c_char, number: u32) -> &'static str {
    // SAFETY: a sentence is a constant of the library, ended by a zero byte.
    unsafe { CStr::from_ptr(text(number)) }.to_str().expect("sentences are plain text")
}

/// Why a call is refused. Of those that apply the first is given, in this order: 1 to 5, 12, 6 to 11.
#[derive(Clone, Copy, Debug, PartialEq, Eq, Hash)]
#[non_exhaustive]
pub enum Refusal {
    /// 1: `dup_max` over 16 or `swap_max` over 17.
    Reach,
    /// 2: `max_len` over 21.
    Window,
    /// 3: an allowance over 65,536, or a replay, stepping back or marking of more than 65,536 steps.
    Allowance,
    /// 4: a second kind zero, or a price over 30,000.
    Table,
    /// 5: a start, goal or end key, or a popped key that is given, of 64 or more.
    Key,
    /// 6: a window too long for the reaches, or for the call; in a planning also for what is beneath it.
    Length,
    /// 7: a lent list is too short.
    Short,
    /// 8: the step at this index is not allowed.
    Step(usize),
    /// 9: no Swaps within reach turn the start into the goal.
    Unroutable,
    /// 10: the goal is not a strictly shorter prefix of the start, or the start is out of reach.
    NotATail,
    /// 11: no start leads through the steps to the end with these keys popped.
    NoStart,
    /// 12: the items beneath and the start (of stepping back: the end) together over 1,024.
    Stack,
}

impl Refusal {
    /// The refusal of a number, none for 0. `index` counts at 8.
    ///
    /// # Panics
    /// For a number over 12, which no call gives.
    pub fn from_number(number: u32, index: usize) -> Option<Self> {
        Some(match number {
            0 => return None,
            1 => Refusal::Reach,
            2 => Refusal::Window,
            3 => Refusal::Allowance,
            4 => Refusal::Table,
            5 => Refusal::Key,
            6 => Refusal::Length,
            7 => Refusal::Short,
            8 => Refusal::Step(index),
            9 => Refusal::Unroutable,
            10 => Refusal::NotATail,
            11 => Refusal::NoStart,
            12 => Refusal::Stack,
            _ => panic!("no refusal has the number {number}"),
        })
    }

    pub const fn number(self) -> u32 {
        match self {
            Refusal::Reach => 1,
            Refusal::Window => 2,
            Refusal::Allowance => 3,
            Refusal::Table => 4,
            Refusal::Key => 5,
            Refusal::Length => 6,
            Refusal::Short => 7,
            Refusal::Step(_) => 8,
            Refusal::Unroutable => 9,
            Refusal::NotATail => 10,
            Refusal::NoStart => 11,
            Refusal::Stack => 12,
        }
    }
}

impl fmt::Display for Refusal {
    fn fmt(&self, f: &mut fmt::Formatter<'_>) -> fmt::Result {
        write!(f, "refused {}: {}", self.number(), sentence(sys::nimskerf_refusal_text, self.number()))?;
        match self {
            Refusal::Step(index) => write!(f, " Its index is {index}."),
            _ => Ok(()),
        }
    }
}

impl std::error::Error for Refusal {}

/// Where a plan comes from.
#[derive(Clone, Copy, Debug, PartialEq, Eq, Hash)]
#[non_exhaustive]
pub enum Origin {
    /// 0: start equals goal, nothing to do.
    None = 0,
    /// 1: the builder delete-tail.
    DeleteTail = 1,
    /// 2: the builder dup-and-star.
    DupAndStar = 2,
    /// 3: the search.
    Search = 3,
}

impl Origin {
    pub(crate) fn from_number(number: u32) -> Self {
        match number {
            0 => Origin::None,
            1 => Origin::DeleteTail,
            2 => Origin::DupAndStar,
            3 => Origin::Search,
            _ => panic!("no origin has the number {number}"),
        }
    }

    pub const fn number(self) -> u32 {
        self as u32
    }
}

impl fmt::Display for Origin {
    fn fmt(&self, f: &mut fmt::Formatter<'_>) -> fmt::Result {
        f.write_str(sentence(sys::nimskerf_origin_text, self.number()))
    }
}

/// How a planning ended.
#[derive(Clone, Copy, Debug, PartialEq, Eq, Hash)]
#[non_exhaustive]
pub enum Ending {
    /// 0: start equals goal.
    Equal = 0,
    /// 1: `max_expansions` is 0.
    NoSearch = 1,
    /// 2: the open list is empty.
    Drained = 2,
    /// 3: nothing left can improve on the bound.
    CutOff = 3,
    /// 4: nodes or open entries over the state allowance.
    States = 4,
    /// 5: `max_expansions` states are expanded.
    Expansions = 5,
}

impl Ending {
    pub(crate) fn from_number(number: u32) -> Self {
        match number {
            0 => Ending::Equal,
            1 => Ending::NoSearch,
            2 => Ending::Drained,
            3 => Ending::CutOff,
            4 => Ending::States,
            5 => Ending::Expansions,
            _ => panic!("no ending has the number {number}"),
        }
    }

    pub const fn number(self) -> u32 {
        self as u32
    }

    /// By itself: higher allowances keep the answer, every field and step.
    pub const fn by_itself(self) -> bool {
        matches!(self, Ending::Equal | Ending::Drained | Ending::CutOff)
    }
}

impl fmt::Display for Ending {
    fn fmt(&self, f: &mut fmt::Formatter<'_>) -> fmt::Result {
        f.write_str(sentence(sys::nimskerf_ending_text, self.number()))
    }
}

/// What marking says of an answer.
#[derive(Clone, Copy, Debug, PartialEq, Eq, Hash)]
pub enum Mark {
    /// 0: reaches the goal at no more than the ceiling.
    Pass = 0,
    /// 1: ends elsewhere.
    Elsewhere = 1,
    /// 2: reaches the goal above the ceiling.
    TooDear = 2,
}

impl Mark {
    pub(crate) fn from_number(number: u32) -> Self {
        match number {
            0 => Mark::Pass,
            1 => Mark::Elsewhere,
            2 => Mark::TooDear,
            _ => panic!("no mark has the number {number}"),
        }
    }

    pub const fn number(self) -> u32 {
        self as u32
    }
}

impl fmt::Display for Mark {
    fn fmt(&self, f: &mut fmt::Formatter<'_>) -> fmt::Result {
        f.write_str(sentence(sys::nimskerf_mark_text, self.number()))
    }
}
