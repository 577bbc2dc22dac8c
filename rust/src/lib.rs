//! The stack window planner: typed questions and answers over the library libnimskerf.a.
//!
//! ```
//! use nimskerf::{Mark, Planner, Question, Step, mark};
//!
//! let question = Question::new(&[0, 2], &[0, 0, 3]);
//! let plan = Planner::new().plan(&question)?.plan.expect("a plan");
//! for step in &plan.steps {
//!     println!("{step}");
//! }
//! println!("pass mark: {} gas, {} bytes; {}", plan.ceiling.gas, plan.ceiling.bytes, plan.origin);
//! let answer = [Step::Pop, Step::Pop, Step::LoadVal(3), Step::LoadVal(0), Step::Dup(0)];
//! assert_eq!(mark(&question, &answer, plan.ceiling)?.mark, Mark::TooDear);
//! # Ok::<(), nimskerf::Refusal>(())
//! ```
//!
//! [`retrace`] walks back through an answer, a step at a time.
//!
//! Structs and enums that later versions add to are `non_exhaustive`: a question begins with [`Question::new`], which
//! gives every field to come a default that keeps the old answers.
//!
//! Calls go to the proved functions (`sys::nimskerf_proved_...`): a Rust slice meets what they ask of a list, so the
//! checks of the C functions over them have nothing to find.

pub mod raw;
pub mod sys;
mod types;
mod walk;

pub use raw::{Limits, Lists};
pub use types::{Allowances, Cost, Ending, Kind, Mark, Origin, PriceList, Reaches, Refusal, Step, Tables};
pub use walk::{StepBack, WalkBack, retrace, retrace_codes, walk_back, walk_back_codes};

use std::sync::LazyLock;

/// The longest window that can be packed.
pub const MAX_LEN: usize = 21;
/// The most items of a stack: those beneath the window and those in it.
pub const STACK_LEN: usize = 1024;
/// The greatest allowance.
pub const MAX_ALLOWANCE: usize = 65_536;
/// The least step list that the planner and the builders take.
pub const MIN_STEPS: usize = 128;
/// Work list entries beyond the larger state allowance.
pub const SPARE_ENTRIES: usize = 50;
/// Numbers to an entry of the node list.
pub const NODE_NUMBERS: usize = 8;
/// Heads that [`Planner`] lends for each entry: with more than one, fewer nodes share a head.
pub const HEADS_LENT: usize = 2;
/// Numbers to an entry of the open list.
pub const OPEN_NUMBERS: usize = 4;

static DESK: LazyLock<Tables> = LazyLock::new(Tables::desk);

/// A question. Windows are keys 0 to 63, top first. Each call reads only the fields that it takes.
#[derive(Clone, Copy, Debug)]
#[non_exhaustive]
pub struct Question<'a> {
    pub start: &'a [u8],
    pub goal: &'a [u8],
    pub reaches: Reaches,
    /// Items of the stack beneath the window; the stack never has more than 1,024 in all.
    pub beneath: usize,
    pub allowances: Allowances,
    pub tables: &'a Tables,
}

impl<'a> Question<'a> {
    /// With the default reaches and allowances, nothing beneath and the exam desk's tables.
    pub fn new(start: &'a [u8], goal: &'a [u8]) -> Self {
        Self { start, goal, reaches: Reaches::default(), beneath: 0, allowances: Allowances::default(), tables: &DESK }
    }

    pub const fn with_reaches(self, reaches: Reaches) -> Self {
        Self { reaches, ..self }
    }

    pub const fn with_beneath(self, beneath: usize) -> Self {
        Self { beneath, ..self }
    }

    pub const fn with_allowances(self, allowances: Allowances) -> Self {
        Self { allowances, ..self }
    }

    pub const fn with_tables(self, tables: &'a Tables) -> Self {
        Self { tables, ..self }
    }
}

/// A plan from start to goal.
#[derive(Clone, Debug, PartialEq, Eq)]
#[non_exhaustive]
pub struct Plan {
    pub steps: Vec<Step>,
    /// The sum of the listed prices of the steps.
    pub cost: Cost,
    /// The pass mark. The plan costs no more, and higher allowances never raise it.
    pub ceiling: Cost,
    pub origin: Origin,
    /// The greatest length of a window on the way, the start included.
    pub highest: usize,
}

/// The planner's answer to an accepted question.
#[derive(Clone, Debug, PartialEq, Eq)]
#[non_exhaustive]
pub struct Answer {
    /// None if no plan was found.
    pub plan: Option<Plan>,
    pub ending: Ending,
    /// How many states were expanded.
    pub expansions: usize,
}

/// Replay's answer to accepted steps.
#[derive(Clone, Debug, PartialEq, Eq)]
#[non_exhaustive]
pub struct Replayed {
    /// The window that the steps lead to.
    pub window: Vec<u8>,
    /// The keys that the Pops dropped, the first popped first.
    pub popped: Vec<u8>,
    /// The greatest length that the window reached, the start included.
    pub highest: usize,
}

/// Marking's answer to accepted steps.
#[derive(Clone, Copy, Debug, PartialEq, Eq)]
#[non_exhaustive]
pub struct Marked {
    pub mark: Mark,
    /// At every mark the greatest length that the window reached, the start included.
    pub highest: usize,
}

/// Owns the lists that a planning needs, and keeps them from one planning to the next.
#[derive(Debug, Default)]
pub struct Planner {
    steps: Vec<u16>,
    nodes: Vec<u64>,
    heads: Vec<u64>,
    open: Vec<u64>,
}

impl Planner {
    /// Without lists; the first planning makes them.
    pub fn new() -> Self {
        Self::default()
    }

    /// With lists for these allowances.
    pub fn with_allowances(allowances: &Allowances) -> Self {
        let mut planner = Self::new();
        planner.grow(allowances);
        planner
    }

    /// Plans, with lists as long as the question's allowances ask.
    pub fn plan(&mut self, question: &Question<'_>) -> Result<Answer, Refusal> {
        self.grow(&question.allowances);
        plan_in(
            question,
            Lists { steps: &mut self.steps, nodes: &mut self.nodes, heads: &mut self.heads, open: &mut self.open },
        )
    }

    fn grow(&mut self, allowances: &Allowances) {
        let states = allowances.states_without.max(allowances.states_with).min(MAX_ALLOWANCE);
        let steps = allowances.max_expansions.clamp(MIN_STEPS, MAX_ALLOWANCE);
        let entries = states + SPARE_ENTRIES;
        fn at_least<T: Clone + Default>(list: &mut Vec<T>, length: usize) {
            if list.len() < length {
                list.resize(length, T::default());
            }
        }
        at_least(&mut self.steps, steps);
        at_least(&mut self.nodes, entries * NODE_NUMBERS);
        at_least(&mut self.heads, entries * HEADS_LENT);
        at_least(&mut self.open, entries * OPEN_NUMBERS);
    }
}

/// Plans in lists that the caller lends.
pub fn plan_in(question: &Question<'_>, lists: Lists<'_>) -> Result<Answer, Refusal> {
    let Reaches { dup_max, swap_max, max_len } = question.reaches;
    let Allowances { max_expansions, states_without, states_with } = question.allowances;
    let beneath = question.beneath;
    let limits = Limits { dup_max, swap_max, max_len, beneath, max_expansions, states_without, states_with };
    let Lists { steps, nodes, heads, open } = lists;
    let answer = raw::plan(
        question.start,
        question.goal,
        &limits,
        &question.tables.kinds,
        &question.tables.prices,
        Lists { steps: &mut *steps, nodes, heads, open },
    );
    if let Some(refusal) = Refusal::from_number(answer.refusal, 0) {
        return Err(refusal);
    }
    let plan = (answer.found == 1).then(|| Plan {
        steps: typed(&steps[..answer.step_count]),
        cost: Cost::new(answer.plan_gas, answer.plan_bytes),
        ceiling: Cost::new(answer.ceiling_gas, answer.ceiling_bytes),
        origin: Origin::from_number(answer.origin),
        highest: answer.highest,
    });
    Ok(Answer { plan, ending: Ending::from_number(answer.ending), expansions: answer.expansions })
}

/// Replays steps from the question's start.
pub fn replay(question: &Question<'_>, steps: &[Step]) -> Result<Replayed, Refusal> {
    replay_codes(question, &codes(steps))
}

/// Replays step codes, whoever wrote them.
pub fn replay_codes(question: &Question<'_>, codes: &[u16]) -> Result<Replayed, Refusal> {
    let Question { start, reaches: Reaches { dup_max, swap_max, max_len }, beneath, tables, .. } = *question;
    let (kinds, mut result, mut popped) = (&tables.kinds, [0; MAX_LEN], vec![0; codes.len()]);
    let replayed = raw::replay(start, codes, dup_max, swap_max, max_len, beneath, kinds, &mut result, &mut popped);
    if let Some(refusal) = Refusal::from_number(replayed.refusal, replayed.index) {
        return Err(refusal);
    }
    popped.truncate(raw::pops(codes));
    Ok(Replayed { window: result[..replayed.length].to_vec(), popped, highest: replayed.highest })
}

/// Steps back: the start from which a replay of the steps ends in `end` with exactly these keys popped, the first
/// popped first. Takes the question's reaches, the items beneath and the kinds.
pub fn rewind(question: &Question<'_>, end: &[u8], steps: &[Step], popped: &[u8]) -> Result<Vec<u8>, Refusal> {
    rewind_codes(question, end, &codes(steps), popped)
}

/// Steps back through step codes, whoever wrote them.
pub fn rewind_codes(question: &Question<'_>, end: &[u8], codes: &[u16], popped: &[u8]) -> Result<Vec<u8>, Refusal> {
    let Question { reaches: Reaches { dup_max, swap_max, max_len }, beneath, tables, .. } = *question;
    let mut result = [0; MAX_LEN];
    let rewound = raw::rewind(end, codes, popped, dup_max, swap_max, max_len, beneath, &tables.kinds, &mut result);
    match Refusal::from_number(rewound.refusal, 0) {
        Some(refusal) => Err(refusal),
        None => Ok(result[..rewound.length].to_vec()),
    }
}

/// Marks steps against a ceiling.
pub fn mark(question: &Question<'_>, steps: &[Step], ceiling: Cost) -> Result<Marked, Refusal> {
    mark_codes(question, &codes(steps), ceiling)
}

/// Marks step codes, whoever wrote them, against a ceiling.
pub fn mark_codes(question: &Question<'_>, codes: &[u16], ceiling: Cost) -> Result<Marked, Refusal> {
    let Question { start, goal, reaches: Reaches { dup_max, swap_max, max_len }, beneath, tables, .. } = *question;
    let (Tables { kinds, prices }, Cost { gas, bytes }) = (tables, ceiling);
    let marked = raw::mark(start, goal, codes, dup_max, swap_max, max_len, beneath, kinds, prices, gas, bytes);
    match Refusal::from_number(marked.refusal, marked.index) {
        Some(refusal) => Err(refusal),
        None => Ok(Marked { mark: Mark::from_number(marked.mark), highest: marked.highest }),
    }
}

/// A window as a number: six bits per key, top lowest, a marker bit above.
pub fn pack(window: &[u8]) -> Result<u128, Refusal> {
    let packed = raw::pack(window);
    match Refusal::from_number(packed.refusal, 0) {
        Some(refusal) => Err(refusal),
        None => Ok(u128::from(packed.hi) << 64 | u128::from(packed.lo)),
    }
}

/// The Swaps that turn the question's start into its goal.
pub fn star_swap(question: &Question<'_>) -> Result<Vec<Step>, Refusal> {
    let mut steps = [0; MIN_STEPS];
    let built = raw::star_swap(question.start, question.goal, question.reaches.swap_max, &mut steps);
    built_steps(built, &steps)
}

/// The steps that drop the keys under the question's goal, a prefix of its start.
pub fn delete_tail(question: &Question<'_>) -> Result<Vec<Step>, Refusal> {
    let mut steps = [0; MIN_STEPS];
    let built = raw::delete_tail(question.start, question.goal, question.reaches.swap_max, &mut steps);
    built_steps(built, &steps)
}

fn built_steps(built: sys::NimskerfBuilt, steps: &[u16]) -> Result<Vec<Step>, Refusal> {
    match Refusal::from_number(built.refusal, 0) {
        Some(refusal) => Err(refusal),
        None => Ok(typed(&steps[..built.count])),
    }
}

fn codes(steps: &[Step]) -> Vec<u16> {
    steps.iter().map(|step| step.code()).collect()
}

fn typed(codes: &[u16]) -> Vec<Step> {
    codes.iter().map(|&code| Step::from_code(code).expect("a plan has steps only")).collect()
}
