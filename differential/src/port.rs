//! The port, asked through each of its faces, in lists with guards on both sides.
//!
//! What the lists hold before a call follows from the item's own random numbers and earlier calls of the same item, so
//! that an item does the same whatever ran before it.

use crate::{
    case::{Answer, Call, Case, Lengths, STEP_COUNT},
    draw::Random,
    faces::Face,
};

/// The lists lent to a call; those that it does not take are empty.
pub struct Lists<'a> {
    pub steps: &'a mut [u16],
    pub result: &'a mut [u8],
    pub popped: &'a mut [u8],
    pub nodes: &'a mut [u64],
    pub heads: &'a mut [u64],
    pub open: &'a mut [u64],
}

/// Entries on each side of a lent list that nobody may touch.
const GUARD: usize = 16;

/// A list between guards.
#[derive(Debug)]
struct Guarded<T> {
    buffer: Vec<T>,
    length: usize,
    guard: T,
}

impl<T: Copy + PartialEq> Guarded<T> {
    fn new(guard: T) -> Self {
        Self { buffer: vec![guard; 2 * GUARD], length: 0, guard }
    }

    /// Makes the list this long, between fresh guards; it keeps what it held.
    fn resize(&mut self, length: usize) {
        let needed = length + 2 * GUARD;
        if self.buffer.len() < needed {
            self.buffer.resize(needed, self.guard);
        }
        self.length = length;
        self.buffer[..GUARD].fill(self.guard);
        self.buffer[GUARD + length..needed].fill(self.guard);
    }

    fn list(&mut self) -> &mut [T] {
        &mut self.buffer[GUARD..GUARD + self.length]
    }

    fn guarded(&self) -> bool {
        let after = GUARD + self.length;
        self.buffer[..GUARD].iter().chain(&self.buffer[after..after + GUARD]).all(|entry| *entry == self.guard)
    }
}

/// A work list, how much of it this item has filled, and a copy of it.
#[derive(Debug)]
struct Work {
    list: Guarded<u64>,
    known: usize,
    before: Vec<u64>,
}

impl Work {
    fn new(guard: u64) -> Self {
        Self { list: Guarded::new(guard), known: 0, before: Vec::new() }
    }

    /// Makes the list this long, full of garbage or of what this item's earlier calls left.
    fn lend(&mut self, length: usize, style: usize, random: &mut Random) {
        self.list.resize(length);
        let kept = if style < FILLS { 0 } else { self.known.min(length) };
        fill(&mut self.list.list()[kept..], style, random);
        self.known = self.known.max(length);
    }

    fn remember(&mut self) {
        self.before.clear();
        self.before.extend_from_slice(self.list.list());
    }
}

/// The lists of one thread, used again and again.
#[derive(Debug)]
pub struct Port {
    /// What the step list holds before a call; the result list holds its low byte, the list for popped keys its high
    /// one.
    pattern: u16,
    steps: Guarded<u16>,
    result: Guarded<u8>,
    popped: Guarded<u8>,
    work: [Work; 3],
}

/// What a call answered, and what is wrong with the lists after it.
#[derive(Debug)]
pub struct Outcome {
    pub answer: Answer,
    pub faults: Vec<&'static str>,
}

impl Default for Port {
    fn default() -> Self {
        Self {
            pattern: 0,
            steps: Guarded::new(0xfeed),
            result: Guarded::new(0xa5),
            popped: Guarded::new(0x5a),
            work: [0x0123_4567_89ab_cdef, 0x0f1e_2d3c_4b5a_6978, 0x7766_5544_3322_1100].map(Work::new),
        }
    }
}

impl Port {
    /// Begins a new item: nothing is known of what the work lists hold.
    pub fn forget(&mut self) {
        self.work.iter_mut().for_each(|work| work.known = 0);
    }

    /// Makes the lists ready for a case: garbage in the work lists, or what earlier calls of this item left.
    pub fn lend(&mut self, case: &Case, random: &mut Random) {
        let Lengths { steps, nodes, heads, open, popped } = case.lent;
        let writes_window = matches!(case.call, Call::Replay | Call::Rewind);
        let (steps, result) = if writes_window { (0, steps) } else { (steps, 0) };
        self.steps.resize(steps);
        self.result.resize(result);
        self.popped.resize(if case.call == Call::Replay { popped } else { 0 });
        self.pattern = random.next() as u16;
        let style = random.below(12);
        for (work, length) in self.work.iter_mut().zip([nodes, heads, open]) {
            work.lend(length, style, random);
        }
    }

    /// Asks through one face, with the work lists as they are and a pattern in the other lists.
    pub fn ask(&mut self, face: &Face, case: &Case, expect_refusal: bool) -> Outcome {
        let [low, high] = self.pattern.to_le_bytes();
        self.steps.list().fill(self.pattern);
        self.result.list().fill(low);
        self.popped.list().fill(high);
        if expect_refusal {
            self.work.iter_mut().for_each(Work::remember);
        }
        let [nodes, heads, open] = &mut self.work;
        let lists = Lists {
            steps: self.steps.list(),
            result: self.result.list(),
            popped: self.popped.list(),
            nodes: nodes.list.list(),
            heads: heads.list.list(),
            open: open.list.list(),
        };
        let mut answer = (face.call)(case, lists);

        let mut faults = self.take_written(case, &mut answer);
        if case.call == Call::Replay && (face.pops)(&case.steps) != pops(&case.steps) {
            faults.push("the popped keys are counted wrong");
        }
        if expect_refusal && self.work.iter_mut().any(|work| work.list.list() != work.before) {
            faults.push("a refused call changed a work list");
        }
        Outcome { answer, faults }
    }

    /// Puts what is written into an answer, and says what is wrong with the lists.
    fn take_written(&mut self, case: &Case, answer: &mut Answer) -> Vec<&'static str> {
        let [low, high] = self.pattern.to_le_bytes();
        let mut faults = Vec::new();
        let (plan, window, popped) = written(case, answer);
        answer.plan = taken(self.steps.list(), plan, self.pattern, STEPS_WRITTEN, &mut faults);
        answer.window = taken(self.result.list(), window, low, WINDOW_WRITTEN, &mut faults);
        answer.popped = taken(self.popped.list(), popped, high, POPPED_WRITTEN, &mut faults);
        let guarded = self.steps.guarded() && self.result.guarded() && self.popped.guarded();
        if !(guarded && self.work.iter().all(|work| work.list.guarded())) {
            faults.push("an entry outside a list is written");
        }
        faults
    }
}

const STEPS_WRITTEN: &str = "the step list is written beyond the plan";
const WINDOW_WRITTEN: &str = "the result list is written beyond the window";
const POPPED_WRITTEN: &str = "the list for popped keys is written beyond them";

/// The first entries of a list; the others must be as they were.
fn taken<T: Copy + PartialEq>(
    list: &[T],
    count: usize,
    before: T,
    beyond: &'static str,
    faults: &mut Vec<&'static str>,
) -> Vec<T> {
    if count > list.len() {
        faults.push("more is said to be written than the list has");
    }
    let (first, rest) = list.split_at(count.min(list.len()));
    if rest.iter().any(|&entry| entry != before) {
        faults.push(beyond);
    }
    first.to_vec()
}

/// How many entries of the step list and of the result list an answer says are written, and how many popped keys.
fn written(case: &Case, answer: &Answer) -> (usize, usize, usize) {
    let size = |at: usize| usize::try_from(answer.fields[at]).expect("64 bits");
    match case.call {
        Call::Plan => (size(STEP_COUNT), 0, 0),
        Call::StarSwap | Call::DeleteTail => (size(0), 0, 0),
        Call::Replay if answer.refusal == 0 => (0, size(1), pops(&case.steps)),
        Call::Replay => (0, size(1), 0),
        Call::Rewind => (0, size(0), 0),
        Call::Mark | Call::Pack => (0, 0, 0),
    }
}

/// How many of the steps are Pops.
fn pops(steps: &[u16]) -> usize {
    steps.iter().filter(|&&code| code == 0).count()
}

/// Styles of garbage.
const FILLS: usize = 5;

fn fill(list: &mut [u64], style: usize, random: &mut Random) {
    match style % FILLS {
        0 => list.fill(0),
        1 => list.fill(u64::MAX),
        2 => list.iter_mut().for_each(|entry| *entry = random.next()),
        3 => list.iter_mut().enumerate().for_each(|(i, entry)| *entry = i as u64 / 8),
        _ => list.iter_mut().for_each(|entry| *entry = random.next() % 64),
    }
}

/// Accepted lengths: the least, or more, with numbers left over beyond whole entries.
pub fn lengths(case: &Case, random: &mut Random) -> Lengths {
    let mut lengths = case.least();
    if random.once_in(3) {
        return lengths;
    }
    let mut more = |most: usize| if random.once_in(2) { 0 } else { random.below(most) };
    lengths.steps += more(40);
    lengths.nodes += more(100);
    lengths.heads += more(2 * lengths.heads);
    lengths.open += more(60);
    lengths
}

/// Makes one list too short by one entry, or empty.
pub fn shorten(case: &mut Case, random: &mut Random) {
    let (least, empty) = (case.least(), random.once_in(8));
    let short = |length: usize| if empty { 0 } else { length - 1 };
    match random.below(4) {
        0 => case.lent.steps = short(least.steps),
        1 => case.lent.nodes = short(least.nodes),
        2 => case.lent.heads = short(least.heads),
        _ => case.lent.open = short(least.open),
    }
}
