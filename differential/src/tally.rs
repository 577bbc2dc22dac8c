//! Counts of a run, and its first differences.

use crate::{
    case::{Answer, CEILING, Call, Case, ENDING, EXPANSIONS, FOUND, HIGHEST, ORIGIN, PLAN_COST, STEP_COUNT},
    command::command,
    rewinding::{NoStart, start_before},
    shrink::{Shrunk, shrink},
};
use std::{fmt, ops::AddAssign};

/// How many differences are kept in full: the first of each of the lowest items.
const KEPT: usize = 3;

/// Counts by a small number; what has no place is not counted.
#[derive(Clone, Copy)]
struct Counts<const N: usize>([u64; N]);

impl<const N: usize> Counts<N> {
    const NONE: Self = Self([0; N]);

    fn bump(&mut self, number: u64) {
        if let Some(count) = self.0.get_mut(number as usize) {
            *count += 1;
        }
    }
}

impl<const N: usize> AddAssign for Counts<N> {
    fn add_assign(&mut self, other: Self) {
        self.0.iter_mut().zip(other.0).for_each(|(sum, n)| *sum += n);
    }
}

/// Those that are not 0, each behind its number.
impl<const N: usize> fmt::Display for Counts<N> {
    fn fmt(&self, f: &mut fmt::Formatter<'_>) -> fmt::Result {
        let some: Vec<String> =
            self.0.iter().enumerate().filter(|(_, n)| **n != 0).map(|(i, n)| format!("{i}: {n}")).collect();
        f.write_str(if some.is_empty() { "none" } else { "" })?;
        f.write_str(&some.join(", "))
    }
}

/// Numbers that refuse, and 0 for accepted.
const NUMBERS: usize = 18;

/// Where something is not as it must be.
pub struct Difference {
    /// The item of the run.
    pub index: u64,
    /// One case, or the two of a claim.
    pub cases: Vec<Case>,
    pub text: String,
}

pub struct Tally {
    /// By call.
    refused: [Counts<NUMBERS>; Call::COUNT],
    /// Accepted replays that pop keys, and the most keys that one popped.
    popping: u64,
    most_popped: usize,
    /// By call, past 12 and the planner's 6: those accepted with a window that the items beneath make narrower, and
    /// those to which they change the answer.
    narrowed: Counts<{ Call::COUNT }>,
    moved: Counts<{ Call::COUNT }>,
    /// Why there is no start.
    no_start: Counts<{ NoStart::COUNT }>,
    marks: Counts<3>,
    endings: Counts<8>,
    origins: Counts<5>,
    not_found: u64,
    expansions: u64,
    longest_plan: u64,
    /// Plans that cost less than their ceiling.
    below_ceiling: u64,
    /// Plans by origin whose highest window is longer than start and goal.
    climbing: Counts<5>,
    /// Plannings with an allowance over 3,000.
    large: u64,
    pub differences: u64,
    first: Vec<Difference>,
}

impl Default for Tally {
    fn default() -> Self {
        Self {
            refused: [Counts::NONE; Call::COUNT],
            popping: 0,
            most_popped: 0,
            narrowed: Counts::NONE,
            moved: Counts::NONE,
            no_start: Counts::NONE,
            marks: Counts::NONE,
            endings: Counts::NONE,
            origins: Counts::NONE,
            not_found: 0,
            expansions: 0,
            longest_plan: 0,
            below_ceiling: 0,
            climbing: Counts::NONE,
            large: 0,
            differences: 0,
            first: Vec::new(),
        }
    }
}

impl Tally {
    pub fn count(&mut self, case: &Case, answer: &Answer) {
        self.refused[case.call as usize].bump(answer.refusal.into());
        if (case.call, answer.refusal) == (Call::Rewind, 11) {
            start_before(case).err().into_iter().for_each(|why| self.no_start.bump(why as u64));
        }
        if answer.refusal != 0 {
            return;
        }
        let fields = &answer.fields;
        match case.call {
            Call::Replay => {
                self.popping += u64::from(!answer.popped.is_empty());
                self.most_popped = self.most_popped.max(answer.popped.len());
            }
            Call::Mark => self.marks.bump(fields[1]),
            Call::Plan => {
                self.endings.bump(fields[ENDING]);
                self.origins.bump(fields[ORIGIN]);
                self.not_found += u64::from(fields[FOUND] == 0);
                self.expansions += fields[EXPANSIONS];
                self.longest_plan = self.longest_plan.max(fields[STEP_COUNT]);
                self.below_ceiling += u64::from(answer.cost(PLAN_COST) < answer.cost(CEILING));
                if fields[HIGHEST] > case.start.len().max(case.goal.len()) as u64 {
                    self.climbing.bump(fields[ORIGIN]);
                }
                self.large += u64::from(case.states().max(case.limits.max_expansions) > 3_000);
            }
            _ => {}
        }
    }

    /// A call with a narrower window: whether it is accepted, and whether the items beneath change its answer.
    pub fn count_narrowed(&mut self, call: Call, accepted: bool, moved: bool) {
        self.narrowed.0[call as usize] += u64::from(accepted);
        self.moved.0[call as usize] += u64::from(moved);
    }

    pub fn differ(&mut self, index: u64, cases: &[&Case], text: impl FnOnce() -> String) {
        self.differences += 1;
        let new_item = self.first.last().is_none_or(|last| last.index != index);
        if new_item && self.first.len() < KEPT {
            self.first.push(Difference { index, cases: cases.iter().copied().cloned().collect(), text: text() });
        }
    }

    /// How often a call answered a number, 0 for accepted.
    pub fn answered(&self, call: Call, number: u32) -> u64 {
        self.refused[call as usize].0[number as usize]
    }

    /// How often a call was accepted with a window that the items beneath make narrower.
    pub fn narrowed(&self, call: Call) -> u64 {
        self.narrowed.0[call as usize]
    }

    /// How often the items beneath changed a call's answer.
    pub fn moved(&self, call: Call) -> u64 {
        self.moved.0[call as usize]
    }

    pub fn accepted(&self) -> u64 {
        self.refused.iter().map(|counts| counts.0[0]).sum()
    }

    pub fn refusals(&self) -> u64 {
        self.refused.iter().flat_map(|counts| &counts.0[1..]).sum()
    }

    /// Prints the first differences, each with its item, shrunk, and the commands that repeat it.
    pub fn print_differences(&self, seed: u64, again: &str) {
        for Difference { index, cases, text } in &self.first {
            println!("- seed {seed}, item {index}: {again}{index}");
            cases.iter().for_each(|case| println!("  {}", command(&case.taken())));
            println!("  {text}");
            let [case] = cases.as_slice() else {
                continue;
            };
            match shrink(&case.taken()) {
                Some(Shrunk { case, text, tries }) => {
                    println!("  shrunk in {tries} tries: {}", command(&case));
                    println!("  {text}");
                }
                None => println!("  asked alone it does not differ: what the lists held before matters"),
            }
        }
    }
}

/// The differences of the lowest items stay, whichever thread met them.
impl AddAssign for Tally {
    fn add_assign(&mut self, other: Self) {
        self.refused.iter_mut().zip(other.refused).for_each(|(sum, counts)| *sum += counts);
        self.popping += other.popping;
        self.most_popped = self.most_popped.max(other.most_popped);
        self.narrowed += other.narrowed;
        self.moved += other.moved;
        self.no_start += other.no_start;
        self.marks += other.marks;
        self.endings += other.endings;
        self.origins += other.origins;
        self.not_found += other.not_found;
        self.expansions += other.expansions;
        self.longest_plan = self.longest_plan.max(other.longest_plan);
        self.below_ceiling += other.below_ceiling;
        self.climbing += other.climbing;
        self.large += other.large;
        self.differences += other.differences;
        self.first.extend(other.first);
        self.first.sort_by_key(|difference| difference.index);
        self.first.truncate(KEPT);
    }
}

impl Tally {
    /// The calls with a narrower window.
    fn fmt_narrowed(&self, f: &mut fmt::Formatter<'_>) -> fmt::Result {
        let of = |call: &Call| (call.name(), self.narrowed(*call), self.moved(*call));
        let some = Call::ALL.iter().map(of).filter(|&(_, narrowed, moved)| narrowed + moved != 0);
        let texts: Vec<String> =
            some.map(|(name, narrowed, moved)| format!("{name} {narrowed} accepted, {moved} changed")).collect();
        if texts.is_empty() { Ok(()) } else { writeln!(f, "narrowed       {}", texts.join("; ")) }
    }
}

impl fmt::Display for Tally {
    fn fmt(&self, f: &mut fmt::Formatter<'_>) -> fmt::Result {
        for (call, counts) in Call::ALL.iter().zip(&self.refused) {
            let asked: u64 = counts.0.iter().sum();
            if asked == 0 {
                continue;
            }
            let mut refused = *counts;
            refused.0[0] = 0;
            writeln!(f, "{:<14} {asked}: accepted {}, refused {refused}", call.name(), counts.0[0])?;
        }
        if self.popping != 0 {
            writeln!(f, "popping        {} replays, at most {} keys", self.popping, self.most_popped)?;
        }
        self.fmt_narrowed(f)?;
        if self.no_start.0.iter().any(|&n| n != 0) {
            let reasons: Vec<String> =
                NoStart::WORDS.iter().zip(self.no_start.0).map(|(word, n)| format!("{word} {n}")).collect();
            writeln!(f, "no start       {}", reasons.join(", "))?;
        }
        if self.marks.0.iter().any(|&n| n != 0) {
            writeln!(f, "marks          {}", self.marks)?;
        }
        if self.endings.0.iter().any(|&n| n != 0) {
            writeln!(f, "endings        {}", self.endings)?;
            writeln!(f, "origins        {} (of them not found: {})", self.origins, self.not_found)?;
            writeln!(f, "expansions     {}; with an allowance over 3,000: {}", self.expansions, self.large)?;
            let (longest, below) = (self.longest_plan, self.below_ceiling);
            writeln!(f, "longest plan   {longest} steps; plans below their ceiling: {below}")?;
            writeln!(f, "climbing       plans that rise above start and goal, by origin: {}", self.climbing)?;
        }
        write!(f, "differences    {}", self.differences)
    }
}
