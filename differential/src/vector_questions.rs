//! Which questions stand in the fixed list.

mod beneath;
mod stepping_back;

use crate::{
    case::{
        CEILING, Call, Case, ENDING, EXPANSIONS, FOUND, HIGHEST, HIGHEST_REPLAYED, KEY, Limits, ORIGIN, POP, SWAP,
        Tables, limits,
    },
    command::command,
    draw::{self, Random},
    expect,
    long_plans::shifting_prices,
    record::Record,
    reference::Reference,
};
use std::{collections::HashMap, sync::Arc};

const WIDE: [usize; 6] = [16, 17, 21, 0, 1000, 1000];

/// Collects records, each answered by the reference.
struct List {
    desk: Arc<Tables>,
    records: Vec<Record>,
    reference: Reference,
}

/// The records; some may be alike.
pub fn all() -> Vec<Record> {
    let desk = Arc::new(Tables::desk());
    let mut list = List { desk, records: Vec::new(), reference: Reference::default() };
    known_outcomes(&mut list);
    plan_refusals(&mut list);
    edge_lengths(&mut list);
    drawn_plans(&mut list);
    long_plans(&mut list);
    other_calls(&mut list);
    highest_windows(&mut list);
    highest_planned(&mut list);
    stepping_back::all(&mut list);
    beneath::all(&mut list);
    list.records
}

/// Price lists to draw from; the first are the desk's, all zero and all 30,000.
fn price_lists() -> Vec<Vec<u32>> {
    let desk = Tables::desk();
    let at = |pair: usize| (desk.prices[2 * pair], desk.prices[2 * pair + 1]);
    let prices_of = |price: &dyn Fn(usize) -> (u32, u32)| Tables::desk_with(price).prices;
    let mut prices = vec![
        desk.prices.clone(),
        vec![0; 196],
        vec![30_000; 196],
        vec![1; 196],
        prices_of(&|pair| if (SWAP..KEY).contains(&pair) { (0, 0) } else { at(pair) }),
        prices_of(&|pair| if (SWAP..KEY).contains(&pair) { (20, 1) } else { at(pair) }),
        prices_of(&|pair| if (1..SWAP).contains(&pair) { (0, 0) } else { at(pair) }),
        prices_of(&|pair| if pair >= KEY { (0, 1) } else { at(pair) }),
        prices_of(&|pair| if pair == POP { (0, 0) } else { at(pair) }),
        prices_of(&|pair| (0, (pair % 4) as u32)),
        prices_of(&|pair| ((pair * 7 % 5) as u32, (pair * 3 % 4) as u32)),
    ];
    for style in 0..5 {
        let mut random = Random::new(5, style);
        prices.push(draw::tables(&mut random).prices);
    }
    prices
}

/// Kinds to draw from.
fn kinds_lists() -> Vec<Vec<u8>> {
    let mut kinds = vec![Tables::desk().kinds, vec![0; 64], vec![1; 64]];
    for index in 0..3 {
        let mut random = Random::new(6, index);
        let mut drawn: Vec<u8> = (0..64).map(|_| random.below(2) as u8).collect();
        drawn[index as usize] = 2;
        kinds.push(drawn);
    }
    kinds
}

fn kinds(case: &mut Case) -> &mut Vec<u8> {
    &mut Arc::make_mut(&mut case.tables).kinds
}

fn prices(case: &mut Case) -> &mut Vec<u32> {
    &mut Arc::make_mut(&mut case.tables).prices
}

/// Sets an entry of a list that may be cut short.
fn spoil<T>(list: &mut [T], at: usize, value: T) {
    if let Some(entry) = list.get_mut(at) {
        *entry = value;
    }
}

impl List {
    fn add(&mut self, case: Case) {
        let answer = expect::answer(&case, &mut self.reference);
        self.records.push(Record::new(case, answer));
    }

    /// The last record, whose answer must have this number at this place.
    fn last_with(&self, at: usize, number: u64) -> &Record {
        let last = self.records.last().expect("a record was added");
        assert_eq!(last.answer.fields[at], number, "{}", command(&last.case));
        last
    }

    /// A call of nothing, to be filled in.
    fn new_case(&self, call: Call) -> Case {
        let mut case = Case::new(call, &self.desk);
        case.lent = case.least();
        case
    }

    /// A question to the planner with the least lists, and what `change` makes of it.
    fn plan(&mut self, numbers: [usize; 6], start: &[u8], goal: &[u8], change: impl FnOnce(&mut Case)) {
        let mut case = Case::plan(limits(numbers), start, goal, &self.desk);
        change(&mut case);
        self.add(case);
    }

    fn builder(&mut self, call: Call, start: &[u8], goal: &[u8], swap_max: usize, steps: usize) {
        let mut case = self.new_case(call);
        (case.start, case.goal) = (start.to_vec(), goal.to_vec());
        case.limits.swap_max = swap_max;
        case.lent.steps = steps;
        self.add(case);
    }

    fn pack(&mut self, ids: &[u8]) {
        let mut case = self.new_case(Call::Pack);
        case.start = ids.to_vec();
        self.add(case);
    }

    /// A replay of steps with the least lists, and what `change` makes of it. Steps that it changes have their places
    /// too, unless it changes these.
    fn replay(&mut self, start: &[u8], steps: &[u16], change: impl FnOnce(&mut Case)) {
        let mut case = self.new_case(Call::Replay);
        (case.start, case.steps, case.limits) = (start.to_vec(), steps.to_vec(), reaches(16, 17, 21));
        case.lent = case.least();
        change(&mut case);
        if case.lent.popped == steps.len() {
            case.lent.popped = case.steps.len();
        }
        self.add(case);
    }

    /// A stepping back with a result list of 21, and what `change` makes of it.
    fn rewind(&mut self, end: &[u8], steps: &[u16], popped: &[u8], change: impl FnOnce(&mut Case)) {
        let mut case = self.new_case(Call::Rewind);
        (case.start, case.steps, case.popped) = (end.to_vec(), steps.to_vec(), popped.to_vec());
        case.limits = reaches(16, 17, 21);
        change(&mut case);
        self.add(case);
    }

    fn mark(&mut self, start: &[u8], goal: &[u8], steps: &[u16], ceiling: (u32, u32), change: impl FnOnce(&mut Case)) {
        let mut case = self.new_case(Call::Mark);
        (case.start, case.goal, case.steps) = (start.to_vec(), goal.to_vec(), steps.to_vec());
        case.limits = reaches(16, 17, 21);
        case.ceiling = [ceiling.0, ceiling.1];
        change(&mut case);
        self.add(case);
    }
}

fn reaches(dup_max: usize, swap_max: usize, max_len: usize) -> Limits {
    Limits { dup_max, swap_max, max_len, ..Limits::default() }
}

/// Document 01's questions, starred and unstarred, and the desk's example.
fn known_outcomes(list: &mut List) {
    let same = |_: &mut Case| {};
    list.plan(WIDE, &[0, 1, 2], &[0], same);
    list.plan(WIDE, &[0, 1], &[], same);
    list.plan(WIDE, &[0], &[0, 0], same);
    list.plan([0, 17, 21, 0, 1000, 1000], &[0], &[0, 0], same);
    list.plan(WIDE, &[], &[32], same);
    list.plan([16, 0, 21, 0, 1000, 1000], &[], &[], same);
    list.plan([16, 0, 21, 0, 1000, 1000], &[0], &[], same);
    let window: Vec<u8> = (0..18).collect();
    for length in [17, 18] {
        list.plan(WIDE, &window[..length], &[], same);
        list.plan(WIDE, &[], &window[..length], same);
        list.plan(WIDE, &window[..length], &window[..length], same);
    }
    for max_len in [21, 22] {
        list.plan([16, 17, max_len, 0, 1000, 1000], &[0, 1], &[1], same);
        list.plan([16, 17, max_len, 200, 1000, 1000], &[0, 1], &[1], same);
    }
    list.builder(Call::StarSwap, &[0, 1, 2], &[0, 2, 1], 17, 128);
    list.builder(Call::StarSwap, &[0, 1, 2], &[1, 2, 0], 17, 128);
    list.builder(Call::DeleteTail, &[0, 1, 2], &[0, 1], 17, 128);
    list.pack(&[64]);
    list.replay(&[], &[0], same);
}

/// Each number's conditions one by one, then pairs of which the lower number is given.
fn plan_refusals(list: &mut List) {
    let (start, goal) = (&[0, 1], &[1]);
    let some = [16, 17, 21, 100, 200, 300];
    let mut ask = |change: &dyn Fn(&mut Case)| list.plan(some, start, goal, change);
    let changes: Vec<&dyn Fn(&mut Case)> = vec![
        &|r| r.limits.dup_max = 17,
        &|r| r.limits.swap_max = 18,
        &|r| r.limits.max_len = 22,
        &|r| r.limits.max_expansions = 65_537,
        &|r| r.limits.states_without = 65_537,
        &|r| r.limits.states_with = 65_537,
        &|r| kinds(r).truncate(63),
        &|r| spoil(kinds(r), 63, 3),
        &|r| spoil(kinds(r), 0, 2),
        &|r| prices(r).truncate(195),
        &|r| spoil(prices(r), 195, 30_001),
        &|r| spoil(prices(r), 2 * SWAP, 30_001),
        &|r| r.start[1] = 64,
        &|r| r.goal[0] = 255,
        &|r| r.start = vec![5; 18],
        &|r| r.goal = vec![5; 18],
        &|r| r.limits.swap_max = 1,
        &|r| r.limits.max_len = 1,
        &|r| r.lent.steps = 127,
        &|r| r.lent.nodes -= 1,
        &|r| r.lent.heads -= 1,
        &|r| r.lent.open -= 1,
        &|r| {
            r.limits.max_expansions = 200;
            r.lent.steps = 199;
        },
        // Start equals goal, or no search: short lists are refused all the same.
        &|r| {
            r.goal = r.start.clone();
            r.lent.heads = 0;
        },
        &|r| {
            r.limits.max_expansions = 0;
            r.lent.nodes = 0;
        },
    ];
    for (i, first) in changes.iter().enumerate() {
        ask(first);
        for second in &changes[i + 1..] {
            ask(&|record| {
                first(record);
                second(record);
            });
        }
    }
}

/// Windows and reaches at their edges.
fn edge_lengths(list: &mut List) {
    let lists = price_lists();
    let rising: Vec<u8> = (0..17).collect();
    let falling: Vec<u8> = rising.iter().rev().copied().collect();
    let high: Vec<u8> = (47..64).collect();
    let mixed: Vec<u8> = (0..17).map(|i| [0, 32, 33, 63][i % 4]).collect();
    let windows = [&rising[..], &falling, &high, &mixed, &rising[..16], &falling[..1], &mixed[..9], &[]];
    for (i, start) in windows.iter().enumerate() {
        for (j, goal) in windows.iter().enumerate() {
            let listed = &lists[[0, 1, 2, 5][(i + j) % 4]];
            let dup_max = [16, 0, 1, 15][(i + 3 * j) % 4];
            let max_len = [21, 17, 18][(i + j) % 3];
            list.plan([dup_max, 17, max_len, [0, 6, 40][(2 * i + j) % 3], 600, 900], start, goal, |case| {
                *prices(case) = listed.clone()
            });
        }
    }
    for dup_max in [0, 1, 2, 16] {
        for swap_max in [0, 1, 2, 3, 17] {
            for max_len in [0, 1, 2, 3, 21] {
                let most = swap_max.min(max_len).min(3);
                list.plan(
                    [dup_max, swap_max, max_len, 30, 500, 500],
                    &[0, 33, 1][..most],
                    &[33, 32, 0][..most],
                    |_| {},
                );
            }
        }
    }
}

/// Drawn questions, kept until each kind of answer has its share.
fn drawn_plans(list: &mut List) {
    const SHARE: usize = 32;
    const DRAWS: u64 = 60_000;
    let (price_lists, kinds_lists) = (price_lists(), kinds_lists());
    let mut shares = HashMap::new();
    for index in 0..DRAWS {
        let mut random = Random::new(7, index);
        let prices = price_lists[random.below(price_lists.len())].clone();
        let kinds = kinds_lists[random.below(kinds_lists.len())].clone();
        let mut case = draw::question(&mut random, &Arc::new(Tables { kinds, prices }));
        let limits = &mut case.limits;
        for allowance in [&mut limits.max_expansions, &mut limits.states_without, &mut limits.states_with] {
            *allowance = (*allowance).min(1_000);
        }
        case.lent = case.least();
        let answer = expect::answer(&case, &mut list.reference);
        // By found, origin, ending, and whether much was expanded.
        let fields = &answer.fields;
        let sort = (fields[FOUND], fields[ORIGIN], fields[ENDING], fields[EXPANSIONS] > 60);
        let share: &mut usize = shares.entry(sort).or_default();
        if *share < SHARE {
            *share += 1;
            list.records.push(Record::new(case, answer));
        }
    }
}

/// Plans of more than 128 steps; see `long_plans`.
fn long_plans(list: &mut List) {
    type Row = (usize, usize, (u32, u32), usize, [usize; 2], &'static [u8], &'static [u8]);
    let rows: [Row; 6] = [
        (2, 8, (0, 0), 12, [2_000, 4_200], &[0, 3, 2, 4, 3, 0], &[0, 2, 3, 2, 3, 4, 0]),
        (2, 8, (0, 0), 12, [2_500, 5_300], &[2, 1, 1, 0, 0, 2, 0, 2, 4, 2], &[1, 0, 4, 0, 4, 2, 1]),
        (3, 7, (0, 0), 12, [4_000, 6_300], &[3, 0, 1, 2, 1], &[3, 0, 2, 1, 0, 0, 0]),
        (2, 8, (0, 0), 13, [2_000, 8_000], &[2, 0, 0, 0, 1, 0], &[0, 0, 0, 1]),
        (2, 8, (0, 1), 12, [7_600, 14_100], &[0, 3, 2, 4, 3, 0], &[0, 2, 3, 2, 3, 4, 0]),
        (3, 9, (0, 0), 14, [9_400, 20_000], &[1, 3, 2, 2], &[2, 3, 3, 0, 0, 2]),
    ];
    for (place, depth, cheap, max_len, [expansions, states], start, goal) in rows {
        let tables = Arc::new(shifting_prices(place, depth, cheap, 10));
        list.plan([place + 1, max_len, max_len, expansions, states, states], start, goal, |case| case.tables = tables);
    }
}

/// Replay, marking, packing and the builders: every refusal, and drawn calls.
fn other_calls(list: &mut List) {
    let same = |_: &mut Case| {};
    // Every code of a small range of operands on one window.
    for kind in 0..6u16 {
        for operand in [0, 1, 2, 3, 15, 16, 17, 32, 33, 63, 64, 255] {
            list.replay(&[0, 1, 33], &[kind * 256 + operand], |record| record.limits = reaches(2, 3, 4));
        }
    }
    let full: Vec<u8> = (0..21).collect();
    for code in [0, 256, 271, 272, 512, 513, 528, 529, 800, 1024] {
        list.replay(&full, &[code], same);
        list.replay(&full[..20], &[code, 256], same);
    }
    let refused: Vec<&dyn Fn(&mut Case)> = vec![
        &|r| r.limits.dup_max = 17,
        &|r| r.limits.swap_max = 18,
        &|r| r.limits.max_len = 22,
        &|r| kinds(r).truncate(63),
        &|r| spoil(kinds(r), 63, 3),
        &|r| spoil(kinds(r), 0, 2),
        &|r| r.start[0] = 64,
        &|r| r.limits.max_len = 1,
        &|r| r.lent.steps = 20,
        &|r| r.lent.popped = 1,
        &|r| r.steps = vec![256, 256, 1280],
        &|r| spoil(prices(r), 195, 30_001),
        &|r| prices(r).clear(),
        &|r| r.goal = vec![64; 22],
        &|r| r.goal = vec![1; 22],
    ];
    for (i, first) in refused.iter().enumerate() {
        for second in &refused[i..] {
            let change = |record: &mut Case| {
                first(record);
                second(record);
            };
            list.replay(&[0, 1], &[256, 0], change);
            list.mark(&[0, 1], &[0, 1], &[256, 0], (5, 2), change);
        }
    }
    for ceiling in [(5, 2), (5, 1), (4, 9), (6, 0), (0, 0), (u32::MAX, 0)] {
        list.mark(&[0, 1], &[0, 1], &[256, 0], ceiling, same);
        list.mark(&[0, 1], &[1, 0], &[256, 0], ceiling, same);
        list.mark(&[], &[], &[], ceiling, same);
    }
    // Plans of the planner, marked at their ceiling and one below.
    let plans = list.records.clone().into_iter().filter(|Record { case, answer, .. }| {
        case.call == Call::Plan && answer.refusal == 0 && answer.fields[FOUND] == 1
    });
    for Record { case: plan, answer, .. } in plans.step_by(17) {
        let [gas, bytes] = [CEILING, CEILING + 1].map(|at| answer.fields[at] as u32);
        let same_limits = |case: &mut Case| (case.limits, case.tables) = (plan.limits, Arc::clone(&plan.tables));
        for ceiling in [(gas, bytes), (gas, bytes.wrapping_sub(1))] {
            list.mark(&plan.start, &plan.goal, &answer.plan, ceiling, same_limits);
        }
        list.replay(&plan.start, &answer.plan, same_limits);
    }
    for length in 0..=PACKED {
        list.pack(&vec![63; length]);
        list.pack(&(0..length as u8).map(|key| key * 3 % 64).collect::<Vec<_>>());
        list.pack(&(0..length as u8).map(|key| if key == 20 { 64 } else { key }).collect::<Vec<_>>());
    }
    for index in 0..60 {
        let mut random = Random::new(8, index);
        let (start, goal) = draw::windows(&mut random, 21);
        let swap_max = if index % 3 == 0 { random.below(18) } else { 17 };
        list.builder(Call::StarSwap, &start, &goal, swap_max, 128);
        list.builder(Call::DeleteTail, &start, &goal, swap_max, 128);
    }
    for call in [Call::StarSwap, Call::DeleteTail] {
        let windows: [(&[u8], &[u8]); 6] = [
            (&[0, 1], &[0]),
            (&[0, 1], &[1, 0]),
            (&[64], &[]),
            (&[0], &[255]),
            (&[1; 22], &[1; 21]),
            (&[2; 17], &[2; 9]),
        ];
        for (start, goal) in windows {
            for swap_max in [0, 1, 2, 17, 18] {
                for steps in [127, 128, 130] {
                    list.builder(call, start, goal, swap_max, steps);
                }
            }
        }
    }
}

/// The longest window that packing is asked.
const PACKED: usize = 22;

/// Replays and markings with their highest window worked out by hand: at the start, on the way, at the end, and none.
fn highest_windows(list: &mut List) {
    // A start, max_len, steps, the highest window.
    type Way = (&'static [u8], usize, &'static [u16], u64);
    let ways: [Way; 15] = [
        // Nothing; Pops and Swaps; down and not so far up again.
        (&[0, 1, 33], 21, &[], 3),
        (&[0, 1, 33], 21, &[514, 0, 513, 0], 3),
        (&[0, 1, 33], 21, &[0, 0, 0, 800, 256], 3),
        // Up and down; down, up and down; the higher of two tops is the first, the second; to max_len.
        (&[0, 1, 33], 21, &[256, 800, 0, 0, 0], 5),
        (&[0, 1, 33], 21, &[0, 256, 800, 1024, 515, 0, 0], 5),
        (&[0, 1, 33], 21, &[256, 256, 0, 0, 256, 0], 5),
        (&[0, 1, 33], 21, &[256, 0, 256, 256, 0, 0], 5),
        (&[0, 1, 33], 4, &[258, 0], 4),
        (&[], 1, &[1024, 0], 1),
        // Up to the end.
        (&[0, 1, 33], 21, &[256, 800, 1025], 6),
        (&[], 21, &[800, 256, 513, 801], 3),
        // Refused after growing: past max_len, no kind of step, a Swap below the window, a Pop of nothing.
        (&[0, 1, 33], 4, &[256, 256], 0),
        (&[0, 1, 33], 21, &[256, 800, 1280], 0),
        (&[0, 1, 33], 21, &[256, 0, 515], 0),
        (&[], 21, &[800, 0, 0], 0),
    ];
    for (start, max_len, steps, highest) in ways {
        let within = |case: &mut Case| case.limits.max_len = max_len;
        list.replay(start, steps, within);
        let goal = list.last_with(HIGHEST_REPLAYED, highest).answer.window.clone();
        // At no more than the ceiling, above it, and elsewhere.
        for (goal, ceiling) in [(&goal[..], (u32::MAX, 0)), (&goal, (0, 0)), (&[63], (u32::MAX, 0))] {
            list.mark(start, goal, steps, ceiling, within);
            list.last_with(HIGHEST_REPLAYED, highest);
        }
    }
}

/// Plannings with the highest window of their plan worked out by hand.
fn highest_planned(list: &mut List) {
    type Row = ([usize; 6], &'static [u8], &'static [u8], u64);
    let searched = [16, 17, 21, 1000, 1000, 1000];
    let rows: [Row; 10] = [
        // Start equals goal.
        (searched, &[], &[], 0),
        (searched, &[0, 1, 33], &[0, 1, 33], 3),
        // No plan.
        ([0, 17, 21, 0, 1000, 1000], &[0], &[0, 0], 0),
        ([0, 17, 21, 1, 1000, 1000], &[1, 0, 0], &[0, 0, 0], 0),
        // Builders: down from the start, up to the goal, down and up.
        (WIDE, &[0, 1, 2], &[0], 3),
        (WIDE, &[0], &[0, 33, 0], 3),
        (WIDE, &[0, 1, 2, 3], &[4, 5, 2], 4),
        // The search: push 33, swap 2, pop rises above start and goal, where there is room; load 3, swap 2, pop, dup 0.
        (searched, &[0, 1], &[0, 33], 3),
        ([16, 17, 2, 1000, 1000, 1000], &[0, 1], &[0, 33], 2),
        (searched, &[0, 2], &[0, 0, 3], 3),
    ];
    for (numbers, start, goal, highest) in rows {
        list.plan(numbers, start, goal, |_| {});
        list.last_with(HIGHEST, highest);
    }
}
