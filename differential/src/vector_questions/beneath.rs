//! Questions with items beneath the window.

use super::{List, kinds, price_lists, prices, reaches, spoil, stepping_back::round_trips};
use crate::{
    case::{CEILING, Call, Case, ENDING, FOUND, HIGHEST, Limits, ORIGIN, STEP_COUNT, Tables},
    command::command,
    draw::{self, Random},
    expect,
    record::Record,
    rewinding::start_before,
};
use std::{collections::HashMap, sync::Arc};

pub fn all(list: &mut List) {
    let before = list.records.len();
    planned(list);
    for (beneath, room) in ROOMS {
        at_the_top(list, beneath, room);
    }
    goals(list);
    OVER.iter().for_each(|&beneath| over(list, beneath));
    long_starts(list);
    plan_refusals(list);
    replay_refusals(list);
    mark_refusals(list);
    rewind_refusals(list);
    drawn_plans(list);
    plans_followed(list, before);
    drawn_walks(list);
    round_trips(list, before);
}

impl List {
    /// The last record must be accepted, or refused with this number.
    fn must_answer(&self, number: u32) {
        let Record { case, answer, .. } = self.records.last().expect("a record was added");
        assert_eq!(answer.refusal, number, "{}", command(case));
    }

    /// The last record, a planning, must have so many steps and this highest window, or this refusal.
    fn must_plan(&self, expected: Result<[u64; 2], u32>) {
        let Record { case, answer, .. } = self.records.last().expect("a record was added");
        let fields = [STEP_COUNT, HIGHEST].map(|at| answer.fields[at]);
        let answered = if answer.refusal == 0 { Ok(fields) } else { Err(answer.refusal) };
        assert_eq!(answered, expected, "{}", command(case));
    }
}

fn above(beneath: usize) -> impl Fn(&mut Case) {
    move |case| case.limits.beneath = beneath
}

/// Items beneath, a planning's numbers, start, goal and, by hand, the plan's steps and its highest window (0, 0 without a
/// plan), or the refusal.
type Row = (usize, [usize; 6], &'static [u8], &'static [u8], Result<[u64; 2], u32>);

const SEARCHED: [usize; 6] = [16, 17, 21, 1000, 1000, 1000];
/// No Dups, and few expansions.
const TEN: [usize; 6] = [0, 17, 21, 10, 1000, 1000];
const TWO: [usize; 6] = [0, 17, 21, 2, 1000, 1000];

const PLANNED: [Row; 29] = [
    // Push 33, swap 2, pop; with no room for a third key swap 1, pop, push 33, swap 1.
    (1, SEARCHED, &[0, 1], &[0, 33], Ok([3, 3])),
    (1_003, SEARCHED, &[0, 1], &[0, 33], Ok([3, 3])),
    (1_004, SEARCHED, &[0, 1], &[0, 33], Ok([3, 3])),
    (1_020, SEARCHED, &[0, 1], &[0, 33], Ok([3, 3])),
    (1_021, SEARCHED, &[0, 1], &[0, 33], Ok([3, 3])),
    (1_022, SEARCHED, &[0, 1], &[0, 33], Ok([4, 2])),
    (1_023, SEARCHED, &[0, 1], &[0, 33], Err(12)),
    // The smaller of both: by max_len, by the items beneath.
    (1_020, [16, 17, 2, 1000, 1000, 1000], &[0, 1], &[0, 33], Ok([4, 2])),
    (1_022, [16, 17, 3, 1000, 1000, 1000], &[0, 1], &[0, 33], Ok([4, 2])),
    // Load 0, swap 3, pop; with no room for a fifth key ten expansions find nothing.
    (1_019, TEN, &[1, 1, 2, 0], &[1, 1, 0, 0], Ok([3, 5])),
    (1_020, TEN, &[1, 1, 2, 0], &[1, 1, 0, 0], Ok([0, 0])),
    // Pop, load 1: two expansions find it only where nothing else fits.
    (1_020, TWO, &[0, 0, 1], &[1, 0, 1], Ok([0, 0])),
    (1_021, TWO, &[0, 0, 1], &[1, 0, 1], Ok([2, 3])),
    // Up to 1,024 and no further: a goal that is too long is 6, a start 12.
    (1_020, SEARCHED, &[], &[33, 33, 33, 33], Ok([4, 4])),
    (1_020, SEARCHED, &[], &[33, 33, 33, 33, 33], Err(6)),
    (1_020, SEARCHED, &[33, 33, 33, 33], &[], Ok([4, 4])),
    (1_020, SEARCHED, &[33, 33, 33, 33, 33], &[], Err(12)),
    (1_023, SEARCHED, &[], &[32], Ok([1, 1])),
    (1_023, SEARCHED, &[0], &[32], Ok([2, 1])),
    (1_023, SEARCHED, &[0], &[32, 0], Err(6)),
    (1_023, SEARCHED, &[0, 32], &[0], Err(12)),
    (1_024, SEARCHED, &[], &[], Ok([0, 0])),
    (1_024, SEARCHED, &[], &[32], Err(6)),
    (1_024, SEARCHED, &[0], &[], Err(12)),
    (1_024, SEARCHED, &[0], &[0], Err(12)),
    (1_024, [0, 0, 0, 0, 0, 0], &[], &[], Ok([0, 0])),
    // 6 by swap_max and by max_len, as before.
    (1_003, [16, 1, 21, 10, 100, 100], &[0, 1], &[1], Err(6)),
    (1_003, [16, 17, 1, 10, 100, 100], &[0, 1], &[1], Err(6)),
    (1_023, [16, 0, 0, 10, 100, 100], &[0], &[0], Err(6)),
];

/// Plannings by hand, and windows of 17, the longest at reach 17, where there is room for 17 and for 16.
fn planned(list: &mut List) {
    for (beneath, numbers, start, goal, expected) in PLANNED {
        list.plan(numbers, start, goal, above(beneath));
        list.must_plan(expected);
    }
    let (rising, turned): (Vec<u8>, Vec<u8>) = ((0..17).collect(), (0..17).rev().collect());
    let few = [16, 17, 21, 6, 600, 900];
    for (beneath, of_goal, of_start) in [(1_007, 0, 0), (1_008, 6, 12)] {
        list.plan(few, &rising[..16], &turned, above(beneath));
        list.must_answer(of_goal);
        list.plan(few, &rising, &turned[..16], above(beneath));
        list.must_answer(of_start);
        list.plan(few, &rising[..16], &turned[1..], above(beneath));
        list.must_answer(0);
    }
}

/// Items beneath and, by hand, the keys that have room above them at `max_len` 21.
const ROOMS: [(usize, usize); 7] =
    [(1_003, 21), (1_004, 20), (1_007, 17), (1_008, 16), (1_020, 4), (1_023, 1), (1_024, 0)];

/// Replays, markings and steppings back of a window that fills the stack, and of one with a key more.
fn at_the_top(list: &mut List, beneath: usize, room: usize) {
    let keys: Vec<u8> = (0..22).collect();
    let (full, goal) = (&keys[..room], &keys[..21]);
    let most = (u32::MAX, 0);
    // No step; a Dup, a push, a load; behind a Pop one key more, not two.
    let ways: [(&[u16], u32); 7] = [
        (&[], 0),
        (&[256], 8),
        (&[800], 8),
        (&[1024], 8),
        (&[0, 800], 0),
        (&[0, 1024, 800], 8),
        (&[0, 800, 0, 1029], 0),
    ];
    for (steps, number) in ways {
        // A Pop of nothing.
        let number = if room == 0 && !steps.is_empty() { 8 } else { number };
        list.replay(full, steps, above(beneath));
        list.must_answer(number);
        // Marked by a goal of `max_len` keys: 6 reads nothing else, and 12 the start alone.
        list.mark(full, goal, steps, most, above(beneath));
        list.must_answer(number);
    }
    let tall = &keys[..room + 1];
    list.replay(tall, &[0], above(beneath));
    list.must_answer(12);
    list.mark(tall, full, &[0], most, above(beneath));
    list.must_answer(12);
    list.rewind(tall, &[], &[], above(beneath));
    list.must_answer(12);
    walks_at_the_top(list, beneath, full);
}

/// Steppings back from an end that fills the stack.
fn walks_at_the_top(list: &mut List, beneath: usize, full: &[u8]) {
    list.rewind(full, &[], &[], above(beneath));
    list.must_start(Some(full));
    // The start would be a key longer.
    list.rewind(full, &[0], &[7], above(beneath));
    list.must_start(None);
    // A window on the way would.
    list.rewind(full, &[1029, 0], &[5], above(beneath));
    list.must_start(None);
    let Some((_, below)) = full.split_first() else {
        return;
    };
    let end = [&[32], below].concat();
    list.rewind(&end, &[800], &[], above(beneath));
    list.must_start(Some(below));
    list.rewind(&end, &[0, 800], &[9], above(beneath));
    list.must_start(Some(&[&[9], below].concat()));
    list.rewind(&end, &[800, 0, 800], &[32], above(beneath));
    list.must_start(Some(below));
    list.rewind(&end, &[0, 0, 800], &[9, 9], above(beneath));
    list.must_start(None);
}

/// Goals longer than the room above the items beneath: 6 for the planner, for a marking only past `max_len`.
fn goals(list: &mut List) {
    let keys: Vec<u8> = (0..22).collect();
    // Items beneath, the goal's keys, the planner's number, a marking's.
    for (beneath, length, of_plan, of_mark) in
        [(1_007, 17, 0, 0), (1_008, 17, 6, 0), (1_020, 4, 0, 0), (1_020, 5, 6, 0), (1_023, 21, 6, 0), (1_023, 22, 6, 6)]
    {
        let goal = &keys[..length];
        list.plan([16, 17, 21, 4, 200, 200], &[], goal, above(beneath));
        list.must_answer(of_plan);
        list.mark(&[], goal, &[], (0, 0), above(beneath));
        list.must_answer(of_mark);
    }
    // To a goal that fills the stack, at no more than the ceiling and above it.
    for ceiling in [(6, 3), (5, 9)] {
        list.mark(&[], &[0], &[1024], ceiling, above(1_023));
        list.must_answer(0);
    }
}

/// Counts over 1,024: by one, with nothing in their low 32 bits, and such that a sum would wrap.
const OVER: [usize; 3] = [1_025, 1 << 32, usize::MAX];

/// Every call is refused as 12 whatever its start, unless 5 applies.
fn over(list: &mut List, beneath: usize) {
    let starts: [(&[u8], u32); 3] = [(&[], 12), (&[0, 1], 12), (&[0, 64], 5)];
    for (start, number) in starts {
        list.plan([16, 17, 21, 10, 100, 100], start, start, above(beneath));
        list.must_answer(number);
        list.replay(start, &[], above(beneath));
        list.must_answer(number);
        list.mark(start, start, &[], (0, 0), above(beneath));
        list.must_answer(number);
        list.rewind(start, &[], &[], above(beneath));
        list.must_answer(number);
    }
}

/// With nothing beneath too a start of over 1,024 keys is refused as 12, a goal as 6.
fn long_starts(list: &mut List) {
    for (length, number) in [(1_024, 6), (1_025, 12)] {
        let long = vec![1; length];
        list.plan([16, 17, 21, 10, 100, 100], &long, &[], |_| {});
        list.must_answer(number);
        list.replay(&long, &[], |_| {});
        list.must_answer(number);
        list.mark(&long, &[], &[], (0, 0), |_| {});
        list.must_answer(number);
        list.rewind(&long, &[], &[], |_| {});
        list.must_answer(number);
    }
    let long = vec![1; 1_025];
    list.plan([16, 17, 21, 10, 100, 100], &[], &long, |_| {});
    list.must_answer(6);
    list.mark(&[], &long, &[], (0, 0), |_| {});
    list.must_answer(6);
}

/// A change of a call that is accepted with two keys at 1,020 items beneath, and the number that refuses it then.
type Refused<'a> = (u32, &'a dyn Fn(&mut Case));

/// Each change alone, and with an item too many beneath: its number up to 5, or 12.
fn refused(list: &mut List, changes: &[Refused<'_>], mut ask: impl FnMut(&mut List, &dyn Fn(&mut Case))) {
    for &(number, change) in changes {
        let tall = if matches!(number, 1..=5) { number } else { 12 };
        for (beneath, expected) in [(1_020, number), (1_023, tall)] {
            ask(list, &|case| {
                case.limits.beneath = beneath;
                change(case);
            });
            list.must_answer(expected);
        }
    }
}

fn plan_refusals(list: &mut List) {
    let changes: [Refused<'_>; 13] = [
        (0, &|_| {}),
        (1, &|r| r.limits.dup_max = 17),
        (2, &|r| r.limits.max_len = 22),
        (3, &|r| r.limits.max_expansions = 65_537),
        (4, &|r| kinds(r).truncate(63)),
        (4, &|r| spoil(prices(r), 195, 30_001)),
        (5, &|r| r.start[1] = 64),
        (5, &|r| r.goal[0] = 255),
        // By swap_max, by max_len and by the narrower window alone.
        (6, &|r| r.limits.swap_max = 1),
        (6, &|r| r.limits.max_len = 1),
        (6, &|r| r.goal = vec![5; 5]),
        (7, &|r| r.lent.steps = 127),
        (7, &|r| r.lent.heads -= 1),
    ];
    refused(list, &changes, |list, change| list.plan([16, 17, 21, 100, 200, 300], &[0, 1], &[1], change));
}

fn replay_refusals(list: &mut List) {
    let changes: [Refused<'_>; 8] = [
        (1, &|r| r.limits.swap_max = 18),
        (2, &|r| r.limits.max_len = 22),
        (4, &|r| spoil(kinds(r), 63, 3)),
        (5, &|r| r.start[0] = 64),
        (6, &|r| r.limits.max_len = 1),
        (7, &|r| r.lent.steps = 20),
        (7, &|r| r.lent.popped = 1),
        (8, &|r| r.steps = vec![256, 256, 256]),
    ];
    refused(list, &changes, |list, change| list.replay(&[0, 1], &[256, 0], change));
}

fn mark_refusals(list: &mut List) {
    let changes: [Refused<'_>; 9] = [
        (1, &|r| r.limits.swap_max = 18),
        (2, &|r| r.limits.max_len = 22),
        (4, &|r| spoil(kinds(r), 0, 2)),
        (4, &|r| prices(r).truncate(195)),
        (5, &|r| r.start[0] = 64),
        (5, &|r| r.goal = vec![64; 22]),
        (6, &|r| r.limits.max_len = 1),
        (6, &|r| r.goal = vec![1; 22]),
        (8, &|r| r.steps = vec![256, 256, 256]),
    ];
    refused(list, &changes, |list, change| list.mark(&[0, 1], &[0, 1], &[256, 0], (5, 2), change));
}

fn rewind_refusals(list: &mut List) {
    let changes: [Refused<'_>; 9] = [
        (1, &|r| r.limits.dup_max = 17),
        (2, &|r| r.limits.max_len = 22),
        (4, &|r| kinds(r).truncate(63)),
        (5, &|r| r.start[0] = 64),
        (5, &|r| r.popped.push(64)),
        (6, &|r| r.limits.max_len = 1),
        (7, &|r| r.lent.steps = 20),
        (11, &|r| r.popped.clear()),
        (11, &|r| (r.steps, r.popped) = (vec![0, 0, 0], vec![1, 2, 3])),
    ];
    refused(list, &changes, |list, change| list.rewind(&[0, 1], &[256, 0], &[0], change));
}

/// Drawn questions whose answer the items beneath change, kept until each kind of answer has its share.
fn drawn_plans(list: &mut List) {
    const SHARE: usize = 3;
    const DRAWS: u64 = 6_000;
    let price_lists = price_lists();
    let mut shares = HashMap::new();
    for index in 0..DRAWS {
        let mut random = Random::new(12, index);
        let tables = Tables { prices: price_lists[random.below(price_lists.len())].clone(), ..Tables::desk() };
        let mut case = draw::deep_question(&mut random, &Arc::new(tables));
        let limits = &mut case.limits;
        for allowance in [&mut limits.max_expansions, &mut limits.states_without, &mut limits.states_with] {
            *allowance = (*allowance).min(1_000);
        }
        case.lent = case.least();
        let answer = expect::answer(&case, &mut list.reference);
        if answer == expect::answer(&case.with_none_beneath(), &mut list.reference) {
            continue;
        }
        // By found, origin and ending.
        let share: &mut usize = shares.entry([FOUND, ORIGIN, ENDING].map(|at| answer.fields[at])).or_default();
        if *share < SHARE {
            *share += 1;
            list.records.push(Record::new(case, answer));
        }
    }
}

/// Plans of these records replayed and marked at their ceiling, as deep and one item deeper.
fn plans_followed(list: &mut List, before: usize) {
    let plans: Vec<Record> = list.records[before..].iter().filter(|record| has_plan(record)).cloned().collect();
    for Record { case: plan, answer, .. } in plans.into_iter().step_by(3) {
        let ceiling = (answer.fields[CEILING] as u32, answer.fields[CEILING + 1] as u32);
        for deeper in 0..2 {
            let as_planned = |case: &mut Case| {
                (case.limits, case.tables) = (plan.limits, Arc::clone(&plan.tables));
                case.limits.beneath += deeper;
            };
            list.replay(&plan.start, &answer.plan, as_planned);
            list.mark(&plan.start, &plan.goal, &answer.plan, ceiling, as_planned);
            if deeper == 0 {
                list.must_answer(0);
            }
        }
    }
}

fn has_plan(Record { case, answer, .. }: &Record) -> bool {
    case.call == Call::Plan && case.limits.beneath != 0 && !answer.plan.is_empty()
}

/// Drawn replays, and walks back from their ends with other items beneath, kept until each kind of answer has its share.
fn drawn_walks(list: &mut List) {
    const SHARE: usize = 4;
    const DRAWS: u64 = 2_000;
    let mut shares = HashMap::new();
    for index in 0..DRAWS {
        let mut random = Random::new(13, index);
        let mut there = list.new_case(Call::Replay);
        let Limits { dup_max, swap_max, max_len, beneath, .. } = draw::deep_limits(&mut random);
        there.limits = Limits { beneath, ..reaches(dup_max, swap_max, max_len) };
        (there.start, _) = draw::windows(&mut random, there.limits.window());
        let count = random.below(16);
        there.steps = draw::steps(&mut random, &there, count);
        there.lent = there.least();
        let run = expect::answer(&there, &mut list.reference);
        let mut back = Case { call: Call::Rewind, start: run.window, popped: run.popped, ..there.clone() };
        back.limits.beneath = draw::any_beneath(&mut random, back.start.len());
        back.lent = back.least();
        for case in [there, back] {
            let answer = expect::answer(&case, &mut list.reference);
            let moved = answer != expect::answer(&case.with_none_beneath(), &mut list.reference);
            let why = if answer.refusal == 11 { start_before(&case).err().map(|why| why as u8) } else { None };
            let share: &mut usize = shares.entry((case.call as u8, answer.refusal, why, moved)).or_default();
            if *share < SHARE && case.limits.beneath != 0 {
                *share += 1;
                list.records.push(Record::new(case, answer));
            }
        }
    }
}
