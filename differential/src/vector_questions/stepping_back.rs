//! Replays with their popped keys, and steppings back.

use super::{List, kinds, reaches, spoil};
use crate::{
    case::{Call, Case, Limits, Tables},
    command::command,
    draw::{self, Random},
    expect,
    record::{KINDS, PRICES, Record},
    rewinding::start_before,
    walks,
};
use std::{collections::HashMap, sync::Arc};

pub fn all(list: &mut List) {
    popped_keys(list);
    starts(list);
    no_starts(list);
    refusals(list);
    drawn(list);
    long_walks(list);
    round_trips(list, 0);
}

impl List {
    /// The last record must be accepted with these keys popped, or refused with this number.
    fn must_pop(&self, popped: Result<&[u8], u32>) {
        let Record { case, answer, .. } = self.records.last().expect("a record was added");
        let answered = if answer.refusal == 0 { Ok(&answer.popped[..]) } else { Err(answer.refusal) };
        assert_eq!(answered, popped, "{}", command(case));
    }

    /// The last record must give this start, or 11.
    pub(super) fn must_start(&self, start: Option<&[u8]>) {
        let Record { case, answer, .. } = self.records.last().expect("a record was added");
        let expected = if start.is_some() { 0 } else { 11 };
        assert_eq!((answer.refusal, &answer.window[..]), (expected, start.unwrap_or(&[])), "{}", command(case));
    }
}

/// A start, steps and, by hand, the popped keys, or 8.
type Way = (&'static [u8], &'static [u16], Result<&'static [u8], u32>);

const WAYS: [Way; 15] = [
    // Nothing, and nothing popped.
    (&[], &[], Ok(&[])),
    (&[0], &[256, 256], Ok(&[])),
    (&[0, 1], &[513], Ok(&[])),
    // From the top down, after Swaps, after Dups, of keys that were made.
    (&[0, 1, 33], &[0], Ok(&[0])),
    (&[0, 1, 33], &[0, 0, 0], Ok(&[0, 1, 33])),
    (&[0, 1, 33], &[514, 0, 513, 0], Ok(&[33, 0])),
    (&[0, 1, 33], &[256, 0, 0], Ok(&[0, 0])),
    (&[0, 1, 33], &[258, 800, 0, 0], Ok(&[32, 33])),
    (&[], &[1029, 800, 513, 0, 0], Ok(&[5, 32])),
    (&[7], &[0, 1031, 0, 1031, 0], Ok(&[7, 7, 7])),
    (&[63, 0, 63], &[0, 257, 0, 0, 831], Ok(&[63, 63, 0])),
    // A step is not allowed after Pops: a Pop of nothing, no kind of step, a Swap below the window, a Pop with operand.
    (&[0, 1], &[0, 0, 0], Err(8)),
    (&[0, 1], &[0, 1280], Err(8)),
    (&[0, 1, 2], &[0, 514], Err(8)),
    (&[0, 1, 2], &[0, 0, 1], Err(8)),
];

/// Each of these replays in lists for popped keys as long as the steps, longer, and one place too short.
fn popped_keys(list: &mut List) {
    for (start, steps, popped) in WAYS {
        let count = steps.len();
        for places in [count, count + 3] {
            list.replay(start, steps, |case| case.lent.popped = places);
            list.must_pop(popped);
        }
        if count > 0 {
            list.replay(start, steps, |case| case.lent.popped = count - 1);
            list.must_pop(Err(7));
        }
    }
    let full: Vec<u8> = (0..21).collect();
    list.replay(&full, &[0; 21], |_| {});
    list.must_pop(Ok(&full));
    // Enough for the Pops, not for the steps.
    list.replay(&[0, 1, 2], &[513, 0, 513], |case| case.lent.popped = 1);
    list.must_pop(Err(7));
}

/// Rules, end, steps, popped keys and, by hand, the start.
type Walk = ([usize; 3], &'static [u8], &'static [u16], &'static [u8], &'static [u8]);

const WIDE: [usize; 3] = [16, 17, 21];

/// Every kind of step, and what is popped and made on the way.
const STARTS: [Walk; 20] = [
    // No steps.
    (WIDE, &[], &[], &[], &[]),
    (WIDE, &[3, 63], &[], &[], &[3, 63]),
    ([0, 0, 0], &[], &[], &[], &[]),
    // Pops put back, the last popped first; to max_len.
    (WIDE, &[1], &[0], &[0], &[0, 1]),
    (WIDE, &[], &[0, 0, 0], &[0, 1, 33], &[0, 1, 33]),
    ([0, 0, 1], &[], &[0], &[8], &[8]),
    // Dup 0 and Dup 1; a Swap; a push; a load of a key that is there already.
    (WIDE, &[5, 5], &[256], &[], &[5]),
    (WIDE, &[7, 5, 7], &[257], &[], &[5, 7]),
    (WIDE, &[33, 1, 0], &[514], &[], &[0, 1, 33]),
    (WIDE, &[32, 4], &[800], &[], &[4]),
    (WIDE, &[4, 4], &[1028], &[], &[4]),
    // At the edges of the reaches.
    ([2, 3, 3], &[1, 0, 1], &[257], &[], &[0, 1]),
    ([2, 3, 3], &[2, 1, 0], &[514], &[], &[0, 1, 2]),
    // A key that was made or copied is popped; the copy stays and what was copied is popped.
    (WIDE, &[], &[1029, 0], &[5], &[]),
    (WIDE, &[9], &[256, 0], &[9], &[9]),
    (WIDE, &[9], &[256, 513, 0], &[9], &[9]),
    (WIDE, &[32], &[800, 513, 0], &[6], &[6]),
    // Popped keys and the end tell the start together.
    (WIDE, &[2, 2], &[0, 256], &[1], &[1, 2]),
    (WIDE, &[1], &[514, 0, 513, 0], &[33, 0], &[0, 1, 33]),
    (WIDE, &[63], &[0, 257, 0, 0, 831, 513, 0], &[63, 63, 0, 63], &[63, 0, 63]),
];

fn within([dup_max, swap_max, max_len]: [usize; 3]) -> impl FnOnce(&mut Case) {
    move |case| case.limits = reaches(dup_max, swap_max, max_len)
}

/// Steppings back with their start worked out by hand.
fn starts(list: &mut List) {
    for (rules, end, steps, popped, start) in STARTS {
        list.rewind(end, steps, popped, within(rules));
        list.must_start(Some(start));
    }
    // The deepest Dup and the deepest Swap, and a window of 21.
    let rising: Vec<u8> = (20..41).collect();
    list.rewind(&[&[35], &rising[..16]].concat(), &[271], &[], |_| {});
    list.must_start(Some(&rising[..16]));
    list.rewind(&[&[36], &rising[1..16], &[20]].concat(), &[528], &[], |_| {});
    list.must_start(Some(&rising[..17]));
    list.rewind(&[], &[0; 21], &rising, |_| {});
    list.must_start(Some(&rising));
}

/// Rules, end, steps and popped keys to which no start leads.
type NoWalk = ([usize; 3], &'static [u8], &'static [u16], &'static [u8]);

const NO_STARTS: [NoWalk; 42] = [
    // Fewer or more popped keys than Pops.
    (WIDE, &[1], &[0], &[]),
    (WIDE, &[1], &[], &[0]),
    (WIDE, &[1], &[0], &[0, 1]),
    (WIDE, &[1], &[0, 0], &[0]),
    (WIDE, &[], &[1029, 0], &[]),
    // The top is not what was copied, pushed, loaded.
    (WIDE, &[5, 6], &[256], &[]),
    (WIDE, &[5, 5, 6], &[257], &[]),
    (WIDE, &[6, 4], &[800], &[]),
    (WIDE, &[4, 9], &[1029], &[]),
    // A popped key is not what was there.
    (WIDE, &[], &[1029, 0], &[6]),
    (WIDE, &[7], &[256, 0], &[8]),
    (WIDE, &[9], &[256, 513, 0], &[8]),
    (WIDE, &[1], &[256, 514, 0, 0], &[2, 3]),
    // Swaps of the top, out of the window, out of reach.
    (WIDE, &[0, 1], &[512], &[]),
    (WIDE, &[0], &[513], &[]),
    (WIDE, &[], &[513], &[]),
    (WIDE, &[0, 1], &[514], &[]),
    ([16, 2, 21], &[0, 1, 2], &[514], &[]),
    ([16, 0, 21], &[0, 1, 2], &[513], &[]),
    // Dups of nothing, out of the window, out of reach.
    (WIDE, &[0], &[256], &[]),
    (WIDE, &[0, 0], &[257], &[]),
    ([0, 17, 21], &[5, 5], &[256], &[]),
    ([1, 17, 21], &[1, 0, 1], &[257], &[]),
    // A value pushed, an immediate and the zero loaded, keys of 64 and more.
    (WIDE, &[5], &[773], &[]),
    (WIDE, &[33], &[1057], &[]),
    (WIDE, &[32], &[1056], &[]),
    (WIDE, &[0], &[832], &[]),
    (WIDE, &[63], &[1088], &[]),
    (WIDE, &[63], &[1023], &[]),
    // No step: a Pop with operand, other kinds.
    (WIDE, &[0], &[1], &[]),
    (WIDE, &[0], &[1], &[0]),
    (WIDE, &[0], &[255], &[1]),
    (WIDE, &[0], &[1280], &[]),
    (WIDE, &[0], &[65_535], &[]),
    // The start would be shorter than empty.
    (WIDE, &[], &[256], &[]),
    (WIDE, &[], &[1029], &[]),
    (WIDE, &[5], &[1029, 1029], &[]),
    // The start would be too long; a window on the way is.
    ([16, 17, 1], &[0], &[0], &[1]),
    ([16, 17, 0], &[], &[0], &[1]),
    ([16, 17, 2], &[0, 1], &[800, 0], &[32]),
    ([16, 17, 2], &[0, 1], &[256, 0], &[0]),
    ([16, 17, 1], &[0], &[1024, 0, 0, 1024], &[0, 0]),
];

/// Steppings back without a start, by hand.
fn no_starts(list: &mut List) {
    for (rules, end, steps, popped) in NO_STARTS {
        list.rewind(end, steps, popped, within(rules));
        list.must_start(None);
    }
    // Past reach 15 of a Dup and 16 of a Swap, and past 21.
    let rising: Vec<u8> = (20..41).collect();
    list.rewind(&[&[36], &rising[..17]].concat(), &[272], &[], |_| {});
    list.must_start(None);
    list.rewind(&rising[..18], &[529], &[], |_| {});
    list.must_start(None);
    list.rewind(&rising, &[0], &[3], |_| {});
    list.must_start(None);
    list.rewind(&rising, &[256, 0], &[20], |_| {});
    list.must_start(None);
}

/// Each number's conditions one by one, then pairs of which the lower number is given.
fn refusals(list: &mut List) {
    let paired: [&dyn Fn(&mut Case); 9] = [
        &|r| r.limits.dup_max = 17,
        &|r| r.limits.max_len = 22,
        &|r| kinds(r).truncate(63),
        &|r| r.start[0] = 64,
        // A popped key behind the last Pop's.
        &|r| r.popped.push(64),
        &|r| r.limits.max_len = 1,
        &|r| r.lent.steps = 20,
        &|r| r.popped.clear(),
        &|r| r.steps = vec![256, 0, 1280],
    ];
    let alone: [&dyn Fn(&mut Case); 6] = [
        &|r| r.limits.swap_max = 18,
        &|r| spoil(kinds(r), 63, 3),
        &|r| spoil(kinds(r), 0, 2),
        &|r| r.popped[0] = 255,
        &|r| r.popped[0] = 1,
        &|r| r.lent.steps = 0,
    ];
    let mut ask = |change: &dyn Fn(&mut Case)| list.rewind(&[0, 1], &[256, 0], &[0], change);
    alone.iter().for_each(|change| ask(change));
    for (i, first) in paired.iter().enumerate() {
        for second in &paired[i..] {
            ask(&|case| {
                first(case);
                second(case);
            });
        }
    }
}

/// Drawn walks with something changed, kept until each kind of answer has its share.
fn drawn(list: &mut List) {
    const SHARE: usize = 4;
    const DRAWS: u64 = 4_000;
    let mut shares = HashMap::new();
    for index in 0..DRAWS {
        let mut random = Random::new(10, index);
        let there = drawn_replay(list, &mut random);
        let run = expect::answer(&there, &mut list.reference);
        let mut case = Case { call: Call::Rewind, start: run.window, popped: run.popped, ..there };
        case.lent = case.least();
        walks::change(&mut random, &mut case);
        if !fits_file(&case) {
            continue;
        }
        let answer = expect::answer(&case, &mut list.reference);
        let why = if answer.refusal == 11 { start_before(&case).err().map(|why| why as u8) } else { None };
        let share: &mut usize = shares.entry((answer.refusal, why)).or_default();
        if *share < SHARE {
            *share += 1;
            list.records.push(Record::new(case, answer));
        }
    }
}

/// Whether a case can stand in the file: whole tables or parts of them, and no number over 32 bits.
fn fits_file(case: &Case) -> bool {
    let in_bits = case.limits.numbers().iter().all(|&number| u32::try_from(number).is_ok());
    in_bits && case.steps.len() <= 1_000 && case.tables.kinds.len() <= KINDS && case.tables.prices.len() <= PRICES
}

/// A drawn replay with the desk's tables, of no more than the steps that are allowed.
fn drawn_replay(list: &mut List, random: &mut Random) -> Case {
    let mut case = Case::new(Call::Replay, &Arc::new(Tables::desk()));
    let Limits { dup_max, swap_max, max_len, .. } = draw::limits(random);
    case.limits = reaches(dup_max, swap_max, max_len);
    (case.start, _) = draw::windows(random, max_len);
    let count = random.below(16);
    allowed_steps(list, random, &mut case, count);
    case
}

/// Gives a replay so many drawn steps, cut where one is not allowed, and the least lists.
fn allowed_steps(list: &mut List, random: &mut Random, case: &mut Case, count: usize) {
    case.steps = draw::steps(random, case, count);
    case.lent = case.least();
    let answer = expect::answer(case, &mut list.reference);
    if answer.refusal == 8 {
        case.steps.truncate(answer.fields[0] as usize);
        case.lent = case.least();
    }
}

/// Replays of up to 1,000 steps.
fn long_walks(list: &mut List) {
    for (index, count) in [100, 400, 1_000].into_iter().enumerate() {
        let mut random = Random::new(11, index as u64);
        let mut case = list.new_case(Call::Replay);
        (case.start, case.limits) = ((0..9).collect(), reaches(16, 17, 21));
        while case.steps.len() < count {
            allowed_steps(list, &mut random, &mut case, count);
        }
        list.add(case);
    }
}

/// From the end of each accepted replay of the list, from this record on, back to its start.
pub fn round_trips(list: &mut List, from: usize) {
    let replays: Vec<Record> =
        list.records[from..].iter().filter(|record| is_accepted_replay(record)).cloned().collect();
    for Record { case, answer, .. } in replays {
        let there = case.clone();
        list.rewind(&answer.window, &case.steps, &answer.popped, |back| {
            (back.limits, back.tables) = (there.limits, there.tables);
        });
        list.must_start(Some(&case.start));
    }
}

fn is_accepted_replay(record: &Record) -> bool {
    record.case.call == Call::Replay && record.answer.refusal == 0
}
