//! The fixed list of the reference's answers as a file: written, read back and asked of the port.
//! docs/vectors-format.md describes the bytes.

use crate::{
    case::{Call, ENDING, HIGHEST, HIGHEST_REPLAYED, ORIGIN},
    command::command,
    compare::Sides,
    draw::Random,
    expect,
    record::{KINDS, PRICES, Pool, Record, number},
    reference::Reference,
    rewinding::{NoStart, start_before},
    vector_questions,
};
use std::{collections::HashSet, fs};

const MAGIC: &[u8; 8] = b"NIMSKV2\n";
/// Bytes before the price lists.
const HEAD: usize = 36;
/// What the desk lends: records that need no more come first.
const DESK_ENTRIES: usize = 1_050;
const DESK_STEPS: usize = 1_000;

/// Work list entries that a record lends.
fn entries(record: &Record) -> usize {
    let lent = &record.case.lent;
    (lent.nodes / 8).max(lent.heads).max(lent.open / 4)
}

/// Whether the desk's lists are enough.
fn fits_desk(record: &Record) -> bool {
    entries(record) <= DESK_ENTRIES && record.case.lent.steps <= DESK_STEPS
}

/// The longest list of steps asked, of popped keys given or of places lent for them.
fn longest(record: &Record) -> usize {
    let case = &record.case;
    case.steps.len().max(case.popped.len()).max(case.lent.popped)
}

/// The records of the list, each with no more than its call takes and no two alike, and the file's bytes.
pub fn made() -> (Vec<Record>, Vec<u8>) {
    let mut records = vector_questions::all();
    records.iter_mut().for_each(|record| record.case = record.case.taken());
    records.sort_by_key(|record| (!fits_desk(record), if fits_desk(record) { 0 } else { entries(record) }));
    let (mut pool, mut seen) = (Pool::default(), HashSet::new());
    records.retain(|record| seen.insert(record.bytes(&mut pool)));
    assert!(records.iter().all(|record| longest(record) <= DESK_STEPS), "steps and popped keys fit the desk's lists");
    let bytes = bytes_of(&records);
    (records, bytes)
}

/// The bytes of a file of these records.
fn bytes_of(records: &[Record]) -> Vec<u8> {
    let mut pool = Pool::default();
    let body: Vec<u8> = records.iter().flat_map(|record| record.bytes(&mut pool)).collect();

    let most = |of: &dyn Fn(&Record) -> usize| records.iter().map(of).max().unwrap_or(0);
    let mut bytes = MAGIC.to_vec();
    for count in [HEAD, pool.prices.len(), PRICES, pool.kinds.len(), KINDS, 0] {
        bytes.extend(u16::try_from(count).expect("a count of 16 bits").to_le_bytes());
    }
    let fitting = records.iter().filter(|record| fits_desk(record)).count();
    for count in [records.len(), fitting, most(&entries), most(&|record| record.case.lent.steps)] {
        bytes.extend(u32::try_from(count).expect("a count of 32 bits").to_le_bytes());
    }
    assert_eq!(bytes.len(), HEAD);
    pool.prices.iter().flatten().for_each(|price| bytes.extend(price.to_le_bytes()));
    pool.kinds.iter().for_each(|kinds| bytes.extend(kinds));
    bytes.extend(body);
    bytes
}

/// The bytes of the records as they were before planner, replay and marking answered the highest window, their last
/// field, and before replay wrote the popped keys: then there was no stepping back, no number of places for them, and
/// neither items beneath nor 12.
pub fn older(mut records: Vec<Record>) -> Vec<u8> {
    records.retain(|Record { case, answer, .. }| match case.call {
        _ if case.limits.beneath != 0 || answer.refusal == 12 => false,
        Call::Replay => case.lent.popped == case.steps.len(),
        call => call != Call::Rewind,
    });
    for record in &mut records {
        record.fields -= usize::from(matches!(record.case.call, Call::Plan | Call::Replay | Call::Mark));
        record.has_popped = false;
    }
    bytes_of(&records)
}

/// Writes the list and prints what it holds; then asks the port all of it.
pub fn write(path: &str) -> bool {
    let (records, bytes) = made();
    fs::write(path, &bytes).unwrap_or_else(|error| panic!("{path}: {error}"));
    println!("{path}: {} bytes", bytes.len());
    summary(&records);
    replay(path)
}

fn summary(records: &[Record]) {
    let mut calls = [0; Call::COUNT];
    let (mut refusals, mut endings, mut origins) = ([0; 18], [0; 8], [0; 5]);
    let (mut zero_prices, mut over) = (0, Vec::new());
    for Record { case, answer, .. } in records {
        calls[case.call as usize] += 1;
        refusals[answer.refusal as usize] += 1;
        if case.call == Call::Plan && answer.refusal == 0 {
            endings[answer.fields[ENDING] as usize] += 1;
            origins[answer.fields[ORIGIN] as usize] += 1;
            if answer.plan.len() > 128 {
                over.push(answer.plan.len());
            }
        }
        zero_prices += usize::from(case.tables.prices == [0; PRICES]);
    }
    let names = Call::ALL.map(Call::name).join(", ");
    println!("records {}: {names} {calls:?}", records.len());
    println!("refusals from 0 {refusals:?}; endings from 0 {endings:?}; origins from 0 {origins:?}");
    println!("with all prices zero {zero_prices}; plans over 128 steps {over:?}");
    println!("records that fit the desk's lists: {}", records.iter().filter(|record| fits_desk(record)).count());
    highest_windows(records);
    popped_keys(records);
    items_beneath(records);
}

/// Prints how many calls have items beneath, are refused for them, have a narrower window and answer otherwise for it.
fn items_beneath(records: &[Record]) {
    let mut reference = Reference::default();
    let (mut calls, mut tall, mut narrowed, mut moved) =
        ([0; Call::COUNT], [0; Call::COUNT], [0; Call::COUNT], [0; Call::COUNT]);
    for Record { case, answer, .. } in records {
        let (call, limits) = (case.call as usize, case.limits);
        tall[call] += usize::from(answer.refusal == 12);
        if limits.beneath == 0 {
            continue;
        }
        calls[call] += 1;
        narrowed[call] += usize::from(answer.refusal == 0 && limits.window() < limits.max_len);
        let wide = expect::answer(&case.with_none_beneath(), &mut reference);
        moved[call] += usize::from(answer.refusal != 12 && wide != *answer);
    }
    println!("by call, with items beneath {calls:?}; refused as 12 {tall:?}");
    println!(
        "accepted with a narrower window {narrowed:?}; past 12 another answer than with nothing beneath {moved:?}"
    );
}

/// Prints what replays pop and what steppings back answer.
fn popped_keys(records: &[Record]) {
    let (mut replays, mut short, mut longer, mut no_start) = ([0; 2], 0, 0, [0; NoStart::COUNT]);
    let mut rewinds = [0; 18];
    for Record { case, answer, .. } in records {
        match case.call {
            Call::Replay => {
                short += usize::from(case.lent.popped < case.steps.len());
                longer += usize::from(case.lent.popped > case.steps.len());
                if answer.refusal == 0 {
                    replays[usize::from(!answer.popped.is_empty())] += 1;
                }
            }
            Call::Rewind => {
                rewinds[answer.refusal as usize] += 1;
                if answer.refusal == 11 {
                    start_before(case).err().into_iter().for_each(|why| no_start[why as usize] += 1);
                }
            }
            _ => {}
        }
    }
    println!(
        "accepted replays without and with popped keys {replays:?}; their list too short {short}, longer {longer}"
    );
    println!("steppings back by refusal from 0 {rewinds:?}; no start by {} {no_start:?}", NoStart::WORDS.join(", "));
}

/// Prints where accepted calls have their highest window.
fn highest_windows(records: &[Record]) {
    let (mut replays, mut marks, mut plans) = ([0; 3], [0; 3], [0; 5]);
    for Record { case, answer, .. } in records.iter().filter(|record| record.answer.refusal == 0) {
        let (fields, start) = (&answer.fields, case.start.len());
        let above = |highest: u64| highest > start.max(case.goal.len()) as u64;
        match case.call {
            Call::Replay => {
                let highest = fields[HIGHEST_REPLAYED] as usize;
                replays[if highest == start { 0 } else { 1 + usize::from(highest == answer.window.len()) }] += 1;
            }
            Call::Mark => marks[fields[1] as usize] += usize::from(above(fields[HIGHEST_REPLAYED])),
            Call::Plan => plans[fields[ORIGIN] as usize] += usize::from(above(fields[HIGHEST])),
            _ => {}
        }
    }
    println!("highest window of replays: the start, one on the way, the end {replays:?}");
    println!("above start and goal: markings from 0 {marks:?}; plans by origin from 0 {plans:?}");
}

/// Parts a file into its records, or says what is wrong with it.
pub fn read(file: &[u8]) -> Result<Vec<Record>, String> {
    if file.len() < HEAD || &file[..8] != MAGIC {
        return Err("the file does not begin as such a file does".into());
    }
    let [head, prices, per_list, kinds, per_kinds] = [8, 10, 12, 14, 16].map(|at| number(file, at, 2));
    if (per_list, per_kinds) != (PRICES, KINDS) {
        return Err(format!("tables of {per_list} prices and {per_kinds} kinds are not known"));
    }
    let kinds_at = head + 4 * PRICES * prices;
    let mut at = kinds_at + KINDS * kinds;
    let tables = file.get(head..at).ok_or("the file ends within its tables")?;
    let (price_bytes, kind_bytes) = tables.split_at(kinds_at - head);
    let prices: Vec<u32> = price_bytes.chunks_exact(4).map(|price| number(price, 0, 4) as u32).collect();
    let pool = Pool {
        prices: prices.chunks_exact(PRICES).map(<[u32]>::to_vec).collect(),
        kinds: kind_bytes.chunks_exact(KINDS).map(<[u8]>::to_vec).collect(),
    };
    let (mut records, mut seen) = (Vec::new(), HashSet::new());
    for index in 0..number(file, 20, 4) {
        let size = if at + 8 <= file.len() { number(file, at, 4) } else { 0 };
        let bytes = file.get(at..at + size).filter(|bytes| bytes.len() >= 8);
        let bytes = bytes.ok_or_else(|| format!("the file ends within record {index}"))?;
        if !seen.insert(bytes) {
            return Err(format!("record {index} stands twice"));
        }
        records.push(Record::read(bytes, &pool).map_err(|fault| format!("record {index}: {fault}"))?);
        at += size;
    }
    if at == file.len() { Ok(records) } else { Err("the file goes on behind its last record".into()) }
}

/// Asks the port every question of the file; true if every answer is as written.
pub fn replay(path: &str) -> bool {
    let file = fs::read(path).unwrap_or_else(|error| panic!("{path}: {error}"));
    match replay_bytes(&file) {
        Ok((passed, failed)) => {
            println!("no record stands twice\n{passed} passed, {failed} failed");
            failed == 0
        }
        Err(fault) => {
            println!("{path}: {fault}");
            false
        }
    }
}

/// How many records the port answers as written, and how many not. The first that fail are printed.
pub fn replay_bytes(file: &[u8]) -> Result<(usize, usize), String> {
    let mut sides = Sides::default();
    let mut failed = 0;
    let records = read(file)?;
    for (index, record) in records.iter().enumerate() {
        if let Some(text) = sides.differs_from(record, &mut Random::new(4, index as u64)) {
            failed += 1;
            if failed <= 5 {
                println!("- record {index}: {}\n  {text}", command(&record.case));
            }
        }
    }
    Ok((records.len() - failed, failed))
}
