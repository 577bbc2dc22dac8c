//! A case as the words of `differential/run ask`, and back.
//!
//!   ask DUP_MAX SWAP_MAX MAX_LEN MAX_EXPANSIONS WITHOUT WITH START GOAL [WORD=VALUE ..]
//!
//! START and GOAL are keys parted by spaces; of `call=rewind`, stepping back, START is the end window. The words, with
//! what a missing one means:
//!
//! - `call=`    planner (missing), replay, marking, packing, star-swap, delete-tail, rewind
//! - `beneath=` the items beneath the window: 0
//! - `steps=`   step codes, parted by commas: none
//! - `popped=`  the popped keys that a stepping back is given, parted by commas: none
//! - `ceiling=` gas, bytes: 0,0
//! - `kinds=`   the kinds, parted by commas: the desk's
//! - `prices=`  the prices, parted by commas: the desk's
//! - `lent=`    lengths of step list (replay, rewind: result list), nodes, heads, open list, a replay's list for popped
//!   keys: the least
//!
//! `A*N` stands for N times A, and `A/B*N` for N times A, B.

use crate::case::{Call, Case, Lengths, Tables, limits};
use std::{fmt::Display, str::FromStr, sync::Arc};

/// The command that asks a case of both sides.
pub fn command(case: &Case) -> String {
    let window = |keys: &[u8]| format!("\"{}\"", joined(keys, " "));
    let mut words = vec![joined(&case.limits.numbers(), " "), window(&case.start), window(&case.goal)];
    if case.call != Call::Plan {
        words.push(format!("call={}", case.call.name()));
    }
    if case.limits.beneath != 0 {
        words.push(format!("beneath={}", case.limits.beneath));
    }
    if !case.steps.is_empty() {
        let (one, two) = (runs(&case.steps, 1), runs(&case.steps, 2));
        words.push(format!("steps={}", if two.len() < one.len() { two } else { one }));
    }
    if !case.popped.is_empty() {
        words.push(format!("popped={}", runs(&case.popped, 1)));
    }
    if case.ceiling != [0; 2] {
        words.push(format!("ceiling={}", joined(&case.ceiling, ",")));
    }
    let desk = Tables::desk();
    if case.tables.kinds != desk.kinds {
        words.push(format!("kinds={}", runs(&case.tables.kinds, 1)));
    }
    if case.tables.prices != desk.prices {
        words.push(format!("prices={}", runs(&case.tables.prices, 2)));
    }
    if case.lent != case.least() {
        words.push(format!("lent={}", joined(&case.lent.numbers(), ",")));
    }
    format!("differential/run ask {}", words.join(" "))
}

fn joined<T: Display>(list: &[T], by: &str) -> String {
    list.iter().map(T::to_string).collect::<Vec<_>>().join(by)
}

/// A list with equal groups of `group` entries counted.
fn runs<T: Display + PartialEq>(list: &[T], group: usize) -> String {
    let mut text: Vec<(String, usize)> = Vec::new();
    for part in list.chunks(group) {
        let part = joined(part, "/");
        match text.last_mut() {
            Some((last, count)) if *last == part => *count += 1,
            _ => text.push((part, 1)),
        }
    }
    let counted = |(part, count): &(String, usize)| if *count == 1 { part.clone() } else { format!("{part}*{count}") };
    text.iter().map(counted).collect::<Vec<_>>().join(",")
}

/// The case of the words behind `ask`, or what is wrong with them.
pub fn parse(words: &[&str]) -> Result<Case, String> {
    let [numbers @ .., start, goal] = words.get(..8).ok_or("six numbers, a start and a goal are needed")? else {
        unreachable!("eight words");
    };
    let numbers: Vec<usize> = numbers.iter().map(|word| number("a limit", word)).collect::<Result<_, _>>()?;
    let mut case = Case::new(Call::Plan, &Arc::new(Tables::desk()));
    case.limits = limits(numbers.try_into().expect("six numbers"));
    case.start = window(start)?;
    case.goal = window(goal)?;
    let mut lent = None;
    for word in &words[8..] {
        let (name, value) = word.split_once('=').ok_or_else(|| format!("`{word}` is not WORD=VALUE"))?;
        match name {
            "call" => case.call = Call::from_name(value).ok_or_else(|| format!("`{value}` is no call"))?,
            "beneath" => case.limits.beneath = number("a count", value)?,
            "steps" => case.steps = list("a step code", value)?,
            "popped" => case.popped = list("a key", value)?,
            "ceiling" => case.ceiling = fixed("ceiling", list("a ceiling", value)?)?,
            "kinds" => Arc::make_mut(&mut case.tables).kinds = list("a kind", value)?,
            "prices" => Arc::make_mut(&mut case.tables).prices = list("a price", value)?,
            "lent" => lent = Some(Lengths::of(fixed("lent", list("a length", value)?)?)),
            _ => return Err(format!("`{name}` is no word of ask")),
        }
    }
    case.lent = lent.unwrap_or_else(|| case.least());
    if case.lent.numbers().iter().any(|&length| length > MOST_LENT) {
        return Err(format!("more than {MOST_LENT} numbers to a list are not lent here; say lent="));
    }
    Ok(case)
}

/// More than any accepted question needs.
pub const MOST_LENT: usize = 2_000_000;

fn window(text: &str) -> Result<Vec<u8>, String> {
    text.split_whitespace().map(|word| number("a key", word)).collect()
}

/// A number that fits its place: nothing wraps.
fn number<T: FromStr>(what: &str, word: &str) -> Result<T, String> {
    let most = (1u128 << (8 * size_of::<T>())) - 1;
    word.parse().map_err(|_| format!("`{word}` is not {what}, a number of at most {most}"))
}

fn list<T: FromStr + Copy>(what: &str, text: &str) -> Result<Vec<T>, String> {
    let mut all = Vec::new();
    for part in text.split(',').filter(|part| !part.is_empty()) {
        let (group, count) = match part.split_once('*') {
            Some((group, count)) => (group, number::<u32>("a count", count)? as usize),
            None => (part, 1),
        };
        let group: Vec<T> = group.split('/').map(|word| number(what, word)).collect::<Result<_, _>>()?;
        if all.len() + group.len() * count > MOST_LENT {
            return Err(format!("`{text}` has more than {MOST_LENT} entries"));
        }
        all.extend(std::iter::repeat_n(group, count).flatten());
    }
    Ok(all)
}

fn fixed<T, const N: usize>(name: &str, list: Vec<T>) -> Result<[T; N], String> {
    list.try_into().map_err(|list: Vec<T>| format!("{name} has {} numbers and not {N}", list.len()))
}
