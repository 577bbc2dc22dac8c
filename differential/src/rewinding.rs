//! Stepping back past its lower refusals, by two models that both follow the steps forward: from a start of items that
//! are not known, and from every start of a few keys.

use crate::{
    case::{Answer, Case},
    model::{Run, items, run},
};
use std::collections::HashMap;

/// Why there is no start.
#[derive(Clone, Copy, Debug, PartialEq, Eq)]
pub enum NoStart {
    /// There are more or fewer popped keys than Pops.
    PopCount,
    /// The start would be longer than `max_len`.
    TooLong,
    /// With the items beneath the start would be over 1,024.
    TooTall,
    /// The start would be shorter than empty.
    TooShort,
    /// A step is not allowed from any start of the length that leads to the end's.
    Step,
    /// A key of the end or a popped key is another than the steps put there.
    Key,
}

impl NoStart {
    pub const COUNT: usize = 6;
    pub const WORDS: [&str; Self::COUNT] =
        ["pop count", "start too long", "stack too tall", "start too short", "step", "key"];
}

/// An item on the way from a start that is not known.
#[derive(Clone, Copy, Debug)]
enum Item {
    /// The start's item at this place.
    Start(usize),
    Key(u8),
}

impl From<u8> for Item {
    fn from(key: u8) -> Self {
        Self::Key(key)
    }
}

/// The start from which the steps lead to the end with these keys popped.
///
/// Its length follows from the end's. From that many unknown items the steps are followed; then each item reached or
/// popped is held against the key that stands there.
pub fn start_before(case: &Case) -> Result<Vec<u8>, NoStart> {
    let length = start_length(case)?;
    let start: Vec<Item> = (0..length).map(Item::Start).collect();
    let Run { window, popped, .. } = run(case, &start, &case.steps).map_err(|_| NoStart::Step)?;
    let mut keys = vec![None; length];
    let reached = window.iter().zip(&case.start).chain(popped.iter().zip(&case.popped));
    for (&item, &key) in reached {
        let known = match item {
            Item::Key(known) => known,
            Item::Start(place) => *keys[place].get_or_insert(key),
        };
        if known != key {
            return Err(NoStart::Key);
        }
    }
    Ok(keys.into_iter().map(|key| key.expect("an item stays until it is popped")).collect())
}

/// The start's length: each Pop takes one item away, each Dup, PushImm and LoadVal adds one.
fn start_length(case: &Case) -> Result<usize, NoStart> {
    let pops = case.steps.iter().filter(|&&code| code == 0).count();
    let grown = case.steps.iter().filter(|&&code| matches!(code / 256, 1 | 3 | 4)).count();
    if pops != case.popped.len() {
        return Err(NoStart::PopCount);
    }
    let length = (case.start.len() + pops).checked_sub(grown).ok_or(NoStart::TooShort)?;
    if length > case.limits.max_len {
        Err(NoStart::TooLong)
    } else if items(case, length) > 1_024 {
        Err(NoStart::TooTall)
    } else {
        Ok(length)
    }
}

/// What is answered where there is this start, or none.
pub fn answer(start: Option<Vec<u8>>) -> Answer {
    match start {
        Some(window) => Answer { window: window.clone(), ..Answer::of(0, [window.len() as u64]) },
        None => Answer::refused(11),
    }
}

/// The starts of a case's steps and rules, by the end and the popped keys to which they lead.
pub type Starts = HashMap<(Vec<u8>, Vec<u8>), Vec<u8>>;

/// Tries all of these starts; none where two lead to the same end with the same keys popped.
pub fn tried(case: &Case, starts: &[Vec<u8>]) -> Option<Starts> {
    let mut led = Starts::new();
    let accepted = |start: &&Vec<u8>| start.len() <= case.limits.max_len && items(case, start.len()) <= 1_024;
    for start in starts.iter().filter(accepted) {
        let Ok(Run { window, popped, .. }) = run(case, start, &case.steps) else {
            continue;
        };
        if led.insert((window, popped), start.clone()).is_some() {
            return None;
        }
    }
    Some(led)
}
