//! Random questions, tables and windows.

use crate::case::{Case, DUP, KEY, Limits, PAIRS, POP, STACK_LEN, SWAP, Tables};
use std::sync::Arc;

/// A small random number generator (splitmix64).
#[derive(Clone, Debug)]
pub struct Random(u64);

impl Random {
    /// The stream of a seed; item `index` of a run has its own, so that runs can be split.
    pub fn new(seed: u64, index: u64) -> Self {
        let mut random = Self(seed.wrapping_mul(0x9e37_79b9_7f4a_7c15) ^ index.wrapping_mul(0xd1b5_4a32_d192_ed03));
        random.next();
        random
    }

    pub fn next(&mut self) -> u64 {
        self.0 = self.0.wrapping_add(0x9e37_79b9_7f4a_7c15);
        let mut z = self.0;
        z = (z ^ (z >> 30)).wrapping_mul(0xbf58_476d_1ce4_e5b9);
        z = (z ^ (z >> 27)).wrapping_mul(0x94d0_49bb_1331_11eb);
        z ^ (z >> 31)
    }

    /// A number below `end`.
    pub fn below(&mut self, end: usize) -> usize {
        (self.next() % end as u64) as usize
    }

    /// True once in `n` times.
    pub fn once_in(&mut self, n: usize) -> bool {
        self.below(n) == 0
    }

    pub fn pick<T: Copy>(&mut self, from: &[T]) -> T {
        from[self.below(from.len())]
    }
}

/// How many styles of price list [`tables`] draws from.
const PRICE_STYLES: usize = 14;

/// Accepted tables: every style of price list, zero prices among them, and kinds with at most one zero.
pub fn tables(random: &mut Random) -> Tables {
    let mut tables = Tables::desk();
    let style = random.below(PRICE_STYLES);
    draw_prices(&mut tables, style, random);
    match random.below(4) {
        0 => {}
        1 => tables.kinds = vec![0; 64],
        2 => tables.kinds = (0..64).map(|_| random.below(2) as u8).collect(),
        _ => {
            tables.kinds = (0..64).map(|_| random.below(2) as u8).collect();
            let zero = if random.once_in(2) { random.below(8) } else { random.below(64) };
            tables.kinds[zero] = 2;
        }
    }
    tables
}

fn draw_prices(tables: &mut Tables, style: usize, random: &mut Random) {
    let desk = std::mem::take(&mut tables.prices);
    let at = |pair: usize| (desk[2 * pair], desk[2 * pair + 1]);
    let is_swap = |pair| (SWAP..KEY).contains(&pair);
    let is_dup = |pair| (DUP..SWAP).contains(&pair);
    match style {
        0 => tables.price(at),
        1 => tables.price(|_| (0, 0)),
        2 => tables.price(|_| (0, random.below(4) as u32)),
        3 => tables.price(|_| (random.below(4) as u32, random.below(4) as u32)),
        4 => tables.price(|_| (random.below(30_001) as u32, random.below(30_001) as u32)),
        5 => tables.price(|_| (30_000, 30_000)),
        6 => tables.price(|pair| if is_swap(pair) { (0, 0) } else { at(pair) }),
        7 => tables.price(|pair| if is_dup(pair) { (0, 0) } else { at(pair) }),
        8 => tables.price(|pair| if is_swap(pair) { (20, 1) } else { at(pair) }),
        9 => tables.price(|pair| if pair >= KEY { (0, 1) } else { at(pair) }),
        10 => tables.price(|pair| if pair == POP { (0, 0) } else { at(pair) }),
        11 => {
            let classes: [(u32, u32); 4] =
                std::array::from_fn(|_| (random.pick(&[0, 1, 2, 3, 5, 9, 30_000]), random.pick(&[0, 1, 2, 30_000])));
            tables.price(|pair| match pair {
                POP => classes[0],
                pair if pair < SWAP => classes[1],
                pair if pair < KEY => classes[2],
                _ => classes[3],
            });
        }
        12 => tables.price(|_| (1 + random.below(10) as u32, random.below(3) as u32)),
        // Pop, one Dup and one Swap cheap: long plans.
        _ => {
            let (dup, swap) = (DUP + random.below(5), SWAP + 1 + random.below(9));
            let cheap = random.pick(&[(0, 0), (0, 1), (1, 0)]);
            let key = random.pick(&[10, 30_000]);
            tables.price(|pair| match pair {
                pair if [POP, dup, swap].contains(&pair) => cheap,
                pair if pair >= KEY => (key, 0),
                _ => (30_000, 0),
            });
        }
    }
    debug_assert_eq!(tables.prices.len(), 2 * PAIRS);
}

/// Keys to draw windows from: few, so that windows share them.
fn alphabet(random: &mut Random) -> Vec<u8> {
    let size = if random.once_in(8) { 18 } else { 1 + random.below(8) };
    let low = random.once_in(2);
    (0..size)
        .map(|_| if low { random.pick(&[0, 1, 2, 3, 4, 5, 31, 32, 33, 34]) } else { random.below(64) as u8 })
        .collect()
}

/// A window of at most `most` keys.
fn window(random: &mut Random, keys: &[u8], most: usize) -> Vec<u8> {
    let length = if random.once_in(4) { most } else { random.below(most + 1) };
    (0..length).map(|_| random.pick(keys)).collect()
}

/// A start and a goal of at most `most` keys each, often alike.
pub fn windows(random: &mut Random, most: usize) -> (Vec<u8>, Vec<u8>) {
    let keys = alphabet(random);
    let start = window(random, &keys, most);
    let mut goal = start.clone();
    match random.below(6) {
        0 | 1 => goal = window(random, &keys, most),
        2 => shuffle(random, &mut goal),
        3 => goal.truncate(random.below(start.len() + 1)),
        4 => {
            for _ in 0..1 + random.below(4) {
                edit(random, &keys, most, &mut goal);
            }
        }
        _ => {
            for _ in 0..1 + random.below(4) {
                edit(random, &keys, most, &mut goal);
            }
            let kept = random.below(goal.len() + 1);
            shuffle(random, &mut goal[..kept]);
        }
    }
    (start, goal)
}

pub fn shuffle(random: &mut Random, window: &mut [u8]) {
    for i in (1..window.len()).rev() {
        window.swap(i, random.below(i + 1));
    }
}

fn edit(random: &mut Random, keys: &[u8], most: usize, window: &mut Vec<u8>) {
    let n = window.len();
    match random.below(4) {
        0 if n > 0 => {
            window.remove(random.below(n));
        }
        1 if n < most => window.insert(random.below(n + 1), random.pick(keys)),
        2 if n > 0 => {
            let at = random.below(n);
            window[at] = random.pick(keys);
        }
        3 if n > 1 => window.swap(random.below(n), random.below(n)),
        _ => {}
    }
}

/// Reaches, allowances to the greatest among them; nothing beneath.
pub fn limits(random: &mut Random) -> Limits {
    let wide = random.once_in(2);
    let reach = |random: &mut Random, most: usize| match random.below(4) {
        0 => most,
        1 => 1 + random.below(4),
        _ => random.below(most + 1),
    };
    let (dup_max, swap_max, max_len) = if wide {
        (if random.once_in(8) { 0 } else { 16 }, 17, 21)
    } else {
        (reach(random, 16), reach(random, 17), reach(random, 21))
    };
    let most = match random.below(100) {
        0 | 1 => 65_536,
        n if n < 30 => 3_000,
        _ => 300,
    };
    let allowance = |random: &mut Random| match random.below(8) {
        0 => random.below(4),
        1 | 2 => most,
        _ => random.below(most + 1),
    };
    // An expansion stores many states: half of the questions have few expansions for their states.
    let share = if random.once_in(2) { 16 } else { 1 };
    let max_expansions = allowance(random).div_ceil(share);
    let states_without = allowance(random);
    let states_with = if random.once_in(4) { states_without } else { allowance(random) };
    Limits { dup_max, swap_max, max_len, beneath: 0, max_expansions, states_without, states_with }
}

/// The same with items beneath that leave an empty window room on the stack: most often none, else mostly so many that
/// the window is narrower.
pub fn deep_limits(random: &mut Random) -> Limits {
    let limits = limits(random);
    let beneath = match random.below(24) {
        0..16 => 0,
        16 => random.below(STACK_LEN + 1),
        17 => STACK_LEN,
        // Room for a key more than `max_len`, for as many, for one less.
        18 | 19 => STACK_LEN - (limits.max_len + 1).saturating_sub(random.below(3)),
        _ => 1_000 + random.below(25),
    };
    Limits { beneath, ..limits }
}

/// Items beneath that a call may refuse as 12: around the greatest count for a window of this length, around 1,024, and
/// counts of which a sum or a difference, in 64 bits or fewer, would wrap.
pub fn any_beneath(random: &mut Random, length: usize) -> usize {
    match random.below(4) {
        0 => (STACK_LEN + 2).saturating_sub(length + random.below(4)),
        1 => 1_000 + random.below(27),
        2 => usize::MAX - random.below(length + 3),
        _ => {
            let wide = random.pick(&[1 << 16, 1 << 31, 1 << 32, 1 << 63, usize::MAX - STACK_LEN]);
            wide + random.pick(&[0, 1, 1_000, STACK_LEN])
        }
    }
}

/// An accepted question with nothing beneath and the least lists.
pub fn question(random: &mut Random, tables: &Arc<Tables>) -> Case {
    let limits = limits(random);
    question_within(random, limits, tables)
}

/// An accepted question, some with items beneath, with the least lists.
pub fn deep_question(random: &mut Random, tables: &Arc<Tables>) -> Case {
    let limits = deep_limits(random);
    question_within(random, limits, tables)
}

fn question_within(random: &mut Random, limits: Limits, tables: &Arc<Tables>) -> Case {
    let most = limits.swap_max.min(limits.window());
    let (mut start, mut goal) = windows(random, most);
    // Few questions whose start is their goal.
    for _ in 0..3 {
        if start == goal {
            (start, goal) = windows(random, most);
        }
    }
    Case::plan(limits, &start, &goal, tables)
}

/// So many steps that mostly fit the window, one in some dozens at random. Now and then those of a case with items
/// beneath fit `max_len` alone.
pub fn steps(random: &mut Random, case: &Case, count: usize) -> Vec<u16> {
    let Case { start, limits, tables, .. } = case;
    let mut length = start.len();
    let wide = limits.beneath != 0 && random.once_in(3);
    let most = if wide { limits.max_len } else { limits.window() };
    let fault = random.pick(&[20, 60, 1_000_000]);
    (0..count)
        .map(|_| {
            if random.once_in(fault) {
                return code(random);
            }
            let room = length < most;
            let dup = length.min(limits.dup_max);
            let swap = length.min(limits.swap_max);
            match random.below(4) {
                0 if length > 0 => {
                    length -= 1;
                    0
                }
                1 if room && dup > 0 => {
                    length += 1;
                    256 + random.below(dup) as u16
                }
                2 if swap > 1 => 512 + 1 + random.below(swap - 1) as u16,
                _ if room => {
                    length += 1;
                    let key = random.below(64);
                    (if tables.kinds[key] == 0 { 1024 } else { 768 }) + key as u16
                }
                _ => {
                    length = length.saturating_sub(1);
                    0
                }
            }
        })
        .collect()
}

/// A step code of any kind, many of them of no step.
pub fn code(random: &mut Random) -> u16 {
    random.pick(&[0, 256, 512, 768, 1024, 1280]) + random.below(80) as u16
}

/// Places for the popped keys of so many steps: as many, more, one too few, or any number below.
pub fn popped_room(random: &mut Random, steps: usize) -> usize {
    match random.below(24) {
        0 => steps.saturating_sub(1),
        1 => random.below(steps.max(1)),
        2..10 => steps + 1 + random.below(5),
        _ => steps,
    }
}

/// Spoils one thing of a case; the lists lent stay.
pub fn spoil(random: &mut Random, case: &mut Case) {
    let limits = &mut case.limits;
    let far = |random: &mut Random| random.pick(&[0, 1, 200, usize::MAX - 70_000]);
    let tables = Arc::make_mut(&mut case.tables);
    match random.below(14) {
        0 => limits.dup_max = 17 + far(random),
        1 => limits.swap_max = 18 + far(random),
        2 => limits.max_len = 22 + far(random),
        3 => limits.max_expansions = 65_537 + far(random),
        4 => limits.states_without = 65_537 + far(random),
        5 => limits.states_with = 65_537 + far(random),
        6 => tables.kinds.resize(random.pick(&[0, 1, 63, 65, 128]), 0),
        7 => set(random, &mut tables.kinds, &[3, 4, 255]),
        8 => {
            set(random, &mut tables.kinds, &[2]);
            set(random, &mut tables.kinds, &[2]);
        }
        9 => tables.prices.resize(random.pick(&[0, 98, 195, 197, 400]), 0),
        10 => set(random, &mut tables.prices, &[30_001, u32::MAX]),
        11 => set(random, &mut case.start, &[64, 65, 255]),
        12 => set(random, &mut case.goal, &[64, 65, 255]),
        _ => {
            let window = if random.once_in(2) { &mut case.start } else { &mut case.goal };
            let most = limits.swap_max.min(limits.window()).min(21);
            window.resize(most + 1 + random.below(6), random.pick(&[0, 1, 32, 63]));
        }
    }
}

pub fn set<T: Copy>(random: &mut Random, list: &mut [T], values: &[T]) {
    if !list.is_empty() {
        list[random.below(list.len())] = random.pick(values);
    }
}
