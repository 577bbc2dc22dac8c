//! Refusals, replay with its popped keys, marking and the highest window, written from document 01 and the change
//! requests, apart from the port and the reference. Stepping back past its lower refusals is in `rewinding`.

use crate::case::{Answer, Call, Case, DUP, KEY, POP, SWAP};

/// The numbers below 8 in the order in which they are tested.
const ORDER: [u32; 8] = [1, 2, 3, 4, 5, 12, 6, 7];

/// The first number, in the order of the tests, whose condition holds; 0 if none does.
fn first(conditions: &[(u32, bool)]) -> u32 {
    debug_assert!(conditions.is_sorted_by_key(|(number, _)| ORDER.iter().position(|other| other == number)));
    conditions.iter().find(|&&(_, applies)| applies).map_or(0, |&(number, _)| number)
}

fn bad_reach(case: &Case) -> bool {
    case.limits.dup_max > 16 || case.limits.swap_max > 17
}

fn bad_kinds(case: &Case) -> bool {
    let kinds = &case.tables.kinds;
    let zeros = kinds.iter().filter(|&&kind| kind == 2).count();
    kinds.len() != 64 || kinds.iter().any(|&kind| kind > 2) || zeros > 1
}

fn bad_prices(case: &Case) -> bool {
    let prices = &case.tables.prices;
    prices.len() != 196 || prices.iter().any(|&price| price > 30_000)
}

fn bad_key(window: &[u8]) -> bool {
    window.iter().any(|&key| key >= 64)
}

/// Whether the items beneath and the start, of a stepping back the end, are over 1,024: a sum that never wraps.
fn too_tall(case: &Case) -> bool {
    items(case, case.start.len()) > 1_024
}

/// The items of a stack whose window is so long.
pub fn items(case: &Case, length: usize) -> u128 {
    case.limits.beneath as u128 + length as u128
}

/// The number that refuses a call, 0 if none does; all but 8 and 11.
pub fn refusal(case: &Case) -> u32 {
    match case.call {
        Call::Plan => plan_refusal(case),
        Call::Replay => first(&[
            (1, bad_reach(case)),
            (2, case.limits.max_len > 21),
            (3, case.steps.len() > 65_536),
            (4, bad_kinds(case)),
            (5, bad_key(&case.start)),
            (12, too_tall(case)),
            (6, case.start.len() > case.limits.max_len),
            (7, case.lent.steps < 21 || case.lent.popped < case.steps.len()),
        ]),
        Call::Rewind => first(&[
            (1, bad_reach(case)),
            (2, case.limits.max_len > 21),
            (3, case.steps.len() > 65_536),
            (4, bad_kinds(case)),
            (5, bad_key(&case.start) || bad_key(&case.popped)),
            (12, too_tall(case)),
            (6, case.start.len() > case.limits.max_len),
            (7, case.lent.steps < 21),
        ]),
        Call::Mark => first(&[
            (1, bad_reach(case)),
            (2, case.limits.max_len > 21),
            (3, case.steps.len() > 65_536),
            (4, bad_kinds(case) || bad_prices(case)),
            (5, bad_key(&case.start) || bad_key(&case.goal)),
            (12, too_tall(case)),
            (6, case.start.len().max(case.goal.len()) > case.limits.max_len),
        ]),
        Call::Pack => first(&[(5, bad_key(&case.start)), (6, case.start.len() > 21)]),
        Call::StarSwap => builder_refusal(case, (9, unroutable)),
        Call::DeleteTail => builder_refusal(case, (10, not_a_tail)),
    }
}

fn plan_refusal(case: &Case) -> u32 {
    let (limits, lent) = (&case.limits, &case.lent);
    let allowances = [limits.max_expansions, limits.states_without, limits.states_with];
    let longest = case.start.len().max(case.goal.len());
    let entries = [lent.nodes / 8, lent.heads, lent.open / 4];
    first(&[
        (1, bad_reach(case)),
        (2, limits.max_len > 21),
        (3, allowances.iter().any(|&allowance| allowance > 65_536)),
        (4, bad_kinds(case) || bad_prices(case)),
        (5, bad_key(&case.start) || bad_key(&case.goal)),
        (12, too_tall(case)),
        (6, longest > limits.swap_max || longest > limits.max_len || items(case, longest) > 1_024),
        (7, entries.iter().any(|&entries| entries < case.states().saturating_add(50))),
        (7, lent.steps < 128 || lent.steps < limits.max_expansions),
    ])
}

/// A builder's refusal: `none` is its own number and when it is given.
fn builder_refusal(case: &Case, none: (u32, fn(&Case) -> bool)) -> u32 {
    let before = first(&[
        (1, case.limits.swap_max > 17),
        (5, bad_key(&case.start) || bad_key(&case.goal)),
        (6, case.start.len() > 21 || case.goal.len() > 21),
        (7, case.lent.steps < 128),
    ]);
    if before == 0 && none.1(case) { none.0 } else { before }
}

/// Whether star-swap is refused with 9, past the lower numbers.
fn unroutable(case: &Case) -> bool {
    let (start, goal) = (&case.start, &case.goal);
    let count = |window: &[u8], key| window.iter().filter(|&&other| other == key).count();
    start.len() != goal.len()
        || start.iter().any(|&key| count(start, key) != count(goal, key))
        || (0..start.len()).any(|at| start[at] != goal[at] && at >= case.limits.swap_max)
}

/// Whether delete-tail is refused with 10, past the lower numbers.
fn not_a_tail(case: &Case) -> bool {
    let (start, goal) = (&case.start, &case.goal);
    goal.len() >= start.len() || !start.starts_with(goal) || start.len() > case.limits.swap_max
}

/// The window after a step, none where the step is not allowed. Items may be more than keys: a step moves them, or
/// makes one of its key. A window grows while it is shorter than `max_len` and the stack has fewer than 1,024 items.
pub fn after<T: Copy + From<u8>>(case: &Case, window: &[T], code: u16) -> Option<Vec<T>> {
    let (kind, operand) = (code / 256, usize::from(code % 256));
    let length = window.len();
    let room = length < case.limits.max_len && items(case, length) < 1_024;
    let grown = |item: T| room.then(|| std::iter::once(item).chain(window.iter().copied()).collect::<Vec<T>>());
    match kind {
        0 => (operand == 0 && length > 0).then(|| window[1..].to_vec()),
        1 => (operand < case.limits.dup_max && operand < length).then(|| grown(window[operand])).flatten(),
        2 => (1..case.limits.swap_max.min(length)).contains(&operand).then(|| {
            let mut next = window.to_vec();
            next.swap(0, operand);
            next
        }),
        3 | 4 => {
            let of_kind = operand < 64 && (case.tables.kinds[operand] == 0) == (kind == 4);
            of_kind.then(|| grown((operand as u8).into())).flatten()
        }
        _ => None,
    }
}

/// What steps do from a start.
pub struct Run<T> {
    pub window: Vec<T>,
    /// The items that Pops dropped, in order.
    pub popped: Vec<T>,
    /// The greatest length of the windows passed, the start and the end among them.
    pub highest: u64,
}

/// Follows the steps, or gives the index of the first that is not allowed.
pub fn run<T: Copy + From<u8>>(case: &Case, start: &[T], steps: &[u16]) -> Result<Run<T>, usize> {
    let (mut window, mut popped) = (start.to_vec(), Vec::new());
    let mut highest = window.len();
    for (index, &code) in steps.iter().enumerate() {
        let next = after(case, &window, code).ok_or(index)?;
        if code == 0 {
            popped.push(window[0]);
        }
        highest = highest.max(next.len());
        window = next;
    }
    Ok(Run { window, popped, highest: highest as u64 })
}

/// The highest window on a plan's way from the start to the goal, none where the plan does not lead there.
pub fn highest(case: &Case, plan: &[u16]) -> Option<u64> {
    run(case, &case.start, plan).ok().filter(|run| run.window == case.goal).map(|run| run.highest)
}

/// Replay's answer, the end window and the popped keys, past the numbers below 8.
pub fn replay(case: &Case) -> Answer {
    match run(case, &case.start, &case.steps) {
        Ok(Run { window, popped, highest }) => {
            let fields = [0, window.len() as u64, highest];
            Answer { window, popped, ..Answer::of(0, fields) }
        }
        Err(index) => Answer::of(8, [index as u64]),
    }
}

/// The sum of the listed prices of allowed steps; each part stops at the greatest u32.
pub fn cost(steps: &[u16], prices: &[u32]) -> (u32, u32) {
    steps.iter().fold((0u32, 0u32), |(gas, bytes), &code| {
        let operand = usize::from(code % 256);
        let pair = [POP, DUP + operand, SWAP + operand, KEY + operand, KEY + operand][usize::from(code / 256)];
        (gas.saturating_add(prices[2 * pair]), bytes.saturating_add(prices[2 * pair + 1]))
    })
}

/// Marking's answer, past the numbers below 8.
pub fn mark(case: &Case) -> Answer {
    let [gas, bytes] = case.ceiling;
    let run = match run(case, &case.start, &case.steps) {
        Ok(run) => run,
        Err(index) => return Answer::of(8, [index as u64]),
    };
    let mark = if run.window != case.goal {
        1
    } else if cost(&case.steps, &case.tables.prices) > (gas, bytes) {
        2
    } else {
        0
    };
    Answer::of(0, [0, mark, run.highest])
}
