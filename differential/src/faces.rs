//! The port's faces: each takes a case and lists, and gives the answer's refusal and fields.

use crate::{
    case::{Answer, Call, Case, Limits},
    port::Lists,
};
use nimskerf::{
    raw,
    sys::{self, NimskerfAnswer, NimskerfBuilt, NimskerfMarked, NimskerfPacked, NimskerfReplayed, NimskerfRewound},
};
use std::ptr;

/// Functions by which the port is asked.
pub struct Face {
    pub name: &'static str,
    pub call: fn(&Case, Lists<'_>) -> Answer,
    /// How many keys an accepted replay of these steps pops.
    pub pops: fn(&[u16]) -> usize,
}

/// Every question goes through each of these, in this order.
pub const FACES: [Face; 2] = [
    Face { name: "proved", call: proved, pops: raw::pops },
    Face { name: "checked", call: checked, pops: checked_pops },
];

/// The proved functions, on slices.
fn proved(case: &Case, lists: Lists<'_>) -> Answer {
    let Case { start, goal, steps, popped, limits, tables, ceiling, .. } = case;
    let Limits { dup_max, swap_max, max_len, beneath, .. } = *limits;
    let (kinds, prices) = (&tables.kinds, &tables.prices);
    match case.call {
        Call::Plan => {
            let lent = raw::Lists { steps: lists.steps, nodes: lists.nodes, heads: lists.heads, open: lists.open };
            planned(raw::plan(start, goal, &raw_limits(limits), kinds, prices, lent))
        }
        Call::Replay => {
            replayed(raw::replay(start, steps, dup_max, swap_max, max_len, beneath, kinds, lists.result, lists.popped))
        }
        Call::Rewind => {
            rewound(raw::rewind(start, steps, popped, dup_max, swap_max, max_len, beneath, kinds, lists.result))
        }
        Call::Mark => {
            let [gas, bytes] = *ceiling;
            marked(raw::mark(start, goal, steps, dup_max, swap_max, max_len, beneath, kinds, prices, gas, bytes))
        }
        Call::Pack => packed(raw::pack(start)),
        Call::StarSwap => built(raw::star_swap(start, goal, swap_max, lists.steps)),
        Call::DeleteTail => built(raw::delete_tail(start, goal, swap_max, lists.steps)),
    }
}

/// The limits as the crate `nimskerf` has them.
pub fn raw_limits(limits: &Limits) -> raw::Limits {
    let Limits { dup_max, swap_max, max_len, beneath, max_expansions, states_without, states_with } = *limits;
    raw::Limits { dup_max, swap_max, max_len, beneath, max_expansions, states_without, states_with }
}

/// The functions of nimskerf.h, which check their pointers. An empty list is NULL.
fn checked(case: &Case, lists: Lists<'_>) -> Answer {
    let question = question(case);
    let (steps, result, popped) = (pointer_mut(lists.steps), pointer_mut(lists.result), pointer_mut(lists.popped));
    let (asked, asked_len, result_len) = (pointer(&case.steps), case.steps.len(), lists.result.len());
    // SAFETY: every pointer comes from a slice with its own length, or is null with length 0; the lists that are
    // written are `&mut`, so they overlap nothing.
    unsafe {
        match case.call {
            Call::Plan => {
                let lent = planner_lists(lists);
                planned(sys::nimskerf_plan(&question, &lent))
            }
            Call::Replay => {
                let room = lists.popped.len();
                replayed(sys::nimskerf_replay(&question, asked, asked_len, result, result_len, popped, room))
            }
            Call::Rewind => {
                let (end, end_len) = (pointer(&case.start), case.start.len());
                let (given, given_len) = (pointer(&case.popped), case.popped.len());
                rewound(sys::nimskerf_rewind(
                    &question, end, end_len, asked, asked_len, given, given_len, result, result_len,
                ))
            }
            Call::Mark => {
                let [gas, bytes] = case.ceiling;
                let ceiling = sys::NimskerfCost { gas, bytes };
                marked(sys::nimskerf_mark(&question, asked, asked_len, ceiling))
            }
            Call::Pack => packed(sys::nimskerf_pack(pointer(&case.start), case.start.len())),
            Call::StarSwap => built(sys::nimskerf_star_swap(&question, steps, lists.steps.len())),
            Call::DeleteTail => built(sys::nimskerf_delete_tail(&question, steps, lists.steps.len())),
        }
    }
}

/// The lists of a planning for the checked functions.
fn planner_lists(lists: Lists<'_>) -> sys::NimskerfLists {
    sys::NimskerfLists {
        steps: pointer_mut(lists.steps),
        steps_len: lists.steps.len(),
        nodes: pointer_mut(lists.nodes),
        nodes_len: lists.nodes.len(),
        heads: pointer_mut(lists.heads),
        heads_len: lists.heads.len(),
        open: pointer_mut(lists.open),
        open_len: lists.open.len(),
    }
}

fn checked_pops(steps: &[u16]) -> usize {
    // SAFETY: the pointer comes from a slice with its own length, or is null with length 0.
    unsafe { sys::nimskerf_pops(pointer(steps), steps.len()) }
}

/// A start that every call refuses which looks at it.
const NO_START: [u8; 22] = [255; 22];

/// A case's question for the checked functions. A stepping back does not take its start, and the builders pass over
/// the items beneath.
fn question(case: &Case) -> sys::NimskerfQuestion {
    let Case { goal, limits, tables, .. } = case;
    let start = if case.call == Call::Rewind { &NO_START[..] } else { &case.start };
    sys::NimskerfQuestion {
        start: pointer(start),
        start_len: start.len(),
        goal: pointer(goal),
        goal_len: goal.len(),
        dup_max: limits.dup_max,
        swap_max: limits.swap_max,
        max_len: limits.max_len,
        max_expansions: limits.max_expansions,
        states_without: limits.states_without,
        states_with: limits.states_with,
        kinds: pointer(&tables.kinds),
        kinds_len: tables.kinds.len(),
        prices: pointer(&tables.prices),
        prices_len: tables.prices.len(),
        beneath: limits.beneath,
    }
}

fn pointer<T>(list: &[T]) -> *const T {
    if list.is_empty() { ptr::null() } else { list.as_ptr() }
}

fn pointer_mut<T>(list: &mut [T]) -> *mut T {
    if list.is_empty() { ptr::null_mut() } else { list.as_mut_ptr() }
}

fn planned(answer: NimskerfAnswer) -> Answer {
    Answer::of(
        answer.refusal,
        [
            answer.found.into(),
            answer.step_count as u64,
            answer.plan_gas.into(),
            answer.plan_bytes.into(),
            answer.ceiling_gas.into(),
            answer.ceiling_bytes.into(),
            answer.origin.into(),
            answer.ending.into(),
            answer.expansions as u64,
            answer.highest as u64,
        ],
    )
}

fn replayed(answer: NimskerfReplayed) -> Answer {
    Answer::of(answer.refusal, [answer.index as u64, answer.length as u64, answer.highest as u64])
}

fn rewound(answer: NimskerfRewound) -> Answer {
    Answer::of(answer.refusal, [answer.length as u64])
}

fn marked(answer: NimskerfMarked) -> Answer {
    Answer::of(answer.refusal, [answer.index as u64, answer.mark.into(), answer.highest as u64])
}

/// A packed window as four numbers of 32 bits, the lowest first.
fn packed(answer: NimskerfPacked) -> Answer {
    let (lo, hi) = (answer.lo, answer.hi);
    Answer::of(answer.refusal, [lo & 0xffff_ffff, lo >> 32, hi & 0xffff_ffff, hi >> 32])
}

fn built(answer: NimskerfBuilt) -> Answer {
    Answer::of(answer.refusal, [answer.count as u64])
}
