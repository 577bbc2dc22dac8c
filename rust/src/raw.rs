//! The proved functions on slices and numbers. Safe: a Rust slice is never null, and `&mut` slices overlap nothing.

use crate::sys::{
    self, NimskerfAnswer, NimskerfBuilt, NimskerfMarked, NimskerfPacked, NimskerfReplayed, NimskerfRewound,
};

/// The numbers of a question, unchecked.
#[derive(Clone, Copy, Debug, Default, PartialEq, Eq)]
pub struct Limits {
    pub dup_max: usize,
    pub swap_max: usize,
    pub max_len: usize,
    pub beneath: usize,
    pub max_expansions: usize,
    pub states_without: usize,
    pub states_with: usize,
}

/// The lists lent to a planning: steps, and work lists of 8 (nodes), 1 (heads) and 4 (open) numbers to an entry.
#[derive(Debug)]
pub struct Lists<'a> {
    pub steps: &'a mut [u16],
    pub nodes: &'a mut [u64],
    pub heads: &'a mut [u64],
    pub open: &'a mut [u64],
}

#[inline]
pub fn plan(
    start: &[u8],
    goal: &[u8],
    limits: &Limits,
    kinds: &[u8],
    prices: &[u32],
    lists: Lists<'_>,
) -> NimskerfAnswer {
    // SAFETY: every pointer comes from a slice with its own length; the four `&mut` slices overlap nothing.
    unsafe {
        sys::nimskerf_proved_plan(
            start.as_ptr(),
            start.len(),
            goal.as_ptr(),
            goal.len(),
            limits.dup_max,
            limits.swap_max,
            limits.max_len,
            limits.beneath,
            limits.max_expansions,
            limits.states_without,
            limits.states_with,
            kinds.as_ptr(),
            kinds.len(),
            prices.as_ptr(),
            prices.len(),
            lists.steps.as_mut_ptr(),
            lists.steps.len(),
            lists.nodes.as_mut_ptr(),
            lists.nodes.len(),
            lists.heads.as_mut_ptr(),
            lists.heads.len(),
            lists.open.as_mut_ptr(),
            lists.open.len(),
        )
    }
}

/// `popped` is at least as long as `steps`; its first [`pops`] entries are written.
#[allow(clippy::too_many_arguments)]
pub fn replay(
    start: &[u8],
    steps: &[u16],
    dup_max: usize,
    swap_max: usize,
    max_len: usize,
    beneath: usize,
    kinds: &[u8],
    result: &mut [u8],
    popped: &mut [u8],
) -> NimskerfReplayed {
    // SAFETY: every pointer comes from a slice with its own length; `result` and `popped` overlap nothing.
    unsafe {
        sys::nimskerf_proved_replay(
            start.as_ptr(),
            start.len(),
            steps.as_ptr(),
            steps.len(),
            dup_max,
            swap_max,
            max_len,
            beneath,
            kinds.as_ptr(),
            kinds.len(),
            result.as_mut_ptr(),
            result.len(),
            popped.as_mut_ptr(),
            popped.len(),
        )
    }
}

/// How many keys a replay of these steps pops.
pub fn pops(steps: &[u16]) -> usize {
    // SAFETY: the pointer comes from a slice with its own length; nothing is written.
    unsafe { sys::nimskerf_proved_pops(steps.as_ptr(), steps.len()) }
}

#[allow(clippy::too_many_arguments)]
pub fn rewind(
    end: &[u8],
    steps: &[u16],
    popped: &[u8],
    dup_max: usize,
    swap_max: usize,
    max_len: usize,
    beneath: usize,
    kinds: &[u8],
    result: &mut [u8],
) -> NimskerfRewound {
    // SAFETY: every pointer comes from a slice with its own length; `result` overlaps nothing.
    unsafe {
        sys::nimskerf_proved_rewind(
            end.as_ptr(),
            end.len(),
            steps.as_ptr(),
            steps.len(),
            popped.as_ptr(),
            popped.len(),
            dup_max,
            swap_max,
            max_len,
            beneath,
            kinds.as_ptr(),
            kinds.len(),
            result.as_mut_ptr(),
            result.len(),
        )
    }
}

#[allow(clippy::too_many_arguments)]
pub fn mark(
    start: &[u8],
    goal: &[u8],
    steps: &[u16],
    dup_max: usize,
    swap_max: usize,
    max_len: usize,
    beneath: usize,
    kinds: &[u8],
    prices: &[u32],
    ceiling_gas: u32,
    ceiling_bytes: u32,
) -> NimskerfMarked {
    // SAFETY: every pointer comes from a slice with its own length; nothing is written.
    unsafe {
        sys::nimskerf_proved_mark(
            start.as_ptr(),
            start.len(),
            goal.as_ptr(),
            goal.len(),
            steps.as_ptr(),
            steps.len(),
            dup_max,
            swap_max,
            max_len,
            beneath,
            kinds.as_ptr(),
            kinds.len(),
            prices.as_ptr(),
            prices.len(),
            ceiling_gas,
            ceiling_bytes,
        )
    }
}

pub fn pack(ids: &[u8]) -> NimskerfPacked {
    // SAFETY: the pointer comes from a slice with its own length; nothing is written.
    unsafe { sys::nimskerf_proved_pack(ids.as_ptr(), ids.len()) }
}

pub fn star_swap(start: &[u8], goal: &[u8], swap_max: usize, steps: &mut [u16]) -> NimskerfBuilt {
    // SAFETY: every pointer comes from a slice with its own length; `steps` overlaps nothing.
    unsafe {
        sys::nimskerf_proved_star_swap(
            start.as_ptr(),
            start.len(),
            goal.as_ptr(),
            goal.len(),
            swap_max,
            steps.as_mut_ptr(),
            steps.len(),
        )
    }
}

pub fn delete_tail(start: &[u8], goal: &[u8], swap_max: usize, steps: &mut [u16]) -> NimskerfBuilt {
    // SAFETY: every pointer comes from a slice with its own length; `steps` overlaps nothing.
    unsafe {
        sys::nimskerf_proved_delete_tail(
            start.as_ptr(),
            start.len(),
            goal.as_ptr(),
            goal.len(),
            swap_max,
            steps.as_mut_ptr(),
            steps.len(),
        )
    }
}
