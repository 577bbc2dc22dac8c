//! The C functions of libnimskerf.a, as include/nimskerf.h and include/nimskerf_proved.h declare them.
//!
//! `nimskerf_...` check their pointers; `nimskerf_proved_...` are the proved functions under them, for pointers that are
//! not null and lists of which those written overlap no other.

use std::ffi::c_char;

/// Gas and bytes.
#[repr(C)]
#[derive(Clone, Copy, Debug, Default, PartialEq, Eq)]
pub struct NimskerfCost {
    pub gas: u32,
    pub bytes: u32,
}

/// A question.
#[repr(C)]
#[derive(Clone, Copy, Debug)]
pub struct NimskerfQuestion {
    pub start: *const u8,
    pub start_len: usize,
    pub goal: *const u8,
    pub goal_len: usize,
    pub dup_max: usize,
    pub swap_max: usize,
    pub max_len: usize,
    pub max_expansions: usize,
    pub states_without: usize,
    pub states_with: usize,
    pub kinds: *const u8,
    pub kinds_len: usize,
    pub prices: *const u32,
    pub prices_len: usize,
    pub beneath: usize,
}

/// The lists lent to a planning.
#[repr(C)]
#[derive(Clone, Copy, Debug)]
pub struct NimskerfLists {
    pub steps: *mut u16,
    pub steps_len: usize,
    pub nodes: *mut u64,
    pub nodes_len: usize,
    pub heads: *mut u64,
    pub heads_len: usize,
    pub open: *mut u64,
    pub open_len: usize,
}

/// The planner's answer.
#[repr(C)]
#[derive(Clone, Copy, Debug, Default, PartialEq, Eq)]
pub struct NimskerfAnswer {
    pub refusal: u32,
    pub found: u32,
    pub step_count: usize,
    pub plan_gas: u32,
    pub plan_bytes: u32,
    pub ceiling_gas: u32,
    pub ceiling_bytes: u32,
    pub origin: u32,
    pub ending: u32,
    pub expansions: usize,
    pub highest: usize,
}

/// Replay's answer.
#[repr(C)]
#[derive(Clone, Copy, Debug, Default, PartialEq, Eq)]
pub struct NimskerfReplayed {
    pub refusal: u32,
    pub index: usize,
    pub length: usize,
    pub highest: usize,
}

/// Stepping back's answer.
#[repr(C)]
#[derive(Clone, Copy, Debug, Default, PartialEq, Eq)]
pub struct NimskerfRewound {
    pub refusal: u32,
    pub length: usize,
}

/// Marking's answer.
#[repr(C)]
#[derive(Clone, Copy, Debug, Default, PartialEq, Eq)]
pub struct NimskerfMarked {
    pub refusal: u32,
    pub index: usize,
    pub mark: u32,
    pub highest: usize,
}

/// Packing's answer.
#[repr(C)]
#[derive(Clone, Copy, Debug, Default, PartialEq, Eq)]
pub struct NimskerfPacked {
    pub refusal: u32,
    pub lo: u64,
    pub hi: u64,
}

/// A builder's answer.
#[repr(C)]
#[derive(Clone, Copy, Debug, Default, PartialEq, Eq)]
pub struct NimskerfBuilt {
    pub refusal: u32,
    pub count: usize,
}

unsafe extern "C" {
    pub fn nimskerf_question() -> NimskerfQuestion;

    pub fn nimskerf_plan(question: *const NimskerfQuestion, lists: *const NimskerfLists) -> NimskerfAnswer;

    pub fn nimskerf_replay(
        question: *const NimskerfQuestion,
        steps: *const u16,
        steps_len: usize,
        result: *mut u8,
        result_len: usize,
        popped: *mut u8,
        popped_len: usize,
    ) -> NimskerfReplayed;

    pub fn nimskerf_pops(steps: *const u16, steps_len: usize) -> usize;

    pub fn nimskerf_rewind(
        question: *const NimskerfQuestion,
        end: *const u8,
        end_len: usize,
        steps: *const u16,
        steps_len: usize,
        popped: *const u8,
        popped_len: usize,
        result: *mut u8,
        result_len: usize,
    ) -> NimskerfRewound;

    pub fn nimskerf_mark(
        question: *const NimskerfQuestion,
        steps: *const u16,
        steps_len: usize,
        ceiling: NimskerfCost,
    ) -> NimskerfMarked;

    pub fn nimskerf_pack(ids: *const u8, ids_len: usize) -> NimskerfPacked;

    pub fn nimskerf_star_swap(question: *const NimskerfQuestion, steps: *mut u16, steps_len: usize) -> NimskerfBuilt;

    pub fn nimskerf_delete_tail(question: *const NimskerfQuestion, steps: *mut u16, steps_len: usize) -> NimskerfBuilt;

    pub fn nimskerf_step(kind: u32, operand: u32) -> u16;
    pub fn nimskerf_step_kind(code: u16) -> u32;
    pub fn nimskerf_step_operand(code: u16) -> u32;
    pub fn nimskerf_step_word(code: u16) -> *const c_char;
    pub fn nimskerf_refusal_text(refusal: u32) -> *const c_char;
    pub fn nimskerf_origin_text(origin: u32) -> *const c_char;
    pub fn nimskerf_ending_text(ending: u32) -> *const c_char;
    pub fn nimskerf_mark_text(mark: u32) -> *const c_char;
    pub fn nimskerf_version() -> *const c_char;
}

unsafe extern "C" {
    pub fn nimskerf_proved_plan(
        start: *const u8,
        start_len: usize,
        goal: *const u8,
        goal_len: usize,
        dup_max: usize,
        swap_max: usize,
        max_len: usize,
        beneath: usize,
        max_expansions: usize,
        states_without: usize,
        states_with: usize,
        kinds: *const u8,
        kinds_len: usize,
        prices: *const u32,
        prices_len: usize,
        steps: *mut u16,
        steps_len: usize,
        nodes: *mut u64,
        nodes_len: usize,
        heads: *mut u64,
        heads_len: usize,
        list: *mut u64,
        list_len: usize,
    ) -> NimskerfAnswer;

    pub fn nimskerf_proved_replay(
        start: *const u8,
        start_len: usize,
        steps: *const u16,
        steps_len: usize,
        dup_max: usize,
        swap_max: usize,
        max_len: usize,
        beneath: usize,
        kinds: *const u8,
        kinds_len: usize,
        result: *mut u8,
        result_len: usize,
        popped: *mut u8,
        popped_len: usize,
    ) -> NimskerfReplayed;

    pub fn nimskerf_proved_pops(steps: *const u16, steps_len: usize) -> usize;

    pub fn nimskerf_proved_rewind(
        end: *const u8,
        end_len: usize,
        steps: *const u16,
        steps_len: usize,
        popped: *const u8,
        popped_len: usize,
        dup_max: usize,
        swap_max: usize,
        max_len: usize,
        beneath: usize,
        kinds: *const u8,
        kinds_len: usize,
        result: *mut u8,
        result_len: usize,
    ) -> NimskerfRewound;

    pub fn nimskerf_proved_mark(
        start: *const u8,
        start_len: usize,
        goal: *const u8,
        goal_len: usize,
        steps: *const u16,
        steps_len: usize,
        dup_max: usize,
        swap_max: usize,
        max_len: usize,
        beneath: usize,
        kinds: *const u8,
        kinds_len: usize,
        prices: *const u32,
        prices_len: usize,
        ceiling_gas: u32,
        ceiling_bytes: u32,
    ) -> NimskerfMarked;

    pub fn nimskerf_proved_pack(ids: *const u8, ids_len: usize) -> NimskerfPacked;

    pub fn nimskerf_proved_star_swap(
        start: *const u8,
        start_len: usize,
        goal: *const u8,
        goal_len: usize,
        swap_max: usize,
        steps: *mut u16,
        steps_len: usize,
    ) -> NimskerfBuilt;

    pub fn nimskerf_proved_delete_tail(
        start: *const u8,
        start_len: usize,
        goal: *const u8,
        goal_len: usize,
        swap_max: usize,
        steps: *mut u16,
        steps_len: usize,
    ) -> NimskerfBuilt;
}
