//! What a call must answer: by the Rust's own text where it has the call or the field, otherwise by the model.

use crate::{
    case::{Answer, Call, Case, FOUND, HIGHEST},
    model,
    reference::{self, Reference},
    rewinding,
};

/// Stands for a refusal where the model and the Rust disagree on whether there is an answer, or on whether a plan leads to
/// the goal: no port gives it.
const DISAGREE: u32 = u32::MAX;

/// The answer that is expected, with what must be written.
pub fn answer(case: &Case, reference: &mut Reference) -> Answer {
    let refusal = model::refusal(case);
    match (case.call, refusal) {
        (Call::Plan, 0) => with_highest(case, reference.plan(case)),
        (Call::Replay, 0) => model::replay(case),
        (Call::Mark, 0) => model::mark(case),
        (Call::Rewind, 0) => rewinding::answer(rewinding::start_before(case).ok()),
        (Call::Pack, _) => agreed(refusal, reference::pack(&case.start).map(packed)),
        (Call::StarSwap, 0 | 9) => {
            agreed(refusal, reference::star_swap(&case.start, &case.goal, case.limits.swap_max).map(built))
        }
        (Call::DeleteTail, 0 | 10) => {
            agreed(refusal, reference::delete_tail(&case.start, &case.goal, case.limits.swap_max).map(built))
        }
        _ => Answer::refused(refusal),
    }
}

/// The Rust's answer with the highest window of its own plan, as the model follows the steps; 0 without a plan.
fn with_highest(case: &Case, mut answer: Answer) -> Answer {
    if answer.fields[FOUND] == 0 {
        return answer;
    }
    match model::highest(case, &answer.plan) {
        Some(highest) => answer.fields[HIGHEST] = highest,
        None => return Answer::refused(DISAGREE),
    }
    answer
}

/// The Rust's answer, where it has one exactly if the model does not refuse.
fn agreed(refusal: u32, rust: Option<Answer>) -> Answer {
    match (refusal, rust) {
        (0, Some(answer)) => answer,
        (0, None) | (_, Some(_)) => Answer::refused(DISAGREE),
        (_, None) => Answer::refused(refusal),
    }
}

fn packed(state: u128) -> Answer {
    Answer::of(0, [0, 32, 64, 96].map(|shift| (state >> shift) as u64 & 0xffff_ffff))
}

fn built(plan: Vec<u16>) -> Answer {
    Answer { plan: plan.clone(), ..Answer::of(0, [plan.len() as u64]) }
}
