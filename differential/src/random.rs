//! Random questions, one in twenty of them spoilt to be refused, and one in forty with any count of items beneath.

use crate::{
    case::Call,
    compare::{Need, Run},
    draw, port,
};
use std::sync::Arc;

/// A run without stacks that are too tall, or whose items beneath change no plan, shows nothing of them.
const NEEDS: &[Need] = &[Need::Answer(Call::Plan, 12), Need::Moved(Call::Plan)];

pub fn run(seed: u64, count: u64) -> Run {
    let run = Run::new("random", seed, count, |sides, mut random| {
        let tables = Arc::new(draw::tables(&mut random));
        let mut case = draw::deep_question(&mut random, &tables);
        case.lent = port::lengths(&case, &mut random);
        if random.once_in(40) {
            case.limits.beneath = draw::any_beneath(&mut random, case.start.len());
        }
        if random.once_in(20) {
            if random.once_in(4) {
                port::shorten(&mut case, &mut random);
            }
            for _ in 0..random.below(3) {
                draw::spoil(&mut random, &mut case);
            }
        }
        sides.compare(&case, &mut random);
    });
    run.needing(NEEDS)
}
