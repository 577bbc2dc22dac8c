//! Document 01's questions with known outcomes, and plans of the search, through the typed interface.

use nimskerf::{
    Allowances, Answer, Cost, Ending, Kind, Limits, Lists, Mark, Origin, Plan, Planner, PriceList, Question, Reaches,
    Refusal, Step, Tables, delete_tail, mark, mark_codes, pack, plan_in, raw, replay, replay_codes, rewind, star_swap,
};
use std::thread;

const WIDE: Reaches = Reaches { dup_max: 16, swap_max: 17, max_len: 21 };
const NO_SEARCH: Allowances = Allowances { max_expansions: 0, states_without: 1000, states_with: 1000 };
const SEARCH: Allowances = Allowances { max_expansions: 1000, ..NO_SEARCH };

fn ask(start: &[u8], goal: &[u8], reaches: Reaches, allowances: Allowances) -> Result<Answer, Refusal> {
    Planner::new().plan(&Question::new(start, goal).with_reaches(reaches).with_allowances(allowances))
}

fn plan_of(start: &[u8], goal: &[u8], reaches: Reaches) -> Option<Plan> {
    ask(start, goal, reaches, NO_SEARCH).expect("accepted").plan
}

#[test]
fn the_desk_example() {
    let answer = ask(&[0, 1, 2], &[0], WIDE, NO_SEARCH).expect("accepted");
    assert_eq!((answer.ending, answer.expansions), (Ending::NoSearch, 0));
    let plan = answer.plan.expect("a plan");
    assert_eq!(plan.steps, [Step::Swap(2), Step::Pop, Step::Pop]);
    assert_eq!(plan.cost, Cost::new(7, 3));
    assert_eq!(plan.ceiling, Cost::new(7, 3));
    assert_eq!((plan.origin, plan.highest), (Origin::DeleteTail, 3));
}

#[test]
fn builders_plans() {
    let plan = plan_of(&[0, 1], &[], WIDE).expect("a plan");
    assert_eq!(plan.steps, [Step::Pop, Step::Pop]);
    assert_eq!((plan.cost, plan.origin, plan.highest), (Cost::new(4, 2), Origin::DupAndStar, 2));

    let plan = plan_of(&[0], &[0, 0], WIDE).expect("a plan");
    assert_eq!(plan.steps, [Step::Dup(0)]);
    assert_eq!((plan.cost, plan.origin, plan.highest), (Cost::new(3, 1), Origin::DupAndStar, 2));

    assert_eq!(plan_of(&[0], &[0, 0], Reaches { dup_max: 0, ..WIDE }), None);

    let plan = plan_of(&[], &[32], WIDE).expect("a plan");
    assert_eq!(plan.steps, [Step::PushImm(32)]);
    assert_eq!((plan.cost, plan.highest), (Cost::new(2, 1), 1));
}

#[test]
fn reaches_and_lengths() {
    let narrow = Reaches { swap_max: 0, ..WIDE };
    let answer = ask(&[], &[], narrow, NO_SEARCH).expect("accepted");
    assert_eq!(answer.ending, Ending::Equal);
    let plan = answer.plan.expect("the empty plan");
    assert_eq!((plan.steps.len(), plan.origin, plan.highest), (0, Origin::None, 0));
    assert_eq!(ask(&[0], &[], narrow, NO_SEARCH), Err(Refusal::Length));

    let window: Vec<u8> = (0..18).collect();
    assert!(ask(&window[..17], &[], WIDE, NO_SEARCH).is_ok());
    assert_eq!(ask(&window, &[], WIDE, NO_SEARCH), Err(Refusal::Length));
    assert_eq!(ask(&[], &window, WIDE, NO_SEARCH), Err(Refusal::Length));
    assert!(ask(&[], &[], Reaches { max_len: 21, ..WIDE }, NO_SEARCH).is_ok());
    assert_eq!(ask(&[], &[], Reaches { max_len: 22, ..WIDE }, NO_SEARCH), Err(Refusal::Window));
    assert_eq!(ask(&[], &[], Reaches { dup_max: 17, ..WIDE }, NO_SEARCH), Err(Refusal::Reach));
    let over = Allowances { states_with: 65_537, ..NO_SEARCH };
    assert_eq!(ask(&[], &[], WIDE, over), Err(Refusal::Allowance));
    assert_eq!(ask(&[64], &[], WIDE, NO_SEARCH), Err(Refusal::Key));
}

#[test]
fn a_search_improves_on_the_builders() {
    let question = Question::new(&[0, 2], &[0, 0, 3]);
    let built = plan_of(question.start, question.goal, WIDE).expect("a builder's plan");
    assert_eq!((built.cost, built.origin), (Cost::new(17, 7), Origin::DupAndStar));

    let answer = Planner::new().plan(&question).expect("accepted");
    assert_eq!((answer.ending, answer.expansions), (Ending::CutOff, 24));
    let plan = answer.plan.expect("a plan");
    assert_eq!(plan.steps, [Step::LoadVal(3), Step::Swap(2), Step::Pop, Step::Dup(0)]);
    assert_eq!((plan.cost, plan.ceiling, plan.origin), (Cost::new(14, 6), Cost::new(14, 6), Origin::Search));
    assert!(plan.ceiling < built.ceiling);
    let replayed = replay(&question, &plan.steps).expect("allowed");
    assert_eq!((&replayed.window[..], replayed.highest, plan.highest), (question.goal, 3, 3));
    assert_eq!(mark(&question, &plan.steps, plan.ceiling).expect("allowed").mark, Mark::Pass);
    assert_eq!(mark(&question, &built.steps, plan.ceiling).expect("allowed").mark, Mark::TooDear);
}

/// Kinds and prices that no two places share, for a search without a plan in hand.
fn uneven_tables() -> Tables {
    let kinds = std::array::from_fn(|key| match key {
        2 => Kind::Zero,
        key if key < 40 && key % 2 == 1 => Kind::Immediate,
        _ => Kind::Value,
    });
    let price = |place: usize| {
        let number = |i: usize| 2 + i as u32 * 7 % 13;
        Cost::new(number(2 * place), number(2 * place + 1))
    };
    let list = PriceList {
        pop: price(0),
        dup: std::array::from_fn(|i| price(1 + i)),
        swap: std::array::from_fn(|i| price(17 + i)),
        key: std::array::from_fn(|i| price(34 + i)),
    };
    Tables::new(&kinds, &list)
}

#[test]
fn a_plan_of_the_search_alone() {
    let tables = uneven_tables();
    let question = Question::new(&[6, 6, 3, 0, 2, 6, 2], &[3, 5, 2]).with_tables(&tables);
    let built = Planner::new().plan(&question.with_allowances(NO_SEARCH)).expect("accepted");
    assert_eq!((built.plan, built.ending), (None, Ending::NoSearch));

    let answer = Planner::new().plan(&question).expect("accepted");
    assert_eq!((answer.ending, answer.expansions), (Ending::Drained, 470));
    let plan = answer.plan.expect("a plan");
    assert_eq!((plan.cost, plan.ceiling, plan.origin), (Cost::new(27, 70), Cost::new(27, 70), Origin::Search));
    assert_eq!(plan.steps[5..], [Step::Pop, Step::PushImm(5), Step::PushImm(3)]);
    assert_eq!(plan.highest, 7);
}

/// The highest window is the start, one on the way or the end.
#[test]
fn highest_windows() {
    let question = Question::new(&[0, 1, 33], &[0]);
    let highest = |steps: &[Step]| replay(&question, steps).expect("allowed").highest;
    assert_eq!(highest(&[]), 3);
    assert_eq!(highest(&[Step::Swap(2), Step::Pop, Step::Pop]), 3);
    assert_eq!(highest(&[Step::Pop, Step::Pop, Step::Pop, Step::PushImm(32)]), 3);
    assert_eq!(highest(&[Step::Dup(0), Step::PushImm(32), Step::Pop, Step::Pop]), 5);
    assert_eq!(highest(&[Step::Dup(0), Step::PushImm(32), Step::LoadVal(1)]), 6);
    assert_eq!(replay(&question, &[Step::Dup(0), Step::Swap(4)]), Err(Refusal::Step(1)));

    // Marked 0, 2 and 1: 12 gas and 5 bytes, 4 keys at its highest.
    let steps = [Step::Dup(0), Step::Swap(3), Step::Pop, Step::Pop, Step::Pop];
    let marked = |steps: &[Step], ceiling| {
        let marked = mark(&question, steps, ceiling).expect("allowed");
        (marked.mark, marked.highest)
    };
    assert_eq!(marked(&steps, Cost::new(12, 5)), (Mark::Pass, 4));
    assert_eq!(marked(&steps, Cost::new(12, 4)), (Mark::TooDear, 4));
    assert_eq!(marked(&steps[..4], Cost::new(12, 5)), (Mark::Elsewhere, 4));
}

#[test]
fn highest_windows_of_plans() {
    let highest = |start: &[u8], goal: &[u8], reaches| {
        ask(start, goal, reaches, SEARCH).expect("accepted").plan.map(|plan| plan.highest)
    };
    // Push 33, swap 2, pop rises above start and goal; without room for it there is another plan.
    assert_eq!(highest(&[0, 1], &[0, 33], WIDE), Some(3));
    assert_eq!(highest(&[0, 1], &[0, 33], Reaches { max_len: 2, ..WIDE }), Some(2));
    // Start equals goal: the start.
    assert_eq!(highest(&[0, 1, 2], &[0, 1, 2], WIDE), Some(3));
    assert_eq!(highest(&[], &[], WIDE), Some(0));
}

/// Under the typed interface the number is 0 beside every refusal, 8 too, and without a plan.
#[test]
fn no_highest_window() {
    let desk = Tables::desk();
    let (kinds, prices) = (desk.kinds(), desk.prices());
    // Not allowed after growing, then too many keys for max_len.
    for (max_len, refusal, index) in [(21, 8, 2), (0, 6, 0)] {
        let (start, codes) = ([0], [256, 256, 1280]);
        let replayed = raw::replay(&start, &codes, 16, 17, max_len, 0, kinds, &mut [0; 21], &mut [0; 3]);
        assert_eq!((replayed.refusal, replayed.index, replayed.highest), (refusal, index, 0));
        let marked = raw::mark(&start, &start, &codes, 16, 17, max_len, 0, kinds, prices, 99, 99);
        assert_eq!((marked.refusal, marked.index, marked.highest), (refusal, index, 0));
    }
    let planned = |dup_max, start: &[u8]| {
        let (mut steps, mut nodes, mut heads, mut open) = ([0; 128], [0; 8 * 50], [0; 50], [0; 4 * 50]);
        let lists = Lists { steps: &mut steps, nodes: &mut nodes, heads: &mut heads, open: &mut open };
        let limits = Limits { dup_max, swap_max: 17, max_len: 21, ..Limits::default() };
        let answer = raw::plan(start, &[0, 0], &limits, kinds, prices, lists);
        (answer.refusal, answer.found, answer.highest)
    };
    assert_eq!(planned(16, &[0]), (0, 1, 2));
    assert_eq!(planned(0, &[0]), (0, 0, 0));
    assert_eq!(planned(17, &[0]), (1, 0, 0));
    assert_eq!(planned(16, &[64]), (5, 0, 0));
}

/// An empty window over 1,024 items, then one with room for a key.
#[test]
fn the_end_of_the_stack() {
    let (push, none) = (Step::PushImm(33), Cost::default());
    let full = Question::new(&[], &[]).with_beneath(1_024);
    let answer = Planner::new().plan(&full).expect("accepted");
    assert_eq!((answer.ending, answer.expansions), (Ending::Equal, 0));
    let plan = answer.plan.expect("the empty plan");
    assert_eq!((plan.steps.len(), plan.origin, plan.highest), (0, Origin::None, 0));
    let replayed = replay(&full, &[]).expect("allowed");
    assert_eq!((replayed.window.len(), replayed.highest), (0, 0));
    assert_eq!(mark(&full, &[], none).expect("allowed").mark, Mark::Pass);
    assert_eq!(replay(&full, &[push]), Err(Refusal::Step(0)));
    assert_eq!(mark(&full, &[push], none), Err(Refusal::Step(0)));

    let one = full.with_beneath(1_023);
    let replayed = replay(&one, &[push, Step::Pop, push]).expect("allowed");
    assert_eq!((&replayed.window[..], replayed.highest), (&[33][..], 1));
    assert_eq!(replay(&one, &[push, push]), Err(Refusal::Step(1)));
    assert_eq!(mark(&one, &[push, push], none), Err(Refusal::Step(1)));
    let plan = |goal| Planner::new().plan(&Question::new(&[], goal).with_beneath(1_023));
    assert_eq!(plan(&[33]).expect("accepted").plan.expect("a plan").steps, [push]);
    assert_eq!(plan(&[33, 33]), Err(Refusal::Length));
}

/// On a full stack Pop and Swap are allowed, Dup, PushImm and LoadVal are not; one item fewer, and they are.
#[test]
fn steps_on_a_full_stack() {
    let full = Question::new(&[0, 1], &[]).with_beneath(1_022);
    for step in [Step::Dup(0), Step::Dup(1), Step::PushImm(33), Step::LoadVal(5)] {
        assert_eq!(replay(&full, &[step]), Err(Refusal::Step(0)), "{step}");
        assert_eq!(replay(&full, &[Step::Swap(1), step]), Err(Refusal::Step(1)), "{step}");
        assert_eq!(mark(&full, &[step], Cost::default()), Err(Refusal::Step(0)), "{step}");
        assert_eq!(replay(&full.with_beneath(1_021), &[step]).expect("allowed").highest, 3, "{step}");
    }
    let steps = [Step::Swap(1), Step::Pop, Step::Dup(0), Step::Pop, Step::LoadVal(5), Step::Swap(1)];
    let replayed = replay(&full, &steps).expect("allowed");
    assert_eq!((replayed.window, replayed.popped, replayed.highest), (vec![0, 5], vec![1, 0], 2));
}

/// The number 12, and what comes before and after it.
#[test]
fn stacks_too_tall() {
    let refused = |question: Question| {
        let answers = [
            Planner::new().plan(&question).err(),
            replay(&question, &[]).err(),
            mark(&question, &[], Cost::default()).err(),
            rewind(&question, question.start, &[], &[]).err(),
        ];
        answers.map(|refusal| refusal.map_or(0, Refusal::number))
    };
    let (empty, short, long) = (Question::new(&[], &[]), Question::new(&[0], &[]), Question::new(&[0; 22], &[]));
    for beneath in [1_025, 1 << 32, usize::MAX - 1, usize::MAX] {
        assert_eq!(refused(empty.with_beneath(beneath)), [12; 4], "{beneath}");
        assert_eq!(refused(short.with_beneath(beneath)), [12; 4], "{beneath}");
        assert_eq!(refused(long.with_beneath(beneath)), [12; 4], "{beneath}");
    }
    assert_eq!(refused(short.with_beneath(1_024)), [12; 4]);
    assert_eq!(refused(short.with_beneath(1_023)), [0; 4]);
    assert_eq!(refused(long.with_beneath(1_003)), [12; 4]);
    assert_eq!(refused(long.with_beneath(1_002)), [6; 4]);
    assert_eq!(refused(Question::new(&[0; 1_025], &[])), [12; 4]);
    assert_eq!(refused(Question::new(&[0; 1_024], &[])), [6; 4]);
    assert_eq!(refused(Question::new(&[64], &[]).with_beneath(usize::MAX)), [5; 4]);
    assert_eq!(refused(Question::new(&[0], &[64]).with_beneath(1_024)), [5, 12, 5, 12]);
    let wide = Reaches { max_len: 22, ..WIDE };
    assert_eq!(refused(long.with_reaches(wide).with_beneath(usize::MAX)), [2; 4]);
    let low = Reaches { max_len: 0, ..WIDE };
    assert_eq!(refused(short.with_reaches(low).with_beneath(1_024)), [12; 4]);
    assert_eq!(refused(short.with_reaches(low).with_beneath(1_023)), [6; 4]);
}

/// A goal that does not fit over the items beneath: 6 from the planner, no number from marking.
#[test]
fn goals_over_the_stack() {
    let question = Question::new(&[0, 1], &[0, 1, 0]).with_beneath(1_022);
    let marked = |question: &Question, steps: &[Step]| {
        mark(question, steps, Cost::new(9, 9)).map(|marked| (marked.mark, marked.highest))
    };
    assert_eq!(Planner::new().plan(&question), Err(Refusal::Length));
    assert_eq!(marked(&question, &[]), Ok((Mark::Elsewhere, 2)));
    let question = Question::new(&[1, 0], &[0, 1, 0]).with_beneath(1_021);
    assert_eq!(Planner::new().plan(&question).expect("accepted").plan.expect("a plan").steps, [Step::Dup(1)]);
    assert_eq!(marked(&question, &[Step::Dup(1)]), Ok((Mark::Pass, 3)));
    assert_eq!(marked(&question.with_beneath(1_022), &[Step::Dup(1)]), Err(Refusal::Step(0)));
    // Nor does the goal count for 12.
    let question = Question::new(&[], &[0, 1]).with_beneath(1_024);
    assert_eq!(Planner::new().plan(&question), Err(Refusal::Length));
    assert_eq!(marked(&question, &[]), Ok((Mark::Elsewhere, 0)));
}

/// Without room to climb the plan is another one: 8 gas and 4 bytes over a window of 3, 11 and 5 within one of 2.
#[test]
fn plans_under_the_end_of_the_stack() {
    let planned = |beneath| {
        let question = Question::new(&[0, 1], &[0, 33]).with_beneath(beneath);
        let plan = Planner::new().plan(&question).expect("accepted").plan.expect("a plan");
        (plan.steps, plan.cost, plan.highest)
    };
    let climbing = vec![Step::PushImm(33), Step::Swap(2), Step::Pop];
    let flat = vec![Step::Swap(1), Step::Pop, Step::PushImm(33), Step::Swap(1)];
    assert_eq!(planned(0), (climbing.clone(), Cost::new(8, 4), 3));
    assert_eq!(planned(1_021), (climbing, Cost::new(8, 4), 3));
    assert_eq!(planned(1_022), (flat, Cost::new(11, 5), 2));
}

/// The answer over items is that of the smaller `max_len`, if the start fits.
#[test]
fn items_narrow_a_planners_window() {
    let mut planner = Planner::new();
    for question in questions().into_iter().filter(|question| question.start.iter().all(|&key| key < 64)) {
        for room in 0..=21 {
            let over = planner.plan(&question.with_beneath(1_024 - room));
            let narrow = question.with_reaches(Reaches { max_len: room, ..question.reaches });
            let expected = if question.start.len() > room { Err(Refusal::Stack) } else { planner.plan(&narrow) };
            assert_eq!(over, expected, "{question:?} over {}", 1_024 - room);
            // The smaller of the two counts.
            assert_eq!(planner.plan(&narrow.with_beneath(1_003)), planner.plan(&narrow));
        }
    }
}

/// Packing's and the builders' calls do not look beneath.
#[test]
fn builders_over_items() {
    let swaps = Question::new(&[0, 1, 2], &[1, 2, 0]).with_beneath(usize::MAX);
    assert_eq!(star_swap(&swaps), Ok(vec![Step::Swap(2), Step::Swap(1)]));
    let tail = Question::new(&[0, 1, 2], &[0, 1]).with_beneath(usize::MAX);
    assert_eq!(delete_tail(&tail), Ok(vec![Step::Swap(2), Step::Pop, Step::Swap(1)]));
}

#[test]
fn allowances_end_a_search() {
    let tables = uneven_tables();
    let question = Question::new(&[6, 6, 3, 0, 2, 6, 2], &[3, 5, 2]).with_tables(&tables);
    let ended = |allowances| {
        let answer = Planner::new().plan(&question.with_allowances(allowances)).expect("accepted");
        (answer.ending, answer.expansions)
    };
    assert_eq!(ended(Allowances { max_expansions: 300, ..SEARCH }), (Ending::Expansions, 300));
    assert_eq!(ended(Allowances { states_without: 100, ..SEARCH }), (Ending::States, 13));
    assert_eq!(ended(Allowances { states_with: 40, ..SEARCH }), (Ending::Drained, 470));
}

/// Questions of several sizes, one refused.
fn questions() -> Vec<Question<'static>> {
    let small = Question::new(&[0, 2], &[0, 0, 3]);
    vec![
        small,
        Question::new(&[3, 2], &[1, 1, 33, 0]).with_allowances(Allowances { states_with: 30_000, ..SEARCH }),
        small.with_reaches(Reaches { dup_max: 0, ..WIDE }),
        Question::new(&[64], &[]),
        Question::new(&[2, 0], &[3, 33, 0, 3]).with_allowances(Allowances { max_expansions: 20, ..SEARCH }),
        Question::new(&[0, 1], &[]).with_allowances(NO_SEARCH),
        small,
    ]
}

#[test]
fn a_planner_is_used_again() {
    let mut used = Planner::with_allowances(&NO_SEARCH);
    for question in questions() {
        assert_eq!(used.plan(&question), Planner::new().plan(&question), "{question:?}");
    }
}

#[test]
fn threads_have_planners_of_their_own() {
    let answers = || {
        let mut planner = Planner::new();
        questions().iter().map(|question| planner.plan(question)).collect::<Vec<_>>()
    };
    let alone = answers();
    thread::scope(|scope| {
        for thread in (0..4).map(|_| scope.spawn(answers)).collect::<Vec<_>>() {
            assert_eq!(thread.join().expect("no panic"), alone);
        }
    });
}

#[test]
fn lists_that_the_caller_lends() {
    let question = Question::new(&[0, 1], &[]).with_allowances(NO_SEARCH);
    let (mut steps, mut nodes) = ([9u16; 128], vec![7u64; 1050 * 8]);
    let (mut heads, mut open) = (vec![7u64; 1050], vec![7u64; 1050 * 4]);
    let lists = Lists { steps: &mut steps, nodes: &mut nodes, heads: &mut heads, open: &mut open };
    assert!(plan_in(&question, lists).is_ok());
    assert_eq!(steps[..3], [0, 0, 9]);
    let lists = Lists { steps: &mut steps, nodes: &mut nodes, heads: &mut heads[..1049], open: &mut open };
    assert_eq!(plan_in(&question, lists), Err(Refusal::Short));
    let lists = Lists { steps: &mut steps[..127], nodes: &mut nodes, heads: &mut heads, open: &mut open };
    assert_eq!(plan_in(&question, lists), Err(Refusal::Short));
}

#[test]
fn star_swap_and_delete_tail() {
    let swaps = Question::new(&[0, 1, 2], &[0, 2, 1]);
    assert_eq!(star_swap(&swaps), Ok(vec![Step::Swap(1), Step::Swap(2), Step::Swap(1)]));
    assert_eq!(star_swap(&Question::new(&[0, 1, 2], &[1, 2, 0])), Ok(vec![Step::Swap(2), Step::Swap(1)]));
    assert_eq!(star_swap(&swaps.with_reaches(Reaches { swap_max: 2, ..WIDE })), Err(Refusal::Unroutable));
    let tail = Question::new(&[0, 1, 2], &[0, 1]);
    assert_eq!(delete_tail(&tail), Ok(vec![Step::Swap(2), Step::Pop, Step::Swap(1)]));
    assert_eq!(delete_tail(&tail.with_reaches(Reaches { swap_max: 2, ..WIDE })), Err(Refusal::NotATail));
    assert_eq!(delete_tail(&Question::new(&[0, 1], &[0, 1])), Err(Refusal::NotATail));
}

#[test]
fn packing() {
    assert_eq!(pack(&[]), Ok(1));
    assert_eq!(pack(&[1, 2]), Ok(1 | 2 << 6 | 1 << 12));
    assert_eq!(pack(&[63; 21]), Ok(u128::MAX >> 1));
    assert_eq!(pack(&[64]), Err(Refusal::Key));
    assert_eq!(pack(&[0; 22]), Err(Refusal::Length));
}

#[test]
fn replay_and_marking() {
    let question = Question::new(&[1], &[32, 1, 1]);
    assert_eq!(replay(&Question::new(&[], &[]), &[Step::Pop]), Err(Refusal::Step(0)));
    assert_eq!(replay(&question, &[Step::Dup(0), Step::PushImm(1)]), Err(Refusal::Step(1)));
    assert_eq!(replay_codes(&question, &[1280]), Err(Refusal::Step(0)));
    let steps = [Step::Dup(0), Step::PushImm(32)];
    assert_eq!(replay(&question, &steps).expect("allowed").window, [32, 1, 1]);
    let marked = |question: &Question, ceiling| mark(question, &steps, ceiling).expect("allowed").mark;
    assert_eq!(marked(&question, Cost::new(5, 2)), Mark::Pass);
    assert_eq!(marked(&question, Cost::new(5, 1)), Mark::TooDear);
    assert_eq!(marked(&Question::new(&[1], &[32, 1]), Cost::new(5, 2)), Mark::Elsewhere);
    let many = vec![0; 65_537];
    assert_eq!(mark_codes(&question, &many, Cost::default()), Err(Refusal::Allowance));
}

#[test]
fn codes_of_steps() {
    for code in 0..=u16::MAX {
        match Step::from_code(code) {
            Some(step) => assert_eq!(step.code(), code),
            None => assert!(code >= 1280 || (1..256).contains(&code)),
        }
    }
}

#[test]
fn numbers_and_sentences() {
    assert_eq!(Refusal::Key.to_string(), "refused 5: A key is 64 or more.");
    assert_eq!(Refusal::Step(3).to_string(), "refused 8: A step is not allowed. Its index is 3.");
    assert_eq!(
        Refusal::NoStart.to_string(),
        "refused 11: No start leads through the steps to the end with these keys popped."
    );
    assert_eq!(
        Refusal::Stack.to_string(),
        "refused 12: The stack is too tall: the items beneath and the window are over 1,024."
    );
    for number in 1..=12 {
        let refusal = Refusal::from_number(number, 7).expect("a refusal");
        assert_eq!(refusal.number(), number);
        assert!(refusal.to_string().ends_with('.'), "{refusal}");
    }
    let origins = [Origin::None, Origin::DeleteTail, Origin::DupAndStar, Origin::Search];
    assert_eq!(origins.map(Origin::number), [0, 1, 2, 3]);
    assert_eq!(Origin::Search.to_string(), "The plan was found by the search.");
    let endings =
        [Ending::Equal, Ending::NoSearch, Ending::Drained, Ending::CutOff, Ending::States, Ending::Expansions];
    assert_eq!(endings.map(Ending::number), [0, 1, 2, 3, 4, 5]);
    assert_eq!(endings.map(Ending::by_itself), [true, false, true, true, false, false]);
    assert_eq!(Ending::Equal.to_string(), "Start equals goal.");
    assert_eq!([Mark::Pass, Mark::Elsewhere, Mark::TooDear].map(Mark::number), [0, 1, 2]);
    assert_eq!(Mark::Elsewhere.to_string(), "The steps end elsewhere.");
}

/// A question's defaults are the library's.
#[test]
fn defaults() {
    let question = Question::new(&[], &[]);
    // SAFETY: a call without pointers; the tables that it gives are constant.
    let (desk, kinds, prices) = unsafe {
        let desk = nimskerf::sys::nimskerf_question();
        let kinds = std::slice::from_raw_parts(desk.kinds, desk.kinds_len);
        (desk, kinds, std::slice::from_raw_parts(desk.prices, desk.prices_len))
    };
    let Reaches { dup_max, swap_max, max_len } = question.reaches;
    let Allowances { max_expansions, states_without, states_with } = question.allowances;
    assert_eq!((dup_max, swap_max, max_len), (desk.dup_max, desk.swap_max, desk.max_len));
    assert_eq!((max_expansions, states_without), (desk.max_expansions, desk.states_without));
    assert_eq!(states_with, desk.states_with);
    assert_eq!((question.beneath, desk.beneath), (0, 0));
    assert_eq!(question.tables.kinds(), kinds);
    assert_eq!(question.tables.prices(), prices);
}
