//! Popped keys, and the way back through answers, through the typed interface.

use nimskerf::{
    Cost, Kind, Planner, PriceList, Question, Reaches, Refusal, Step, StepBack, Tables, raw, replay, retrace,
    retrace_codes, rewind, rewind_codes, walk_back, walk_back_codes,
};

#[test]
fn popped_keys() {
    let question = Question::new(&[0, 1, 33], &[]);
    let popped = |steps: &[Step]| replay(&question, steps).expect("allowed").popped;
    assert_eq!(popped(&[]), []);
    assert_eq!(popped(&[Step::Dup(1), Step::Swap(3)]), []);
    assert_eq!(popped(&[Step::Pop, Step::Pop, Step::Pop]), [0, 1, 33]);
    assert_eq!(popped(&[Step::Swap(2), Step::Pop, Step::Dup(0), Step::Pop, Step::PushImm(32), Step::Pop]), [33, 1, 32]);
}

/// Under the typed interface: a popped list shorter than the steps, lists that are untouched.
#[test]
fn lists_of_popped_keys() {
    let (start, codes, desk) = ([0, 1, 2], [514, 0, 0, 256], Tables::desk());
    let ask = |codes: &[u16], places: usize| {
        let (mut result, mut popped) = ([99; 21], [99; 6]);
        let r = raw::replay(&start, codes, 16, 17, 21, 0, desk.kinds(), &mut result, &mut popped[..places]);
        (r.refusal, result[..3].to_vec(), popped)
    };
    assert_eq!(ask(&codes, 6), (0, vec![0, 0, 99], [2, 1, 99, 99, 99, 99]));
    assert_eq!(ask(&codes, 4), (0, vec![0, 0, 99], [2, 1, 99, 99, 99, 99]));
    assert_eq!(ask(&codes, 3), (7, vec![99; 3], [99; 6]));
    assert_eq!(ask(&codes[..1], 0), (7, vec![99; 3], [99; 6]));
    assert_eq!(ask(&[], 0), (0, vec![0, 1, 2], [99; 6]));
    assert_eq!(ask(&[0, 0, 0, 0], 4), (8, vec![99; 3], [99; 6]));
    assert_eq!((raw::pops(&codes), raw::pops(&[]), raw::pops(&[1, 0, 256])), (2, 0, 1));
}

/// Answers that are allowed, of every kind of step.
fn walks() -> Vec<(Question<'static>, Vec<Step>)> {
    let search = Question::new(&[0, 2], &[0, 0, 3]);
    let tail = Question::new(&[0, 1, 2], &[0]);
    let narrow = Question::new(&[7, 7, 33], &[]).with_reaches(Reaches { dup_max: 2, swap_max: 3, max_len: 4 });
    let full = Question::new(&[7, 7, 33], &[]).with_beneath(1_020);
    vec![
        (search, vec![Step::LoadVal(3), Step::Swap(2), Step::Pop, Step::Dup(0)]),
        (tail, vec![Step::Swap(2), Step::Pop, Step::Pop]),
        (tail, vec![Step::Dup(0), Step::Swap(3), Step::Pop, Step::Pop, Step::Pop]),
        (narrow, vec![Step::Dup(1), Step::Swap(2), Step::Pop, Step::PushImm(63), Step::Pop, Step::Pop, Step::Pop]),
        (narrow, vec![Step::Pop, Step::Swap(1), Step::Pop, Step::Pop, Step::PushImm(32), Step::LoadVal(31)]),
        (full, vec![Step::Dup(2), Step::Swap(3), Step::Pop, Step::PushImm(63), Step::Pop, Step::LoadVal(31)]),
        (tail, vec![]),
    ]
}

/// Window by window: the one before a step is where the steps before it lead.
#[test]
fn walks_back() {
    for (question, steps) in walks() {
        let replayed = replay(&question, &steps).expect("allowed");
        let mut walk = walk_back(&question, &replayed.window, &steps, &replayed.popped).expect("a start");
        assert_eq!((walk.start(), walk.window()), (question.start, &replayed.window[..]));
        let mut keys = replayed.popped.clone();
        for index in (0..steps.len()).rev() {
            assert_eq!(walk.len(), index + 1);
            let StepBack { index: at, step, popped, window, .. } = walk.next().expect("a step");
            assert_eq!((at, step), (index, steps[index]));
            assert_eq!(popped, if step == Step::Pop { keys.pop() } else { None });
            assert_eq!(window, replay(&question, &steps[..index]).expect("allowed").window);
            assert_eq!(walk.window(), window);
        }
        assert_eq!((walk.len(), walk.next(), walk.window()), (0, None, question.start));
        assert!(keys.is_empty());
        assert_eq!(rewind(&question, &replayed.window, &steps, &replayed.popped).as_deref(), Ok(question.start));
    }
}

#[test]
fn retracing_an_answer() {
    for (question, steps) in walks() {
        let replayed = replay(&question, &steps).expect("allowed");
        let walked: Vec<_> =
            walk_back(&question, &replayed.window, &steps, &replayed.popped).expect("a start").collect();
        assert_eq!(retrace(&question, &steps).expect("allowed").collect::<Vec<_>>(), walked);
    }
    let question = Question::new(&[0, 1], &[]);
    let walk = retrace(&question, &[Step::PushImm(33), Step::Pop]).expect("allowed");
    let walked: Vec<_> = walk.map(|back| (back.index, back.step, back.popped, back.window)).collect();
    assert_eq!(walked, [(1, Step::Pop, Some(33), vec![33, 0, 1]), (0, Step::PushImm(33), None, vec![0, 1])]);
    assert_eq!(retrace(&question, &[Step::Pop, Step::Pop, Step::Pop]).err(), Some(Refusal::Step(2)));
    assert_eq!(retrace_codes(&question, &[0, 1]).err(), Some(Refusal::Step(1)));
    assert_eq!(retrace(&Question::new(&[64], &[]), &[]).err(), Some(Refusal::Key));
}

/// From the goal of a plan to its start.
#[test]
fn retracing_plans() {
    let windows: [(&[u8], &[u8]); 3] =
        [(&[0, 2], &[0, 0, 3]), (&[3, 2], &[1, 1, 33, 0]), (&[0, 1, 2, 3, 4], &[4, 2, 0])];
    for (start, goal) in windows {
        let question = Question::new(start, goal);
        let steps = Planner::new().plan(&question).expect("accepted").plan.expect("a plan").steps;
        let walk = retrace(&question, &steps).expect("allowed");
        assert_eq!((walk.len(), walk.window()), (steps.len(), goal));
        assert_eq!(walk.last().expect("a step").window, start);
    }
}

/// Each of an end, steps and popped keys that have a start, changed so that there is none.
#[test]
fn no_start() {
    let question = Question::new(&[], &[]).with_reaches(Reaches { dup_max: 2, swap_max: 3, max_len: 4 });
    let steps = [Step::Dup(1), Step::Swap(2), Step::Pop, Step::PushImm(33), Step::Pop, Step::LoadVal(5)];
    let none = |question: &Question, end: &[u8], steps: &[Step], popped: &[u8]| {
        let refused = Some(Refusal::NoStart);
        rewind(question, end, steps, popped).err() == refused
            && walk_back(question, end, steps, popped).err() == refused
    };
    // 0 1 2, 1 0 1 2, 1 0 1 2, 0 1 2, 33 0 1 2, 0 1 2, 5 0 1 2.
    assert_eq!(rewind(&question, &[5, 0, 1, 2], &steps, &[1, 33]), Ok(vec![0, 1, 2]));
    assert!(none(&question, &[6, 0, 1, 2], &steps, &[1, 33]));
    assert!(none(&question, &[5, 1, 1, 2], &steps, &[0, 33]));
    assert!(none(&question, &[5, 0, 1, 2], &steps, &[33, 1]));
    assert!(none(&question, &[5, 0, 1, 2], &steps, &[1]));
    assert!(none(&question, &[5, 0, 1, 2], &steps, &[1, 33, 33]));
    assert!(none(&question, &[5, 0, 1, 2], &steps[..5], &[1, 33]));
    assert!(none(&question, &[], &steps, &[1, 33]));
    for (dup_max, swap_max) in [(1, 3), (2, 2)] {
        let narrower = question.with_reaches(Reaches { dup_max, swap_max, max_len: 4 });
        assert!(none(&narrower, &[5, 0, 1, 2], &steps, &[1, 33]));
    }
    // A window on the way, then the start, longer than max_len.
    let three = question.with_reaches(Reaches { max_len: 3, ..question.reaches });
    assert!(none(&three, &[0, 1, 2], &steps[..3], &[1]));
    assert!(none(&three, &[0, 1, 2], &[Step::Pop], &[1]));
    // Kinds, and codes that are no steps.
    assert!(none(&question, &[5], &[Step::PushImm(5)], &[]));
    assert!(none(&question, &[33], &[Step::LoadVal(33)], &[]));
    for code in [1, 512, 1088, 1280, 65_535] {
        assert_eq!(rewind_codes(&question, &[0, 1], &[code], &[]), Err(Refusal::NoStart), "{code}");
        assert_eq!(walk_back_codes(&question, &[0, 1], &[code], &[]).err(), Some(Refusal::NoStart), "{code}");
    }
}

/// The lower refusals of stepping back, each beside all that come after it.
#[test]
fn refusals_of_stepping_back() {
    let wide = Question::new(&[64; 30], &[64; 30]).with_beneath(1_024);
    let small = wide.with_reaches(Reaches { max_len: 1, ..Reaches::default() });
    let two_zeros = Tables::new(
        &[Kind::Zero; 64],
        &PriceList {
            pop: Cost::default(),
            dup: [Cost::default(); 16],
            swap: [Cost::default(); 17],
            key: [Cost::default(); 64],
        },
    );
    let (many, most) = (vec![0; 65_537], vec![0; 65_536]);
    let refused = |question: Question, end: &[u8], codes: &[u16], popped: &[u8]| {
        let refusal = rewind_codes(&question, end, codes, popped).err();
        assert_eq!(walk_back_codes(&question, end, codes, popped).err(), refusal);
        refusal
    };
    let over = Reaches { dup_max: 17, swap_max: 17, max_len: 22 };
    assert_eq!(refused(wide.with_reaches(over), &[64], &many, &[64]), Some(Refusal::Reach));
    let over = Reaches { max_len: 22, ..Reaches::default() };
    assert_eq!(refused(wide.with_reaches(over), &[64], &many, &[64]), Some(Refusal::Window));
    assert_eq!(refused(small.with_tables(&two_zeros), &[64, 0], &many, &[64]), Some(Refusal::Allowance));
    assert_eq!(refused(small.with_tables(&two_zeros), &[64, 0], &most, &[64]), Some(Refusal::Table));
    assert_eq!(refused(small, &[64, 0], &most, &[]), Some(Refusal::Key));
    assert_eq!(refused(small, &[0, 0], &[], &[64]), Some(Refusal::Key));
    assert_eq!(refused(small, &[0, 0], &most, &[]), Some(Refusal::Stack));
    let small = small.with_beneath(1_022);
    assert_eq!(refused(small, &[0, 0], &most, &[]), Some(Refusal::Length));
    assert_eq!(refused(small, &[0], &most, &[]), Some(Refusal::NoStart));
    assert_eq!(refused(small, &[0], &[], &[]), None);
}

/// Over items: the end must fit, then the start and every window on the way.
#[test]
fn starts_over_items() {
    let question = Question::new(&[], &[]);
    let back = |beneath, end: &[u8], steps: &[Step], popped: &[u8]| {
        let question = question.with_beneath(beneath);
        let start = rewind(&question, end, steps, popped);
        let walked = walk_back(&question, end, steps, popped).map(|walk| walk.start().to_vec());
        assert_eq!(walked, start);
        start
    };
    let (pop, push) = (Step::Pop, Step::PushImm(33));
    // The start is as long as the end and the Pops less the pushes.
    assert_eq!(back(1_021, &[0, 1], &[pop], &[5]), Ok(vec![5, 0, 1]));
    assert_eq!(back(1_022, &[0, 1], &[pop], &[5]), Err(Refusal::NoStart));
    assert_eq!(back(1_023, &[0, 1], &[pop], &[5]), Err(Refusal::Stack));
    assert_eq!(back(1_022, &[33, 1], &[push], &[]), Ok(vec![1]));
    assert_eq!(back(1_023, &[33, 1], &[push], &[]), Err(Refusal::Stack));
    // A push before a Pop needs room, a Pop before a push makes it.
    assert_eq!(back(1_021, &[0, 1], &[push, pop], &[33]), Ok(vec![0, 1]));
    assert_eq!(back(1_022, &[0, 1], &[push, pop], &[33]), Err(Refusal::NoStart));
    assert_eq!(back(1_022, &[33, 1], &[pop, push], &[5]), Ok(vec![5, 1]));
    // Dup and LoadVal, Swap.
    assert_eq!(back(1_022, &[1, 1], &[Step::Dup(0)], &[]), Ok(vec![1]));
    assert_eq!(back(1_022, &[5, 1], &[Step::LoadVal(5)], &[]), Ok(vec![1]));
    assert_eq!(back(1_022, &[5, 1], &[Step::Swap(1)], &[]), Ok(vec![1, 5]));
    // Empty windows.
    assert_eq!(back(1_024, &[], &[], &[]), Ok(vec![]));
    assert_eq!(back(1_024, &[], &[pop], &[5]), Err(Refusal::NoStart));
    assert_eq!(back(1_023, &[], &[pop], &[5]), Ok(vec![5]));
    for beneath in [1_025, usize::MAX] {
        assert_eq!(back(beneath, &[], &[], &[]), Err(Refusal::Stack));
        assert_eq!(back(beneath, &[0], &[pop], &[64]), Err(Refusal::Key));
    }
}

/// A walk over items ends where it began, and none begins that replay refuses.
#[test]
fn retracing_over_items() {
    let question = Question::new(&[0, 1], &[]).with_beneath(1_021);
    let walk = retrace(&question, &[Step::PushImm(33), Step::Swap(2), Step::Pop]).expect("allowed");
    assert_eq!((walk.window(), walk.start()), (&[0, 33][..], &[0, 1][..]));
    let windows: Vec<_> = walk.map(|back| back.window).collect();
    assert_eq!(windows, [vec![1, 0, 33], vec![33, 0, 1], vec![0, 1]]);
    assert_eq!(retrace(&question.with_beneath(1_022), &[Step::PushImm(33)]).err(), Some(Refusal::Step(0)));
    assert_eq!(retrace(&question.with_beneath(1_023), &[]).err(), Some(Refusal::Stack));
}

/// Under the typed interface: the result list of stepping back, and what it holds after.
#[test]
fn lists_of_stepping_back() {
    let desk = Tables::desk();
    for (places, popped, beneath, refusal) in
        [(20, 1, 1_023, 12), (20, 1, 0, 7), (21, 1, 0, 11), (21, 0, 0, 0), (21, 0, 1_022, 0), (21, 0, 1_023, 12)]
    {
        let mut result = [99; 22];
        let keys = &[0][..popped];
        let rewound = raw::rewind(&[3, 4], &[513], keys, 16, 17, 21, beneath, desk.kinds(), &mut result[..places]);
        assert_eq!(rewound.refusal, refusal);
        let (length, start) = if refusal == 0 { (2, [4, 3, 99]) } else { (0, [99; 3]) };
        assert_eq!((rewound.length, &result[..3]), (length, &start[..]));
        assert!(result[3..].iter().all(|&key| key == 99));
    }
}

/// As many steps as a call takes, there and back.
#[test]
fn the_longest_walk() {
    let question = Question::new(&[3, 4], &[]);
    let steps: Vec<Step> = [Step::PushImm(33), Step::Pop, Step::Dup(1), Step::Pop].repeat(16_384);
    let replayed = replay(&question, &steps).expect("allowed");
    assert_eq!((&replayed.window[..], replayed.highest), (&[3, 4][..], 3));
    assert_eq!(replayed.popped, [33, 4].repeat(16_384));
    let walk = retrace(&question, &steps).expect("allowed");
    assert_eq!(walk.len(), 65_536);
    let last = walk.last().expect("a step");
    assert_eq!((last.index, last.step, &last.window[..]), (0, Step::PushImm(33), &[3, 4][..]));
    let mut wrong = replayed.popped;
    wrong[1] = 3;
    assert_eq!(walk_back(&question, &[3, 4], &steps, &wrong).err(), Some(Refusal::NoStart));
}
