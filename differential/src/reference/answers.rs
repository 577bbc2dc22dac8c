//! Answers of the reference, put together as `solve_optimal_normalize_plan` does, without its interning, its cache and
//! its greedy candidate.

use super::{
    BoundedAStarProblem, Cost, CostModel, I256, Immediate, KeyIds, KeyInfo, NormalizeWindowProblem, PackedState,
    SearchCfg, SearchScratch, SmallVec, StackItem, StackifyContext, Step, StepList, SymStack, ValueId,
    best_normalize_incumbent, build_delete_tail_under_prefix_upper_bound, build_dup_and_star_swap_upper_bound,
    build_star_swap_plan, compute_goal_counts, cost_for_steps, cost_push0_kid, estimate_flush_rebuild_cost,
    find_push0_kid, key_mask_from_counts, minimal_dup_gas, reconstruct_steps, run_bounded_astar,
    shims::{DataFlowGraph, Function},
};
use crate::case::{Answer, CEILING, Case, ENDING, EXPANSIONS, FOUND, ORIGIN, PLAN_COST, STEP_COUNT};
use std::cell::Cell;

/// The price list as a cost model.
struct Prices {
    pop: Cost,
    dup: [Cost; 16],
    swap: [Cost; 17],
    key: [Cost; 64],
}

impl Prices {
    fn new(prices: &[u32; 196]) -> Self {
        let pair = |i: usize| Cost { gas: prices[2 * i], bytes: prices[2 * i + 1] };
        Self {
            pop: pair(0),
            dup: std::array::from_fn(|i| pair(1 + i)),
            swap: std::array::from_fn(|i| pair(17 + i)),
            key: std::array::from_fn(|i| pair(34 + i)),
        }
    }
}

impl CostModel for Prices {
    #[inline]
    fn cost_pop(&self) -> Cost {
        self.pop
    }
    #[inline]
    fn cost_dup(&self, pos: u8) -> Cost {
        self.dup[pos as usize]
    }
    #[inline]
    fn cost_swap(&self, depth: u8) -> Cost {
        self.swap[depth as usize]
    }
    #[inline]
    fn cost_push_imm(&self, imm: I256) -> Cost {
        self.key[imm.key as usize]
    }
    #[inline]
    fn cost_load(&self, value: ValueId) -> Cost {
        self.key[value.0 as usize]
    }
}

/// What the Rust's caller has before it asks: the windows, the stack and the key infos.
pub struct Prepared<'a> {
    start_keys: &'a [u8],
    goal_keys: &'a [u8],
    cfg: SearchCfg,
    max_states: [usize; 2],
    kinds: &'a [u8; 64],
    key_infos: Vec<KeyInfo>,
    prices: Prices,
    stack: SymStack,
    desired: Vec<ValueId>,
}

impl<'a> Prepared<'a> {
    /// Of a question that no number refuses. The Rust knows nothing of items beneath: it gets the narrower window.
    pub fn new(question: &'a Case) -> Self {
        let kinds: &[u8; 64] = question.tables.kinds.as_slice().try_into().expect("64 kinds");
        let prices: &[u32; 196] = question.tables.prices.as_slice().try_into().expect("196 prices");
        let limits = &question.limits;
        let key_infos = (0..64u8)
            .map(|key| {
                let vid = ValueId(key);
                match kinds[key as usize] {
                    0 => KeyInfo::Val { vid },
                    kind => {
                        let canon = I256 { key, zero: kind == 2 };
                        KeyInfo::Imm { canon, rep_vid: vid, rep_imm: Immediate(canon) }
                    }
                }
            })
            .collect();
        Self {
            start_keys: &question.start,
            goal_keys: &question.goal,
            cfg: SearchCfg {
                dup_max: limits.dup_max,
                swap_max: limits.swap_max,
                max_len: limits.window(),
                max_expansions: limits.max_expansions,
            },
            max_states: [limits.states_without, limits.states_with],
            kinds,
            key_infos,
            prices: Prices::new(prices),
            stack: SymStack {
                items: question.start.iter().map(|&key| StackItem::Value(ValueId(key))).collect(),
                func_ret_index: None,
            },
            desired: question.goal.iter().map(|&key| ValueId(key)).collect(),
        }
    }

    fn flush_cost(&self) -> Cost {
        let context = StackifyContext { func: Function { dfg: DataFlowGraph { kinds: self.kinds } } };
        estimate_flush_rebuild_cost(&context, &self.stack, &self.desired, &self.prices)
    }

    fn delete_tail(&self) -> Option<StepList> {
        build_delete_tail_under_prefix_upper_bound(self.start_keys, self.goal_keys, self.cfg)
    }

    fn dup_and_star(&self, goal_counts: &[u8; 64]) -> Option<StepList> {
        build_dup_and_star_swap_upper_bound(self.start_keys, self.goal_keys, goal_counts, &self.key_infos, self.cfg)
    }

    /// Which builder's plan is in hand before the search, by the Rust's own comparison: 0, 1 or 2.
    fn builder_in_hand(&self, goal_counts: &[u8; 64]) -> u32 {
        let incumbent = |bound, plan| best_normalize_incumbent(bound, [plan], &self.key_infos, &self.prices);
        let (bound, first) = incumbent(self.flush_cost(), self.delete_tail());
        let (_, second) = incumbent(bound, self.dup_and_star(goal_counts));
        if second.is_some() { 2 } else { first.is_some().into() }
    }
}

/// What a run of the search gives.
struct Run {
    goal: Option<(PackedState, Cost)>,
    ending: u32,
    expansions: usize,
}

/// A plan with its ceiling; `found_by_search` tells its origin.
struct Solved {
    plan: Option<(StepList, Cost)>,
    found_by_search: bool,
    ending: u32,
    expansions: usize,
}

/// Runs the reference; keeps the search's scratch from one question to the next, as the Rust does.
#[derive(Default)]
pub struct Reference {
    scratch: SearchScratch<PackedState>,
}

impl Reference {
    /// The answer to a question that no number refuses.
    pub fn plan(&mut self, question: &Case) -> Answer {
        let prepared = Prepared::new(question);
        let solved = self.solve(&prepared, Self::watched_run);
        let mut answer = Answer::default();
        answer.fields[ENDING] = solved.ending.into();
        answer.fields[EXPANSIONS] = solved.expansions as u64;
        let Some((steps, ceiling)) = solved.plan else {
            return answer;
        };
        let cost = cost_for_steps(&steps, &prepared.key_infos, &prepared.prices);
        let origin = match (solved.ending, solved.found_by_search) {
            (0, _) => 0,
            (_, true) => 3,
            _ => prepared.builder_in_hand(&compute_goal_counts(prepared.goal_keys)),
        };
        answer.fields[FOUND] = 1;
        answer.fields[STEP_COUNT] = steps.len() as u64;
        answer.fields[PLAN_COST..PLAN_COST + 2].copy_from_slice(&[cost.gas.into(), cost.bytes.into()]);
        answer.fields[CEILING..CEILING + 2].copy_from_slice(&[ceiling.gas.into(), ceiling.bytes.into()]);
        answer.fields[ORIGIN] = origin.into();
        answer.plan = codes(&steps);
        answer
    }

    /// The same work with nothing counted: what `bench` times. Returns the step count and the plan's gas.
    pub fn plan_plain(&mut self, prepared: &Prepared<'_>) -> (usize, u32) {
        let solved = self.solve(prepared, Self::plain_run);
        match solved.plan {
            None => (0, 0),
            Some((steps, _)) => (steps.len(), cost_for_steps(&steps, &prepared.key_infos, &prepared.prices).gas),
        }
    }

    fn solve(
        &mut self,
        prepared: &Prepared<'_>,
        run: impl FnOnce(&mut Self, &NormalizeWindowProblem<'_, Prices>, PackedState, Cost, bool) -> Run,
    ) -> Solved {
        let Prepared { start_keys, goal_keys, cfg, ref key_infos, prices: ref cost, .. } = *prepared;
        let start = PackedState::from_ids(start_keys).expect("a window");
        let goal = PackedState::from_ids(goal_keys).expect("a window");
        if start == goal {
            let plan = Some((StepList::new(), Cost::default()));
            return Solved { plan, found_by_search: false, ending: 0, expansions: 0 };
        }

        let (materializable_imm, materializable_val) = materializable(goal_keys, prepared.kinds);
        let goal_counts = compute_goal_counts(goal_keys);
        let goal_mask = key_mask_from_counts(&goal_counts);
        let (upper_bound, incumbent) = best_normalize_incumbent(
            prepared.flush_cost(),
            [prepared.delete_tail(), prepared.dup_and_star(&goal_counts)],
            key_infos,
            cost,
        );
        let push0_kid = find_push0_kid(key_infos, &materializable_imm);
        let problem = NormalizeWindowProblem {
            goal,
            cfg,
            key_infos,
            materializable_imm: &materializable_imm,
            materializable_val: &materializable_val,
            goal_counts,
            goal_mask,
            suffix_ctx_keys: &[],
            ctx_present: 0,
            pop_gas: cost.cost_pop().gas,
            dup_gas_lb: minimal_dup_gas(cost, cfg.dup_max),
            cost,
            push0_kid,
            push0_cost: cost_push0_kid(push0_kid, key_infos, cost),
            dup_goal_keys_only: false,
            max_states: prepared.max_states,
        };
        let run = if cfg.max_expansions == 0 {
            Run { goal: None, ending: 1, expansions: 0 }
        } else {
            run(self, &problem, start, upper_bound, incumbent.is_some())
        };
        let (plan, found_by_search) = match run.goal {
            Some((goal, goal_cost)) => {
                let steps = reconstruct_steps(start, goal, &self.scratch.nodes).expect("parents lead to the start");
                (Some((steps, goal_cost)), true)
            }
            None => (incumbent.map(|steps| (steps, upper_bound)), false),
        };
        Solved { plan, found_by_search, ending: run.ending, expansions: run.expansions }
    }

    fn plain_run(
        &mut self,
        problem: &NormalizeWindowProblem<'_, Prices>,
        start: PackedState,
        upper_bound: Cost,
        in_hand: bool,
    ) -> Run {
        let limit = problem.cfg.max_expansions;
        let goal = run_bounded_astar(problem, &mut self.scratch, start, upper_bound, in_hand, limit, None);
        Run { goal, ending: 0, expansions: 0 }
    }

    fn watched_run(
        &mut self,
        problem: &NormalizeWindowProblem<'_, Prices>,
        start: PackedState,
        upper_bound: Cost,
        in_hand: bool,
    ) -> Run {
        let limit = problem.cfg.max_expansions;
        let watched = Watched { problem, expansions: Cell::new(0), last: Cell::new(Event::Expanded) };
        let goal = run_bounded_astar(&watched, &mut self.scratch, start, upper_bound, in_hand, limit, None);
        let ending = match watched.last.get() {
            // A state that is no goal was drawn, and the run left before it asked for the state allowance.
            Event::Drawn => 3,
            Event::Measured(allowed) if self.scratch.nodes.len() > allowed || self.scratch.open.len() > allowed => 4,
            Event::Measured(_) => 5,
            Event::GoalDrawn | Event::Expanded => {
                assert!(self.scratch.open.is_empty(), "a run that was not left has drained its open list");
                2
            }
        };
        Run { goal, ending, expansions: watched.expansions.get() }
    }
}

/// The last thing that the run asked of its problem.
#[derive(Clone, Copy)]
enum Event {
    /// Whether a drawn state is the goal, and it is not.
    Drawn,
    /// Whether a drawn state is the goal, and it is.
    GoalDrawn,
    /// The state allowance.
    Measured(usize),
    /// The successors.
    Expanded,
}

/// The Rust's own problem, watched: counts expansions and remembers the last event.
struct Watched<'a, P> {
    problem: &'a P,
    expansions: Cell<usize>,
    last: Cell<Event>,
}

impl<P: BoundedAStarProblem> BoundedAStarProblem for Watched<'_, P> {
    type State = P::State;

    fn is_goal(&self, state: P::State) -> bool {
        let goal = self.problem.is_goal(state);
        self.last.set(if goal { Event::GoalDrawn } else { Event::Drawn });
        goal
    }

    fn heuristic(&self, state: P::State) -> Cost {
        self.problem.heuristic(state)
    }

    fn max_states(&self, have_incumbent: bool) -> usize {
        let allowed = self.problem.max_states(have_incumbent);
        self.last.set(Event::Measured(allowed));
        allowed
    }

    fn expand_successors<F>(&self, state: P::State, g: Cost, prev_step: Option<Step>, emit: &mut F)
    where
        F: FnMut(P::State, Cost, Step),
    {
        self.expansions.set(self.expansions.get() + 1);
        self.last.set(Event::Expanded);
        self.problem.expand_successors(state, g, prev_step, emit);
    }
}

/// Distinct goal keys in goal order: immediates and values.
fn materializable(goal_keys: &[u8], kinds: &[u8; 64]) -> (KeyIds, KeyIds) {
    let (mut imm, mut val): (KeyIds, KeyIds) = (SmallVec::new(), SmallVec::new());
    let mut seen = 0u64;
    for &key in goal_keys {
        if seen & (1 << key) == 0 {
            seen |= 1 << key;
            if kinds[key as usize] != 0 { imm.push(key) } else { val.push(key) }
        }
    }
    (imm, val)
}

fn codes(steps: &[Step]) -> Vec<u16> {
    steps
        .iter()
        .map(|step| match *step {
            Step::Pop => 0,
            Step::Dup(pos) => 256 + u16::from(pos),
            Step::Swap(depth) => 512 + u16::from(depth),
            Step::PushImm(kid) => 768 + u16::from(kid),
            Step::LoadVal(kid) => 1024 + u16::from(kid),
        })
        .collect()
}

/// The Rust's packing, none where it has none.
pub fn pack(ids: &[u8]) -> Option<u128> {
    PackedState::from_ids(ids).map(|state| state.0)
}

/// The Rust's star-swap, none where it has none.
pub fn star_swap(start: &[u8], goal: &[u8], swap_max: usize) -> Option<Vec<u16>> {
    build_star_swap_plan(&mut start.to_vec(), goal, swap_max).map(|steps| codes(&steps))
}

/// The Rust's delete-tail, none where it has none.
pub fn delete_tail(start: &[u8], goal: &[u8], swap_max: usize) -> Option<Vec<u16>> {
    let cfg = SearchCfg { dup_max: 0, swap_max, max_len: PackedState::MAX_LEN, max_expansions: 0 };
    build_delete_tail_under_prefix_upper_bound(start, goal, cfg).map(|steps| codes(&steps))
}
