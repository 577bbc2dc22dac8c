//! One case asked of both sides, and runs of many.

use crate::{
    case::{Answer, Call, Case, STACK_LEN},
    draw::Random,
    expect,
    faces::FACES,
    port::{Outcome, Port},
    record::Record,
    reference::Reference,
    tally::Tally,
};
use std::{
    sync::atomic::{AtomicU64, Ordering},
    time::Instant,
};

/// What one thread needs to ask both sides.
#[derive(Default)]
pub struct Sides {
    reference: Reference,
    port: Port,
    /// The item that is asked.
    pub index: u64,
    pub tally: Tally,
}

impl Sides {
    /// Begins an item; what it finds does not depend on what was asked before.
    fn begin(&mut self, index: u64) {
        self.index = index;
        self.port.forget();
    }

    /// Asks both sides, the port by each of its faces, and compares every field, every step and the lists.
    /// Gives what the port answered by its first face.
    pub fn compare(&mut self, case: &Case, random: &mut Random) -> Outcome {
        let expected = expect::answer(case, &mut self.reference);
        self.tally.count(case, &expected);
        self.count_narrowed(case, &expected);
        self.port.lend(case, random);
        let outcomes = FACES.each_ref().map(|face| {
            let outcome = self.port.ask(face, case, expected.refusal != 0);
            if !as_expected(&outcome, &expected) {
                self.tally.differ(self.index, &[case], || difference(case, face.name, &outcome, &expected));
            }
            outcome
        });
        outcomes.into_iter().next().expect("the port has a face")
    }

    /// Counts a call whose window the items beneath make narrower, past 12 and the planner's 6: whether it is accepted,
    /// and whether they change its answer.
    fn count_narrowed(&mut self, case: &Case, expected: &Answer) {
        let limits = case.limits;
        let stays = !case.call.takes_beneath() || limits.window() == limits.max_len;
        if stays || matches!(expected.refusal, 6 | 12) {
            return;
        }
        let moved = expect::answer(&case.with_none_beneath(), &mut self.reference) != *expected;
        self.tally.count_narrowed(case.call, expected.refusal == 0, moved);
    }

    /// Asks both sides a case. Where it has items beneath and its start and goal fit the narrower window, it is asked again
    /// with that window as `max_len` and nothing beneath, and the port must answer the same: every field, every step,
    /// window and popped key.
    pub fn compare_deep(&mut self, case: &Case, random: &mut Random) -> Answer {
        let answer = self.compare(case, random).answer;
        if !fits_narrowed(case) {
            return answer;
        }
        let narrow = Case { limits: case.limits.narrowed(), ..case.clone() };
        let other = self.compare(&narrow, random).answer;
        if other != answer {
            let texts = [&answer, &other].map(|answer| answer.text(case.call));
            let text = || format!("port: {}\n  with the narrower window as max_len: {}", texts[0], texts[1]);
            self.tally.differ(self.index, &[case, &narrow], text);
        }
        answer
    }

    /// Asks the port the question of a record; what differs from the record's answer, in words.
    pub fn differs_from(&mut self, record: &Record, random: &mut Random) -> Option<String> {
        let Record { case, answer: expected, fields, has_popped } = record;
        self.port.forget();
        self.port.lend(case, random);
        FACES.iter().find_map(|face| {
            let mut outcome = self.port.ask(face, case, expected.refusal != 0);
            // What the record does not have is not compared.
            outcome.answer.fields[*fields..].copy_from_slice(&expected.fields[*fields..]);
            if !has_popped {
                outcome.answer.popped.clone_from(&expected.popped);
            }
            (!as_expected(&outcome, expected)).then(|| difference(case, face.name, &outcome, expected))
        })
    }
}

/// Whether a case has items beneath, no more than a stack has, and a start and a goal that fit the narrower window.
fn fits_narrowed(case: &Case) -> bool {
    let limits = case.limits;
    let goal = if matches!(case.call, Call::Plan | Call::Mark) { case.goal.len() } else { 0 };
    let fits = case.start.len().max(goal) <= limits.window();
    (1..=STACK_LEN).contains(&limits.beneath) && limits.max_len <= 21 && fits
}

fn as_expected(outcome: &Outcome, expected: &Answer) -> bool {
    outcome.answer == *expected && outcome.faults.is_empty()
}

/// Both answers in words.
fn difference(case: &Case, face: &str, outcome: &Outcome, expected: &Answer) -> String {
    let lists = if outcome.faults.is_empty() { "as expected".into() } else { outcome.faults.join("; ") };
    let (port, reference) = (outcome.answer.text(case.call), expected.text(case.call));
    format!("port ({face}): {port}\n  expected: {reference}\n  lists: {lists}")
}

/// Asks a case alone, with several kinds of garbage in the lists: what differs first, in words.
pub fn differs_alone(case: &Case, sides: &mut Sides) -> Option<String> {
    const TIMES: u64 = 8;
    let expected = expect::answer(case, &mut sides.reference);
    for time in 0..TIMES {
        let mut random = Random::new(0, time);
        sides.port.forget();
        sides.port.lend(case, &mut random);
        for face in &FACES {
            // The second call finds what the first left.
            for _ in 0..2 {
                let outcome = sides.port.ask(face, case, expected.refusal != 0);
                if !as_expected(&outcome, &expected) {
                    return Some(difference(case, face.name, &outcome, &expected));
                }
            }
        }
    }
    None
}

/// Prints what both sides answer to a case; true if they agree.
pub fn ask(case: &Case) -> bool {
    let mut sides = Sides::default();
    let expected = expect::answer(case, &mut sides.reference);
    println!("expected: {}", expected.text(case.call));
    sides.port.lend(case, &mut Random::new(0, 0));
    for face in &FACES {
        let outcome = sides.port.ask(face, case, expected.refusal != 0);
        println!("port ({}): {}", face.name, outcome.answer.text(case.call));
        outcome.faults.iter().for_each(|fault| println!("  {fault}"));
    }
    match differs_alone(case, &mut sides) {
        None => println!("they agree"),
        Some(text) => {
            println!("THEY DIFFER\n  {text}");
            return false;
        }
    }
    true
}

/// What must occur in a run: without it the run shows nothing.
#[derive(Clone, Copy)]
pub enum Need {
    /// The call answers this number, 0 for accepted.
    Answer(Call, u32),
    /// The call is accepted with a window that the items beneath make narrower.
    Narrowed(Call),
    /// The items beneath change the call's answer, past 12 and the planner's 6.
    Moved(Call),
}

impl Need {
    /// In words, where it does not occur.
    fn missing(self, tally: &Tally) -> Option<String> {
        let (call, count, what) = match self {
            Self::Answer(call, number) => (call, tally.answered(call, number), format!("answers {number}")),
            Self::Narrowed(call) => (call, tally.narrowed(call), "accepts a narrowed window".into()),
            Self::Moved(call) => (call, tally.moved(call), "answers otherwise for items beneath".into()),
        };
        (count == 0).then(|| format!("{} never {what}", call.name()))
    }
}

/// Asks all that an item has.
type Item = dyn Fn(&mut Sides, u64) + Sync;

/// A run: items by themselves, so that they can be split over threads and repeated one by one.
pub struct Run {
    pub name: &'static str,
    pub seed: u64,
    /// The items are 0, `step`, twice `step` and so on, below `end`.
    pub step: u64,
    pub end: u64,
    needs: &'static [Need],
    each: Box<Item>,
}

impl Run {
    /// A run over the items below `end`. Each is drawn by the random numbers of the seed and the item.
    pub fn new(name: &'static str, seed: u64, end: u64, each: impl Fn(&mut Sides, Random) + Sync + 'static) -> Self {
        let each = move |sides: &mut Sides, index| each(sides, Random::new(seed, index));
        Self { name, seed, step: 1, end, needs: &[], each: Box::new(each) }
    }

    /// The run fails where one of these does not occur.
    pub fn needing(self, needs: &'static [Need]) -> Self {
        Self { needs, ..self }
    }

    /// What had to occur and did not, in words.
    pub fn missing(&self, tally: &Tally) -> Vec<String> {
        self.needs.iter().filter_map(|need| need.missing(tally)).collect()
    }

    /// Every so many items only.
    pub fn every(self, step: u64) -> Self {
        Self { step, ..self }
    }

    /// One item alone.
    pub fn only(&self, index: u64) -> Tally {
        let mut sides = Sides::default();
        self.item(&mut sides, index);
        sides.tally
    }

    fn item(&self, sides: &mut Sides, index: u64) {
        sides.begin(index);
        (self.each)(sides, index);
    }

    /// All items, over so many threads; which thread has which item changes nothing.
    pub fn over(&self, threads: usize) -> Tally {
        const BLOCK: u64 = 64;
        let (next, count) = (AtomicU64::new(0), self.end.div_ceil(self.step));
        let work = || {
            let mut sides = Sides::default();
            loop {
                let from = next.fetch_add(BLOCK, Ordering::Relaxed);
                if from >= count {
                    return sides.tally;
                }
                (from..count.min(from + BLOCK)).for_each(|item| self.item(&mut sides, item * self.step));
            }
        };
        let mut total = Tally::default();
        std::thread::scope(|scope| {
            let workers: Vec<_> = (0..threads).map(|_| scope.spawn(work)).collect();
            for worker in workers {
                total += worker.join().expect("a thread ends");
            }
        });
        total
    }

    /// All items, with the counts printed, and each of the first differences repeated by `again` and its item. Gives
    /// what did not occur too.
    pub fn report(&self, threads: usize, again: &str) -> (Tally, Vec<String>) {
        let begun = Instant::now();
        let tally = self.over(threads);
        println!("{} ({:.1} s on {threads} threads)\n{tally}", self.name, begun.elapsed().as_secs_f64());
        tally.print_differences(self.seed, &format!("{again} only={}:", self.name));
        let missing = self.missing(&tally);
        missing.iter().for_each(|what| println!("missing        {what}"));
        (tally, missing)
    }
}
