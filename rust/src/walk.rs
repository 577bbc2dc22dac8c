//! The way back through an answer, a step at a time.

use crate::{Question, Refusal, Step, codes, replay_codes, rewind_codes};
use std::iter::FusedIterator;

/// A step taken back.
#[derive(Clone, Debug, PartialEq, Eq)]
#[non_exhaustive]
pub struct StepBack {
    /// The step's place among the steps, 0 for the first.
    pub index: usize,
    pub step: Step,
    /// The key that is put back, if the step is a Pop.
    pub popped: Option<u8>,
    /// The window before the step.
    pub window: Vec<u8>,
}

/// The way back from an end window, from the last step to the first; the window before the first is the start.
#[derive(Clone, Debug)]
pub struct WalkBack<'a> {
    question: Question<'a>,
    start: Vec<u8>,
    window: Vec<u8>,
    /// The steps to take back, and the keys that they popped.
    codes: Vec<u16>,
    popped: Vec<u8>,
}

impl WalkBack<'_> {
    /// Where the way leads: the start.
    pub fn start(&self) -> &[u8] {
        &self.start
    }

    /// The window where the walk stands: the end, then the window before the step taken back last.
    pub fn window(&self) -> &[u8] {
        &self.window
    }
}

/// Each step is taken back by a proved call of its own.
impl Iterator for WalkBack<'_> {
    type Item = StepBack;

    fn next(&mut self) -> Option<StepBack> {
        const WHOLE: &str = "the whole way back was accepted";
        let code = self.codes.pop()?;
        let step = Step::from_code(code).expect(WHOLE);
        let popped = if step == Step::Pop { self.popped.pop() } else { None };
        self.window = rewind_codes(&self.question, &self.window, &[code], popped.as_slice()).expect(WHOLE);
        Some(StepBack { index: self.codes.len(), step, popped, window: self.window.clone() })
    }

    fn size_hint(&self) -> (usize, Option<usize>) {
        (self.codes.len(), Some(self.codes.len()))
    }
}

impl ExactSizeIterator for WalkBack<'_> {}
impl FusedIterator for WalkBack<'_> {}

/// Walks back from an end window through steps that popped these keys, the first popped first. A way that leads to no
/// start is refused here, as [`rewind`](crate::rewind) refuses it. Takes the question's reaches, the items beneath and
/// the kinds.
pub fn walk_back<'a>(
    question: &Question<'a>,
    end: &[u8],
    steps: &[Step],
    popped: &[u8],
) -> Result<WalkBack<'a>, Refusal> {
    walk_back_codes(question, end, &codes(steps), popped)
}

/// Walks back through step codes, whoever wrote them.
pub fn walk_back_codes<'a>(
    question: &Question<'a>,
    end: &[u8],
    codes: &[u16],
    popped: &[u8],
) -> Result<WalkBack<'a>, Refusal> {
    let start = rewind_codes(question, end, codes, popped)?;
    Ok(WalkBack { question: *question, start, window: end.to_vec(), codes: codes.to_vec(), popped: popped.to_vec() })
}

/// Replays an answer from the question's start, and walks back from where it ends. Refused as
/// [`replay`](crate::replay) refuses it.
///
/// ```
/// use nimskerf::{Question, Step, retrace};
///
/// let question = Question::new(&[0, 1, 2], &[0]);
/// let walk = retrace(&question, &[Step::Swap(2), Step::Pop, Step::Pop])?;
/// assert_eq!(walk.window(), [0]);
/// let mut lines = Vec::new();
/// for back in walk {
///     lines.push(format!("before step {}, {}: {:?}", back.index, back.step, back.window));
/// }
/// assert_eq!(
///     lines,
///     ["before step 2, pop: [1, 0]", "before step 1, pop: [2, 1, 0]", "before step 0, swap 2: [0, 1, 2]"]
/// );
/// # Ok::<(), nimskerf::Refusal>(())
/// ```
pub fn retrace<'a>(question: &Question<'a>, steps: &[Step]) -> Result<WalkBack<'a>, Refusal> {
    retrace_codes(question, &codes(steps))
}

/// Replays step codes, whoever wrote them, and walks back from where they end.
pub fn retrace_codes<'a>(question: &Question<'a>, codes: &[u16]) -> Result<WalkBack<'a>, Refusal> {
    let replayed = replay_codes(question, codes)?;
    walk_back_codes(question, &replayed.window, codes, &replayed.popped)
}
