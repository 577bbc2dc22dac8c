//! A record of the vectors' file: a case and its answer as tagged fields. docs/vectors-format.md describes the bytes.
//!
//! A new field of a question or an answer gets the next tag, or a further entry at the end of `LIMITS`, `LENT`,
//! `CEILING` or `ANSWER`; a record that lacks it has its default, so records written before stay readable.

use crate::case::{Answer, Call, Case, Lengths, Limits, Tables, limits};
use std::sync::Arc;

/// A field's tag and the bytes of its entries. The fields of a record stand in this order.
#[derive(Clone, Copy, PartialEq, Eq)]
struct Tag(u8, u8);

const START: Tag = Tag(1, 1);
const GOAL: Tag = Tag(2, 1);
const LIMITS: Tag = Tag(3, 4);
const TABLES: Tag = Tag(4, 2);
const PASSED: Tag = Tag(5, 2);
const LENT: Tag = Tag(6, 4);
const CEILING: Tag = Tag(7, 4);
const STEPS: Tag = Tag(8, 2);
const ANSWER: Tag = Tag(9, 4);
const PLAN: Tag = Tag(10, 2);
const WINDOW: Tag = Tag(11, 1);
const POPPED: Tag = Tag(12, 1);
const ROOM: Tag = Tag(13, 4);
const BENEATH: Tag = Tag(14, 4);
const TAGS: [Tag; 14] =
    [START, GOAL, LIMITS, TABLES, PASSED, LENT, CEILING, STEPS, ANSWER, PLAN, WINDOW, POPPED, ROOM, BENEATH];

/// A number of 64 bits is two entries, its low 32 bits first.
const LOW: usize = 0xffff_ffff;

/// Bytes before a record's fields, and before a field's entries.
const HEAD: usize = 8;
const FIELD_HEAD: usize = 4;

/// A case and what must be answered and written.
#[derive(Clone, Debug, PartialEq, Eq)]
pub struct Record {
    pub case: Case,
    pub answer: Answer,
    /// How many of the answer's fields the record has: a record written before a field was added has fewer.
    pub fields: usize,
    /// Whether the record has the keys that a replay must write as popped: one written before they came has not.
    pub has_popped: bool,
}

impl Record {
    pub fn new(case: Case, answer: Answer) -> Self {
        let (fields, has_popped) = (case.call.fields().len(), case.call == Call::Replay);
        Self { case, answer, fields, has_popped }
    }
}

/// The price lists and kinds lists that records name by index, all of one length each.
#[derive(Default)]
pub struct Pool {
    pub prices: Vec<Vec<u32>>,
    pub kinds: Vec<Vec<u8>>,
}

pub const PRICES: usize = 196;
pub const KINDS: usize = 64;

/// The index of the first list that begins so; a new list is added where there is none.
fn place<T: Copy + Default + PartialEq>(lists: &mut Vec<Vec<T>>, wanted: &[T], length: usize) -> usize {
    assert!(wanted.len() <= length, "a list of the file has at most {length} entries");
    lists.iter().position(|list| list.starts_with(wanted)).unwrap_or_else(|| {
        let mut list = wanted.to_vec();
        list.resize(length, T::default());
        lists.push(list);
        lists.len() - 1
    })
}

/// Collects the fields of a record.
struct Fields {
    bytes: Vec<u8>,
    count: u16,
}

impl Fields {
    /// A field, unless it has no entries.
    fn put<T: Copy + Into<u64>>(&mut self, tag: Tag, entries: &[T]) {
        if !entries.is_empty() {
            self.put_all(tag, entries);
        }
    }

    /// A field, also one without entries.
    fn put_all<T: Copy + Into<u64>>(&mut self, Tag(tag, width): Tag, entries: &[T]) {
        self.count += 1;
        self.bytes.extend([tag, width]);
        self.bytes.extend(u16::try_from(entries.len()).expect("a count of 16 bits").to_le_bytes());
        for &entry in entries {
            let bytes = entry.into().to_le_bytes();
            let (kept, rest) = bytes.split_at(width.into());
            assert!(rest.iter().all(|&byte| byte == 0), "an entry of {width} bytes");
            self.bytes.extend(kept);
        }
    }

    /// A field whose missing entries are 0.
    fn put_numbers(&mut self, tag: Tag, numbers: &[usize]) {
        let used = numbers.iter().rposition(|&number| number != 0).map_or(0, |last| last + 1);
        let numbers: Vec<u64> = numbers[..used].iter().map(|&number| number as u64).collect();
        self.put(tag, &numbers);
    }
}

impl Record {
    /// The record's bytes; its tables are put into the pool.
    pub fn bytes(&self, pool: &mut Pool) -> Vec<u8> {
        let Self { case, answer, fields: answered, .. } = self;
        let Tables { kinds, prices } = &*case.tables;
        let mut fields = Fields { bytes: Vec::new(), count: 0 };
        fields.put(START, &case.start);
        fields.put(GOAL, &case.goal);
        fields.put_numbers(LIMITS, &case.limits.numbers());
        fields.put_numbers(TABLES, &[place(&mut pool.prices, prices, PRICES), place(&mut pool.kinds, kinds, KINDS)]);
        let passed = [prices.len() as u64, kinds.len() as u64];
        fields.put(PASSED, if passed == [PRICES as u64, KINDS as u64] { &[] } else { &passed });
        let [lent @ .., _] = case.lent.numbers();
        fields.put_numbers(LENT, &lent);
        fields.put_numbers(CEILING, &case.ceiling.map(|part| part as usize));
        fields.put(STEPS, &case.steps);
        fields.put(ANSWER, &[&[u64::from(answer.refusal)], &answer.fields[..*answered]].concat());
        fields.put(PLAN, &answer.plan);
        fields.put(WINDOW, &answer.window);
        self.put_popped(&mut fields);
        let beneath = case.limits.beneath;
        fields.put_numbers(BENEATH, &[beneath & LOW, beneath >> 32]);

        let size = u32::try_from(HEAD + fields.bytes.len()).expect("a size of 32 bits");
        let mut bytes = size.to_le_bytes().to_vec();
        bytes.extend((case.call as u16).to_le_bytes());
        bytes.extend(fields.count.to_le_bytes());
        bytes.extend(fields.bytes);
        bytes
    }

    /// The popped keys that a replay must write, with the places lent for them, or that a stepping back is given.
    fn put_popped(&self, fields: &mut Fields) {
        let Self { case, answer, .. } = self;
        match case.call {
            Call::Replay if self.has_popped => {
                fields.put_all(POPPED, &answer.popped);
                if case.lent.popped != case.steps.len() {
                    fields.put(ROOM, &[case.lent.popped as u64]);
                }
            }
            Call::Rewind => fields.put(POPPED, &case.popped),
            _ => {}
        }
    }

    /// Reads a whole record, or says what is wrong with it.
    pub fn read(bytes: &[u8], pool: &Pool) -> Result<Self, String> {
        let (call, count) = (number(bytes, 4, 2), number(bytes, 6, 2));
        let call = *Call::ALL.get(call).ok_or_else(|| format!("call {call} is not known"))?;
        let fields = Read::new(bytes, count)?;
        let tables = fields.numbers::<2>(TABLES);
        let prices = pool.prices.get(tables[0]).ok_or("there is no such price list")?;
        let kinds = pool.kinds.get(tables[1]).ok_or("there is no such kinds list")?;
        let (passed_prices, passed_kinds) = match fields.entries(PASSED)[..] {
            [prices, kinds, ..] => (prices, kinds),
            _ => (PRICES, KINDS),
        };
        let tables = Tables {
            kinds: kinds.get(..passed_kinds).ok_or("more kinds are passed than there are")?.to_vec(),
            prices: prices.get(..passed_prices).ok_or("more prices are passed than there are")?.to_vec(),
        };
        let case = fields.case(call, tables);
        let mut answer = Answer { plan: fields.codes(PLAN), window: fields.bytes(WINDOW), ..Answer::default() };
        if call == Call::Replay {
            answer.popped = fields.bytes(POPPED);
        }
        let numbers = fields.entries(ANSWER);
        let [refusal, answered @ ..] = numbers.as_slice() else {
            return Err("it has no answer".into());
        };
        answer.refusal = *refusal as u32;
        if answered.len() > call.fields().len() {
            return Err(format!(
                "it has {} fields of an answer, and {} are known",
                answered.len(),
                call.fields().len()
            ));
        }
        answer.fields.iter_mut().zip(answered).for_each(|(field, number)| *field = *number as u64);
        let has_popped = call == Call::Replay && fields.has(POPPED);
        Ok(Self { case, answer, fields: answered.len(), has_popped })
    }
}

/// The fields of a record, found by tag.
struct Read<'a> {
    fields: Vec<(u8, &'a [u8])>,
}

impl<'a> Read<'a> {
    /// Parts a record into its fields: known tags, rising, that fill it to its end.
    fn new(bytes: &'a [u8], count: usize) -> Result<Self, String> {
        let (mut at, mut fields) = (HEAD, Vec::new());
        for _ in 0..count {
            let head = bytes.get(at..at + FIELD_HEAD).ok_or("it ends within a field")?;
            let tag = Tag(head[0], head[1]);
            if !TAGS.contains(&tag) {
                return Err(format!("field {} with entries of {} bytes is not known", tag.0, tag.1));
            }
            if fields.last().is_some_and(|&(last, _)| last >= tag.0) {
                return Err(format!("field {} is out of order", tag.0));
            }
            let end = at + FIELD_HEAD + number(head, 2, 2) * usize::from(tag.1);
            fields.push((tag.0, bytes.get(at + FIELD_HEAD..end).ok_or("it ends within a field")?));
            at = end;
        }
        if at == bytes.len() { Ok(Self { fields }) } else { Err("it is longer than its fields".into()) }
    }

    /// The question.
    fn case(&self, call: Call, tables: Tables) -> Case {
        let mut case = Case::new(call, &Arc::new(tables));
        case.start = self.bytes(START);
        case.goal = self.bytes(GOAL);
        let [low, high] = self.numbers(BENEATH);
        case.limits = Limits { beneath: low | high << 32, ..limits(self.numbers(LIMITS)) };
        let [steps, nodes, heads, open] = self.numbers(LENT);
        case.lent = Lengths { steps, nodes, heads, open, popped: 0 };
        case.ceiling = self.numbers(CEILING).map(|part| part as u32);
        case.steps = self.codes(STEPS);
        match call {
            Call::Replay => case.lent.popped = self.entries(ROOM).first().copied().unwrap_or(case.steps.len()),
            Call::Rewind => case.popped = self.bytes(POPPED),
            _ => {}
        }
        case
    }

    fn has(&self, Tag(tag, _): Tag) -> bool {
        self.fields.iter().any(|&(other, _)| other == tag)
    }

    fn entries(&self, Tag(tag, width): Tag) -> Vec<usize> {
        let found = self.fields.iter().find(|&&(other, _)| other == tag).map_or(&[][..], |&(_, bytes)| bytes);
        found.chunks_exact(width.into()).map(|entry| number(entry, 0, entry.len())).collect()
    }

    /// Entries that are 0 where they are missing.
    fn numbers<const N: usize>(&self, tag: Tag) -> [usize; N] {
        let entries = self.entries(tag);
        std::array::from_fn(|at| entries.get(at).copied().unwrap_or(0))
    }

    fn bytes(&self, tag: Tag) -> Vec<u8> {
        self.entries(tag).into_iter().map(|entry| entry as u8).collect()
    }

    fn codes(&self, tag: Tag) -> Vec<u16> {
        self.entries(tag).into_iter().map(|entry| entry as u16).collect()
    }
}

/// A little endian number of so many bytes.
pub fn number(bytes: &[u8], at: usize, width: usize) -> usize {
    bytes[at..at + width].iter().rev().fold(0, |number, &byte| number * 256 + usize::from(byte))
}
