//! Small stand-ins for the types that the cut text names and that are not there.

use std::{
    collections::HashMap,
    fmt,
    hash::{BuildHasherDefault, Hasher},
    mem::MaybeUninit,
    ops::{Deref, DerefMut},
};

/// A multiplying hasher of whole words, as rustc-hash has it.
#[derive(Clone, Copy, Default)]
pub struct FxHasher {
    hash: u64,
}

const FACTOR: u64 = 0xf135_7aea_2e62_a9c5;

impl FxHasher {
    #[inline]
    fn word(&mut self, word: u64) {
        self.hash = self.hash.wrapping_add(word).wrapping_mul(FACTOR);
    }
}

impl Hasher for FxHasher {
    #[inline]
    fn write(&mut self, bytes: &[u8]) {
        for chunk in bytes.chunks(8) {
            let mut word = [0; 8];
            word[..chunk.len()].copy_from_slice(chunk);
            self.word(u64::from_le_bytes(word));
        }
    }

    #[inline]
    fn write_u64(&mut self, word: u64) {
        self.word(word);
    }

    #[inline]
    fn write_u128(&mut self, words: u128) {
        self.word(words as u64);
        self.word((words >> 64) as u64);
    }

    #[inline]
    fn finish(&self) -> u64 {
        self.hash.rotate_left(26)
    }
}

pub type FxHashMap<K, V> = HashMap<K, V, BuildHasherDefault<FxHasher>>;

/// An array that a [`SmallVec`] holds inline.
pub trait Array {
    type Item: Copy;
    const SIZE: usize;
}

impl<T: Copy, const N: usize> Array for [T; N] {
    type Item = T;
    const SIZE: usize = N;
}

/// A list that stands inline up to the array's size and in a `Vec` beyond it.
pub struct SmallVec<A: Array> {
    inline: MaybeUninit<A>,
    /// Items inline; the `Vec` counts its own.
    inline_len: usize,
    /// In use if it has a capacity.
    heap: Vec<A::Item>,
}

impl<A: Array> SmallVec<A> {
    #[inline]
    pub fn new() -> Self {
        Self { inline: MaybeUninit::uninit(), inline_len: 0, heap: Vec::new() }
    }

    #[inline]
    fn spilled(&self) -> bool {
        self.heap.capacity() != 0
    }

    #[inline]
    pub fn push(&mut self, item: A::Item) {
        if !self.spilled() {
            if self.inline_len < A::SIZE {
                // SAFETY: the place is inside the array.
                unsafe { self.inline.as_mut_ptr().cast::<A::Item>().add(self.inline_len).write(item) };
                self.inline_len += 1;
                return;
            }
            self.spill();
        }
        self.heap.push(item);
    }

    #[cold]
    fn spill(&mut self) {
        let mut heap = Vec::with_capacity(2 * A::SIZE.max(1));
        heap.extend_from_slice(self);
        self.heap = heap;
    }

    #[inline]
    pub fn pop(&mut self) -> Option<A::Item> {
        let item = *self.last()?;
        if self.spilled() {
            self.heap.pop();
        } else {
            self.inline_len -= 1;
        }
        Some(item)
    }
}

impl<A: Array> Deref for SmallVec<A> {
    type Target = [A::Item];

    #[inline]
    fn deref(&self) -> &[A::Item] {
        if self.spilled() {
            &self.heap
        } else {
            // SAFETY: the first `inline_len` places are written.
            unsafe { std::slice::from_raw_parts(self.inline.as_ptr().cast(), self.inline_len) }
        }
    }
}

impl<A: Array> DerefMut for SmallVec<A> {
    #[inline]
    fn deref_mut(&mut self) -> &mut [A::Item] {
        if self.spilled() {
            &mut self.heap
        } else {
            // SAFETY: the first `inline_len` places are written.
            unsafe { std::slice::from_raw_parts_mut(self.inline.as_mut_ptr().cast(), self.inline_len) }
        }
    }
}

impl<A: Array> Clone for SmallVec<A> {
    fn clone(&self) -> Self {
        self.iter().copied().collect()
    }
}

impl<A: Array> fmt::Debug for SmallVec<A>
where
    A::Item: fmt::Debug,
{
    fn fmt(&self, f: &mut fmt::Formatter<'_>) -> fmt::Result {
        f.debug_list().entries(self.iter()).finish()
    }
}

impl<A: Array> Extend<A::Item> for SmallVec<A> {
    #[inline]
    fn extend<I: IntoIterator<Item = A::Item>>(&mut self, items: I) {
        for item in items {
            self.push(item);
        }
    }
}

impl<A: Array> FromIterator<A::Item> for SmallVec<A> {
    #[inline]
    fn from_iter<I: IntoIterator<Item = A::Item>>(items: I) -> Self {
        let mut list = Self::new();
        list.extend(items);
        list
    }
}

impl<'a, A: Array> IntoIterator for &'a SmallVec<A> {
    type Item = &'a A::Item;
    type IntoIter = std::slice::Iter<'a, A::Item>;

    #[inline]
    fn into_iter(self) -> Self::IntoIter {
        self.iter()
    }
}

/// The items of a list that is given away.
pub struct IntoIter<A: Array> {
    list: SmallVec<A>,
    next: usize,
}

impl<A: Array> Iterator for IntoIter<A> {
    type Item = A::Item;

    #[inline]
    fn next(&mut self) -> Option<A::Item> {
        let item = self.list.get(self.next).copied();
        self.next += 1;
        item
    }
}

impl<A: Array> IntoIterator for SmallVec<A> {
    type Item = A::Item;
    type IntoIter = IntoIter<A>;

    #[inline]
    fn into_iter(self) -> IntoIter<A> {
        IntoIter { list: self, next: 0 }
    }
}

macro_rules! smallvec {
    ($($item:expr),*) => {{
        let mut list = SmallVec::new();
        $(list.push($item);)*
        list
    }};
}

/// A value, named by its key: one key stands for one value.
#[derive(Clone, Copy, Debug, PartialEq, Eq, Hash)]
pub struct ValueId(pub u8);

/// The number that an immediate key stands for, known by its key and whether it is zero.
#[derive(Clone, Copy, Debug, PartialEq, Eq, Hash)]
pub struct I256 {
    pub key: u8,
    pub zero: bool,
}

impl I256 {
    #[inline]
    pub fn is_zero(&self) -> bool {
        self.zero
    }
}

/// An immediate.
#[derive(Clone, Copy, Debug, PartialEq, Eq)]
pub struct Immediate(pub I256);

impl Immediate {
    #[inline]
    pub fn as_i256(self) -> I256 {
        self.0
    }
}

/// The values of a question, by their kinds.
pub struct StackifyContext<'a> {
    pub func: Function<'a>,
}

pub struct Function<'a> {
    pub dfg: DataFlowGraph<'a>,
}

pub struct DataFlowGraph<'a> {
    /// 0 value, 1 immediate, 2 the immediate zero.
    pub kinds: &'a [u8; 64],
}

impl DataFlowGraph<'_> {
    #[inline]
    pub fn value_is_imm(&self, value: ValueId) -> bool {
        self.kinds[value.0 as usize] != 0
    }

    #[inline]
    pub fn value_imm(&self, value: ValueId) -> Option<Immediate> {
        let kind = self.kinds[value.0 as usize];
        (kind != 0).then_some(Immediate(I256 { key: value.0, zero: kind == 2 }))
    }
}
