//! The reference: items of the Rust's own text, cut out by build.rs, and what makes answers of them.

#![allow(dead_code)]

#[macro_use]
mod shims;
mod answers;

use shims::{FxHashMap, I256, Immediate, SmallVec, StackifyContext, ValueId};
use std::{
    cmp::Ordering,
    collections::{BinaryHeap, VecDeque},
    hash::Hash,
};

include!(concat!(env!("OUT_DIR"), "/reference.rs"));

pub use answers::{Prepared, Reference, delete_tail, pack, star_swap};
