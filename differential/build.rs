//! Cuts the reference's items, unchanged, out of the Rust's text and writes them to OUT_DIR/reference.rs.
//!
//! The text stands in the folder NIMSKERF_REFERENCE, by default ../../shared/docs/src. It is formatted by rustfmt, so
//! an item of the file begins and ends in column 0, and a method in column 4. Each item is named by the first words of
//! its first line; exactly one item must begin so.

use std::{env, fs, path::Path, path::PathBuf};

const SEARCH: &str = "crates/codegen/src/stackalloc/stackify/planner/normalize_search.rs";
const STACK: &str = "crates/codegen/src/stackalloc/stackify/sym_stack.rs";

/// Items of normalize_search.rs.
const ITEMS: &[&str] = &[
    // Costs and steps.
    "pub(super) struct Cost {",
    "impl Cost {",
    "impl PartialOrd for Cost {",
    "impl Ord for Cost {",
    "const UNAVAILABLE_COST:",
    "pub(super) trait CostModel {",
    "pub(super) enum KeyInfo {",
    "pub(super) type KeyInfos =",
    "pub(super) type KeyIds =",
    "type StackKeyIds =",
    "pub(super) enum Step {",
    "pub(super) type StepList =",
    "pub(super) struct SearchCfg {",
    "pub(super) fn cost_for_steps(",
    // Packed windows.
    "struct PackedState(",
    "impl PackedState {",
    // The bounded search.
    "struct SearchQueueEntry<",
    "impl<S: Ord> PartialOrd for SearchQueueEntry<",
    "impl<S: Ord> Ord for SearchQueueEntry<",
    "const SEARCH_SCRATCH_REUSE_CAP:",
    "struct SearchScratch<",
    "struct SearchNode<",
    "impl<S: Ord> Default for SearchScratch<",
    "impl<S: Eq + Hash + Ord> SearchScratch<",
    "fn clear_hash_map<",
    "fn clear_heap<",
    "fn should_prune(",
    "trait BoundedAStarProblem {",
    "fn run_bounded_astar<",
    "fn reconstruct_steps<",
    // The window problem.
    "struct NormalizeHeuristic<",
    "impl<C: CostModel> Clone for NormalizeHeuristic<",
    "impl<C: CostModel> Copy for NormalizeHeuristic<",
    "fn find_push0_kid(",
    "fn cost_push0_kid(",
    "fn common_suffix_len(",
    "struct NormalizeWindowProblem<",
    "impl<'a, C: CostModel> NormalizeWindowProblem<",
    "impl<C: CostModel> BoundedAStarProblem for NormalizeWindowProblem<",
    "fn compute_goal_counts(",
    "fn key_mask_from_counts(",
    "fn compute_counts(",
    "fn minimal_dup_gas(",
    "fn materialize_cost_gas(",
    "fn heuristic_with_ctx<",
    // The bound and the builders.
    "fn best_normalize_incumbent<",
    "fn estimate_flush_rebuild_cost(",
    "fn apply_step_to_vec(",
    "const NO_STAR_ARC:",
    "fn build_star_swap_plan(",
    "fn build_delete_tail_under_prefix_upper_bound(",
    "fn trim_excess_keys<",
    "fn finish_count_fixup_plan(",
    "fn build_dup_and_star_swap_upper_bound(",
];

/// Items of sym_stack.rs, for the flush cost.
const STACK_ITEMS: &[&str] = &["pub(super) enum StackItem {", "pub(super) struct SymStack {"];

/// Methods of SymStack, for the flush cost.
const STACK_METHODS: &[&str] = &["pub(super) fn len_above_func_ret(", "pub(super) fn common_suffix_len("];

fn main() {
    println!("cargo:rerun-if-changed=build.rs");
    println!("cargo:rerun-if-env-changed=NIMSKERF_REFERENCE");
    let here = PathBuf::from(env::var_os("CARGO_MANIFEST_DIR").expect("cargo sets CARGO_MANIFEST_DIR"));
    let folder =
        env::var_os("NIMSKERF_REFERENCE").map(PathBuf::from).unwrap_or_else(|| here.join("../../shared/docs/src"));

    let search = read(&folder.join(SEARCH));
    let stack = read(&folder.join(STACK));
    let mut text = String::new();
    for name in ITEMS {
        text += &cut(&search, name, "");
    }
    for name in STACK_ITEMS {
        text += &cut(&stack, name, "");
    }
    text += "impl SymStack {\n";
    for name in STACK_METHODS {
        text += &cut(&stack, name, "    ");
    }
    text += "}\n";

    let out = PathBuf::from(env::var_os("OUT_DIR").expect("cargo sets OUT_DIR"));
    fs::write(out.join("reference.rs"), text).expect("OUT_DIR can be written");
}

fn read(path: &Path) -> String {
    println!("cargo:rerun-if-changed={}", path.display());
    fs::read_to_string(path).unwrap_or_else(|error| {
        panic!("{}: {error}; set NIMSKERF_REFERENCE to the folder of the Rust's text", path.display())
    })
}

/// The one item at this indentation whose first line begins so, with the attributes above it.
fn cut(text: &str, name: &str, indent: &str) -> String {
    let lines: Vec<&str> = text.lines().collect();
    let begins: Vec<usize> = (0..lines.len())
        .filter(|&i| lines[i].strip_prefix(indent).is_some_and(|line| line.starts_with(name)))
        .collect();
    let &[first] = begins.as_slice() else {
        panic!("{} items begin with `{name}`", begins.len());
    };
    let mut top = first;
    while lines[top - 1].strip_prefix(indent).is_some_and(|line| line.starts_with("#[")) {
        top -= 1;
    }
    let last = (first..lines.len())
        .find(|&i| lines[i].strip_prefix(indent).is_some_and(|line| ends_item(line, i == first)))
        .expect("the item ends");
    let mut item = lines[top..=last].join("\n");
    item.push_str("\n\n");
    item
}

/// Whether a line without its indentation ends an item: a closing brace, or a whole item on its first line.
fn ends_item(line: &str, is_first: bool) -> bool {
    line == "}" || line == "};" || (is_first && (line.ends_with(';') || line.ends_with("{}")))
}
