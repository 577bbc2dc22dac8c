//! `sys` beside the headers and crate capi_c: the same declarations, and the same answers to the calls of tests/calls.c.

use nimskerf::sys::*;
use std::{
    collections::BTreeMap,
    ffi::{CStr, c_char},
    fmt::Write,
    mem::{offset_of, size_of},
};

const SYS: &str = include_str!("../src/sys.rs");
const HEADER: &str = include_str!("../../include/nimskerf.h");
const PROVED_HEADER: &str = include_str!("../../include/nimskerf_proved.h");
const CAPI: &str = include_str!("../../crates/capi_c/src/lib.rt");
const EXPECTED: &str = include_str!("../../tests/calls.txt");

/// The structs that capi_c's functions return, and what the headers call them.
const RETURNED: [(&str, &str, &str); 6] = [
    (include_str!("../../crates/planner/src/lib.rt"), "Answer", "NimskerfAnswer"),
    (include_str!("../../crates/replay/src/lib.rt"), "Replayed", "NimskerfReplayed"),
    (include_str!("../../crates/rewind/src/lib.rt"), "Rewound", "NimskerfRewound"),
    (include_str!("../../crates/marking/src/lib.rt"), "Marked", "NimskerfMarked"),
    (include_str!("../../crates/window/src/lib.rt"), "Packing", "NimskerfPacked"),
    (include_str!("../../crates/star_swap/src/lib.rt"), "Written", "NimskerfBuilt"),
];

/// By name, the parameters and the result of a function, or the fields of a struct, in Rust's words.
type Declarations = BTreeMap<String, Vec<String>>;

/// The words of a text in one line.
fn plain(text: &str) -> String {
    text.split_whitespace().collect::<Vec<_>>().join(" ")
}

fn without_c_comments(text: &str) -> String {
    let mut parts = text.split("/*");
    let first = parts.next().unwrap_or("").to_string();
    parts.fold(first, |kept, part| kept + part.split_once("*/").expect("a comment ends").1)
}

fn without_rust_comments(text: &str) -> String {
    text.lines().map(|line| line.split("//").next().unwrap_or("")).collect::<Vec<_>>().join("\n")
}

fn rust_type(c_type: &str) -> String {
    let base = match c_type.replace("const ", "").trim_end_matches(['*', ' ']) {
        "size_t" => "usize".to_string(),
        "char" => "c_char".to_string(),
        number if number.ends_with("_t") => number.trim_end_matches("_t").replace("uint", "u"),
        other => other.to_string(),
    };
    match (c_type.contains('*'), c_type.contains("const ")) {
        (true, true) => format!("*const {base}"),
        (true, false) => format!("*mut {base}"),
        (false, _) => base,
    }
}

/// `const uint8_t *start` as `start: *const u8`.
fn rust_place(c_place: &str) -> String {
    let name_at = c_place.rfind([' ', '*']).expect("a type and a name") + 1;
    format!("{}: {}", &c_place[name_at..], rust_type(&c_place[..name_at]))
}

fn c_structs(header: &str) -> Declarations {
    let text = without_c_comments(header);
    let mut structs: Declarations = text
        .split("typedef struct {")
        .skip(1)
        .map(|part| {
            let (fields, rest) = part.split_once('}').expect("a struct ends");
            let fields = fields.split(';').map(plain).filter(|field| !field.is_empty());
            (plain(rest.split_once(';').expect("a name").0), fields.map(|field| rust_place(&field)).collect())
        })
        .collect();
    // In the answer each cost stands as its fields.
    let cost = structs["NimskerfCost"].clone();
    let answer = structs.get_mut("NimskerfAnswer").expect("the answer");
    *answer = answer
        .iter()
        .flat_map(|field| match field.strip_suffix(": NimskerfCost") {
            Some(name) => cost.iter().map(|part| format!("{name}_{part}")).collect(),
            None => vec![field.clone()],
        })
        .collect();
    structs
}

fn c_functions(header: &str) -> Declarations {
    let text: String = without_c_comments(header).lines().filter(|line| !line.starts_with('#')).collect();
    text.split(';')
        .filter_map(|item| item.rsplit(['{', '}']).next()?.split_once('('))
        .map(|(head, rest)| {
            let name_at = head.rfind([' ', '*']).expect("a result and a name") + 1;
            let places = rest.trim_end_matches([')', ' ']).split(',').map(plain).filter(|place| place != "void");
            let mut list: Vec<String> = places.map(|place| rust_place(&place)).collect();
            list.push(rust_type(&plain(&head[..name_at])));
            (head[name_at..].to_string(), list)
        })
        .collect()
}

/// The parts between commas.
fn places(text: &str) -> Vec<String> {
    text.split(',').map(|place| plain(place).trim_start_matches("pub ").to_string()).filter(|p| !p.is_empty()).collect()
}

fn rust_structs(text: &str) -> Declarations {
    without_rust_comments(text)
        .split("pub struct ")
        .skip(1)
        .filter_map(|part| part.split_once('{'))
        .map(|(name, rest)| (plain(name), places(rest.split_once('}').expect("a struct ends").0)))
        .collect()
}

fn rust_functions(text: &str, begin: &str, end: char) -> Declarations {
    without_rust_comments(text)
        .split(begin)
        .skip(1)
        .filter_map(|part| part.split_once('('))
        .map(|(name, rest)| {
            let (list, rest) = rest.split_once(')').expect("parameters end");
            let result = rest.trim_start().strip_prefix("-> ").expect("a result").split(end).next().unwrap_or("");
            (name.to_string(), places(list).into_iter().chain([plain(result)]).collect())
        })
        .collect()
}

/// A slice passes as a pointer, then a length. The header's `result` is `res` in a language that gives the word to what is returned.
fn passed(place: String) -> Vec<String> {
    let Some((name, slice)) = place.split_once(": &") else {
        return vec![place];
    };
    let (pointer, entries) = match slice.strip_prefix("mut ") {
        Some(entries) => ("*mut", entries),
        None => ("*const", slice),
    };
    let name = if name == "res" { "result" } else { name };
    vec![format!("{name}: {pointer} {}", entries.trim_matches(['[', ']'])), format!("{name}_len: usize")]
}

#[test]
fn declarations_are_the_headers() {
    assert_eq!(rust_structs(SYS), c_structs(HEADER));
    let mut functions = c_functions(HEADER);
    assert_eq!(functions.len(), 18);
    functions.extend(c_functions(PROVED_HEADER));
    assert_eq!(functions.len(), 26);
    assert_eq!(rust_functions(SYS, "pub fn ", ';'), functions);
}

#[test]
fn the_proved_header_is_capis() {
    let named = |result: &str| match result {
        "usize" => result.to_string(),
        _ => RETURNED.iter().find(|(_, name, _)| *name == result).expect("a struct").2.to_string(),
    };
    let capi: Declarations = rust_functions(CAPI, "pub extern \"C\" fn ", '\n')
        .into_iter()
        .map(|(name, mut list)| {
            let result = list.pop().expect("a result");
            (name, list.into_iter().flat_map(passed).chain([named(&result)]).collect())
        })
        .collect();
    assert_eq!(c_functions(PROVED_HEADER), capi);
    for (crate_text, name, header_name) in RETURNED {
        assert_eq!(c_structs(HEADER)[header_name], rust_structs(crate_text)[name], "{name}");
    }
}

const STATES: usize = 471;
const ENTRIES: usize = STATES + 50;
const EXPANSIONS: usize = 480;
const START: [u8; 7] = [6, 6, 3, 0, 2, 6, 2];
const GOAL: [u8; 3] = [3, 5, 2];
const FIRST: [u8; 5] = [0, 1, 2, 3, 4];
const TURNED: [u8; 5] = [4, 2, 0, 1, 3];
const MENDED: [u8; 5] = [0, 33, 2, 3, 4];

fn question_of(start: &[u8], goal: &[u8]) -> NimskerfQuestion {
    // SAFETY: a call without pointers.
    let desk = unsafe { nimskerf_question() };
    NimskerfQuestion {
        start: start.as_ptr(),
        start_len: start.len(),
        goal: goal.as_ptr(),
        goal_len: goal.len(),
        ..desk
    }
}

/// The steps written, and whether the rest is as it was.
fn written<T: Copy + PartialEq + std::fmt::Display>(list: &[T], count: usize, filled: T) -> String {
    let mut line: String = list[..count].iter().map(|entry| format!(" {entry}")).collect();
    line += if list[count..].iter().all(|&entry| entry == filled) { " then untouched" } else { " then TOUCHED" };
    line
}

fn text(sentence: *const c_char) -> &'static str {
    // SAFETY: the library's texts are constant.
    unsafe { CStr::from_ptr(sentence) }.to_str().expect("plain text")
}

fn plan(out: &mut String, name: &str, q: &NimskerfQuestion) {
    for through in ["checked", "proved"] {
        let mut steps = [0xababu16; EXPANSIONS + 8];
        // Beyond their lengths the lists have eight entries that no call may touch.
        let (mut nodes, mut heads, mut open) = ([7u64; ENTRIES * 8 + 8], [7u64; ENTRIES + 8], [7u64; ENTRIES * 4 + 8]);
        let l = NimskerfLists {
            steps: steps.as_mut_ptr(),
            steps_len: EXPANSIONS,
            nodes: nodes.as_mut_ptr(),
            nodes_len: nodes.len() - 8,
            heads: heads.as_mut_ptr(),
            heads_len: heads.len() - 8,
            open: open.as_mut_ptr(),
            open_len: open.len() - 8,
        };
        // SAFETY: all lists are there and apart.
        let a = unsafe {
            match through {
                "checked" => nimskerf_plan(q, &l),
                _ => nimskerf_proved_plan(
                    q.start,
                    q.start_len,
                    q.goal,
                    q.goal_len,
                    q.dup_max,
                    q.swap_max,
                    q.max_len,
                    q.beneath,
                    q.max_expansions,
                    q.states_without,
                    q.states_with,
                    q.kinds,
                    q.kinds_len,
                    q.prices,
                    q.prices_len,
                    l.steps,
                    l.steps_len,
                    l.nodes,
                    l.nodes_len,
                    l.heads,
                    l.heads_len,
                    l.open,
                    l.open_len,
                ),
            }
        };
        write!(out, "plan, {name}, {through}: refusal {} found {} step_count {}", a.refusal, a.found, a.step_count)
            .unwrap();
        write!(out, " plan {}/{} ceiling {}/{}", a.plan_gas, a.plan_bytes, a.ceiling_gas, a.ceiling_bytes).unwrap();
        write!(out, " origin {} ending {} expansions {}", a.origin, a.ending, a.expansions).unwrap();
        write!(out, " highest {}", a.highest).unwrap();
        let kept = [&nodes[..], &heads, &open].iter().all(|list| list[list.len() - 8..] == [7; 8]);
        let kept = if kept { "kept" } else { "OVERRUN" };
        writeln!(out, " lists {kept} steps{}", written(&steps, a.step_count, 0xabab)).unwrap();
    }
}

fn plans(out: &mut String) {
    let mut kinds: [u8; 64] = std::array::from_fn(|i| if i < 40 { i as u8 % 2 } else { 0 });
    kinds[2] = 2;
    let prices: [u32; 196] = std::array::from_fn(|i| 2 + i as u32 * 7 % 13);
    let mut q = question_of(&START, &GOAL);
    (q.kinds, q.prices) = (kinds.as_ptr(), prices.as_ptr());
    (q.max_expansions, q.states_without, q.states_with) = (EXPANSIONS, STATES, 40);
    plan(out, "search", &q);
    plan(out, "expansions", &NimskerfQuestion { max_expansions: 300, ..q });
    plan(out, "states", &NimskerfQuestion { states_without: 100, ..q });

    let mut q = question_of(&FIRST[..3], &TURNED[2..3]);
    (q.max_expansions, q.states_without, q.states_with) = (0, 60, 70);
    plan(out, "builder", &q);
    plan(out, "reach", &NimskerfQuestion { dup_max: 17, ..q });
    plan(out, "window", &NimskerfQuestion { max_len: 22, ..q });

    let mut q = question_of(&FIRST, &TURNED);
    (q.max_expansions, q.states_without, q.states_with) = (90, 400, 12);
    plan(out, "plan in hand", &q);
    plan(out, "narrow", &NimskerfQuestion { dup_max: 2, swap_max: 5, max_len: 6, ..q });

    let mut q = question_of(&FIRST, &MENDED);
    (q.max_expansions, q.states_without, q.states_with) = (90, 400, 300);
    plan(out, "climbing", &q);
    plan(out, "climbing to the stack's end", &NimskerfQuestion { beneath: 1018, ..q });
    plan(out, "no room to climb", &NimskerfQuestion { beneath: 1019, ..q });
    plan(out, "stack", &NimskerfQuestion { beneath: 1020, ..q });
    plan(out, "equal", &NimskerfQuestion { goal: FIRST.as_ptr(), ..q });
}

fn replay(out: &mut String, name: &str, q: &NimskerfQuestion, codes: &[u16]) {
    let (steps, count) = (codes.as_ptr(), codes.len());
    for through in ["checked", "proved"] {
        let (mut result, mut popped) = ([0xabu8; 64], [0xabu8; 64]);
        let (end, keys) = (result.as_mut_ptr(), popped.as_mut_ptr());
        // SAFETY: all lists are there and apart.
        let r = unsafe {
            match through {
                "checked" => nimskerf_replay(q, steps, count, end, 21, keys, count + 1),
                _ => nimskerf_proved_replay(
                    q.start,
                    q.start_len,
                    steps,
                    count,
                    q.dup_max,
                    q.swap_max,
                    q.max_len,
                    q.beneath,
                    q.kinds,
                    q.kinds_len,
                    end,
                    21,
                    keys,
                    count + 1,
                ),
            }
        };
        let pops = if r.refusal == 0 { pops(codes)[usize::from(through == "proved")] } else { 0 };
        write!(out, "replay, {name}, {through}: refusal {} index {} length {}", r.refusal, r.index, r.length).unwrap();
        write!(out, " highest {} result{}", r.highest, written(&result, r.length, 0xab)).unwrap();
        writeln!(out, " popped{}", written(&popped, pops, 0xab)).unwrap();
    }
}

/// By the checked function and by the proved one.
fn pops(codes: &[u16]) -> [usize; 2] {
    let (steps, count) = (codes.as_ptr(), codes.len());
    // SAFETY: the list is there.
    unsafe { [nimskerf_pops(steps, count), nimskerf_proved_pops(steps, count)] }
}

fn rewind(out: &mut String, name: &str, q: &NimskerfQuestion, codes: &[u16], popped: &[u8], result_len: usize) {
    let (end, steps, count) = ([5, 0], codes.as_ptr(), codes.len());
    let (keys, keys_len) = (popped.as_ptr(), popped.len());
    for through in ["checked", "proved"] {
        let mut result = [0xabu8; 64];
        let start = result.as_mut_ptr();
        // SAFETY: all lists that are read are there, and apart from the one written.
        let r = unsafe {
            match through {
                "checked" => nimskerf_rewind(q, end.as_ptr(), 2, steps, count, keys, keys_len, start, result_len),
                _ => nimskerf_proved_rewind(
                    end.as_ptr(),
                    2,
                    steps,
                    count,
                    keys,
                    keys_len,
                    q.dup_max,
                    q.swap_max,
                    q.max_len,
                    q.beneath,
                    q.kinds,
                    q.kinds_len,
                    start,
                    result_len,
                ),
            }
        };
        write!(out, "rewind, {name}, {through}: refusal {} length {}", r.refusal, r.length).unwrap();
        writeln!(out, " result{}", written(&result, r.length, 0xab)).unwrap();
    }
}

fn steps_back(out: &mut String) {
    let (codes, popped) = ([514, 0, 257, 0, 0, 1029], [2, 0, 1, 3]);
    let q = question_of(&FIRST[..3], &GOAL);
    replay(out, "walk", &q, &codes);
    let [checked, proved] = pops(&codes[..4]);
    writeln!(out, "pops: {checked} {proved}").unwrap();
    // Stepping back looks at neither window of the question.
    let mut q = NimskerfQuestion { start: std::ptr::null(), start_len: 99, goal: std::ptr::null(), goal_len: 99, ..q };
    rewind(out, "walk", &q, &codes, &popped[..3], 22);
    rewind(out, "a key too many", &q, &codes, &popped, 22);
    rewind(out, "dup_max", &NimskerfQuestion { dup_max: 1, ..q }, &codes, &popped[..3], 22);
    (q.dup_max, q.swap_max, q.max_len) = (2, 3, 3);
    rewind(out, "narrow", &q, &codes, &popped[..3], 22);
    rewind(out, "short", &q, &codes, &popped[..3], 20);
    q.max_len = 4;
    for (name, beneath) in [("beneath", 1021), ("full", 1022), ("stack", 1023)] {
        rewind(out, name, &NimskerfQuestion { beneath, ..q }, &codes, &popped[..3], 22);
    }
}

fn mark(out: &mut String, name: &str, q: &NimskerfQuestion, codes: &[u16], ceiling: NimskerfCost) {
    let (steps, count) = (codes.as_ptr(), codes.len());
    for through in ["checked", "proved"] {
        // SAFETY: all lists are there.
        let m = unsafe {
            match through {
                "checked" => nimskerf_mark(q, steps, count, ceiling),
                _ => nimskerf_proved_mark(
                    q.start,
                    q.start_len,
                    q.goal,
                    q.goal_len,
                    steps,
                    count,
                    q.dup_max,
                    q.swap_max,
                    q.max_len,
                    q.beneath,
                    q.kinds,
                    q.kinds_len,
                    q.prices,
                    q.prices_len,
                    ceiling.gas,
                    ceiling.bytes,
                ),
            }
        };
        write!(out, "mark, {name}, {through}: refusal {} index {} mark {}", m.refusal, m.index, m.mark).unwrap();
        writeln!(out, " highest {}", m.highest).unwrap();
    }
}

fn replays_and_marks(out: &mut String) {
    let codes = [257, 800, 258, 0, 515, 515, 1280];
    let mut q = question_of(&FIRST[..2], &[32, 1, 0, 1]);
    let (pass, dear) = (NimskerfCost { gas: 16, bytes: 7 }, NimskerfCost { gas: 16, bytes: 5 });
    replay(out, "allowed", &q, &codes[..6]);
    replay(out, "not allowed", &q, &codes);
    mark(out, "pass", &q, &codes[..6], pass);
    mark(out, "too dear", &q, &codes[..6], dear);
    q.goal_len = 3;
    mark(out, "elsewhere", &q, &codes[..6], dear);
    mark(out, "not allowed", &q, &codes, dear);
    q.dup_max = 2;
    replay(out, "dup_max", &q, &codes[..6]);
    mark(out, "dup_max", &q, &codes[..6], dear);
    (q.dup_max, q.swap_max, q.max_len) = (3, 4, 5);
    replay(out, "narrow", &q, &codes[..6]);
    mark(out, "narrow", &q, &codes[..6], dear);
    q.max_len = 6;
    for (name, beneath) in [("beneath", 1019), ("full", 1020), ("stack", 1023)] {
        q.beneath = beneath;
        replay(out, name, &q, &codes[..6]);
        mark(out, name, &q, &codes[..6], dear);
    }
}

fn packs(out: &mut String) {
    let window: [u8; 13] = std::array::from_fn(|i| i as u8 + 1);
    // SAFETY: the list is there.
    let packed =
        unsafe { [nimskerf_pack(window.as_ptr(), window.len()), nimskerf_proved_pack(window.as_ptr(), window.len())] };
    for (through, p) in ["checked", "proved"].into_iter().zip(packed) {
        writeln!(out, "pack, {through}: refusal {} lo {} hi {}", p.refusal, p.lo, p.hi).unwrap();
    }
}

fn builders(out: &mut String) {
    let mut build = |name: &str, call: &dyn Fn(*mut u16, usize) -> NimskerfBuilt| {
        let mut steps = [0xababu16; 136];
        let b = call(steps.as_mut_ptr(), 128);
        writeln!(out, "{name}: refusal {} count {} steps{}", b.refusal, b.count, written(&steps, b.count, 0xabab))
            .unwrap();
    };
    let (first, turned) = (FIRST.as_ptr(), TURNED.as_ptr());
    let swaps = NimskerfQuestion { swap_max: 6, ..question_of(&FIRST, &TURNED) };
    let tail = NimskerfQuestion { swap_max: 6, ..question_of(&FIRST, &FIRST[..3]) };
    // SAFETY: all lists are there and apart.
    unsafe {
        build("star_swap, checked", &|steps, len| nimskerf_star_swap(&swaps, steps, len));
        build("star_swap, proved", &|steps, len| nimskerf_proved_star_swap(first, 5, turned, 5, 6, steps, len));
        build("delete_tail, checked", &|steps, len| nimskerf_delete_tail(&tail, steps, len));
        build("delete_tail, proved", &|steps, len| nimskerf_proved_delete_tail(first, 5, first, 3, 6, steps, len));
    }
}

fn desk(out: &mut String) {
    // SAFETY: the tables are constant, of these lengths.
    let (q, kinds, prices) = unsafe {
        let q = nimskerf_question();
        let kinds = std::slice::from_raw_parts(q.kinds, q.kinds_len);
        (q, kinds, std::slice::from_raw_parts(q.prices, q.prices_len))
    };
    write!(out, "question: start {} goal {} dup_max {}", q.start_len, q.goal_len, q.dup_max).unwrap();
    write!(out, " swap_max {} max_len {} max_expansions {}", q.swap_max, q.max_len, q.max_expansions).unwrap();
    write!(out, " states_without {} states_with {}", q.states_without, q.states_with).unwrap();
    writeln!(out, " kinds {} prices {} beneath {}", q.kinds_len, q.prices_len, q.beneath).unwrap();
    let kinds: String = kinds.iter().map(|kind| format!(" {kind}")).collect();
    let prices: String = prices.chunks(2).map(|pair| format!(" {}/{}", pair[0], pair[1])).collect();
    writeln!(out, "question, kinds:{kinds}\nquestion, prices:{prices}").unwrap();
}

fn codes_and_texts(out: &mut String) {
    // SAFETY: calls without pointers.
    unsafe {
        let codes = [nimskerf_step(2, 17), nimskerf_step(4, 63), nimskerf_step(256, 1), nimskerf_step(1, 256)];
        let codes: String = codes.iter().map(|code| format!(" {code}")).collect();
        writeln!(out, "step:{codes}").unwrap();
        writeln!(out, "step_kind: {} step_operand: {}", nimskerf_step_kind(1085), nimskerf_step_operand(1085)).unwrap();
        for code in [0, 256, 512, 768, 1024, 1280, 1] {
            writeln!(out, "step_word {code}: {}", text(nimskerf_step_word(code))).unwrap();
        }
        type Text = unsafe extern "C" fn(u32) -> *const c_char;
        let texts: [(&str, u32, Text); 4] = [
            ("refusal_text", 13, nimskerf_refusal_text),
            ("origin_text", 4, nimskerf_origin_text),
            ("ending_text", 6, nimskerf_ending_text),
            ("mark_text", 3, nimskerf_mark_text),
        ];
        for (name, last, sentence) in texts {
            for number in 0..=last {
                writeln!(out, "{name} {number}: {}", text(sentence(number))).unwrap();
            }
        }
        writeln!(out, "version: {}", text(nimskerf_version())).unwrap();
    }
}

macro_rules! layout {
    ($out:expr, $name:ident { $($field:ident),* }) => {
        writeln!($out, "{}: {}", stringify!($name), size_of::<$name>()).unwrap();
        // In C the parts of a cost.
        $(let field = stringify!($field).replace("plan_", "plan.").replace("ceiling_", "ceiling.");
        writeln!($out, "{}.{field}: {}", stringify!($name), offset_of!($name, $field)).unwrap();)*
    };
}

fn layouts(out: &mut String) {
    layout!(out, NimskerfCost { gas, bytes });
    layout!(
        out,
        NimskerfQuestion {
            start,
            start_len,
            goal,
            goal_len,
            dup_max,
            swap_max,
            max_len,
            max_expansions,
            states_without,
            states_with,
            kinds,
            kinds_len,
            prices,
            prices_len,
            beneath
        }
    );
    layout!(out, NimskerfLists { steps, steps_len, nodes, nodes_len, heads, heads_len, open, open_len });
    layout!(
        out,
        NimskerfAnswer {
            refusal,
            found,
            step_count,
            plan_gas,
            plan_bytes,
            ceiling_gas,
            ceiling_bytes,
            origin,
            ending,
            expansions,
            highest
        }
    );
    layout!(out, NimskerfReplayed { refusal, index, length, highest });
    layout!(out, NimskerfRewound { refusal, length });
    layout!(out, NimskerfMarked { refusal, index, mark, highest });
    layout!(out, NimskerfPacked { refusal, lo, hi });
    layout!(out, NimskerfBuilt { refusal, count });
}

#[test]
fn calls_give_what_they_give_in_c() {
    let mut out = String::new();
    plans(&mut out);
    replays_and_marks(&mut out);
    steps_back(&mut out);
    packs(&mut out);
    builders(&mut out);
    desk(&mut out);
    codes_and_texts(&mut out);
    layouts(&mut out);
    let expected = EXPECTED.lines().take_while(|line| !line.starts_with("NIMSKERF_"));
    for (number, (got, expected)) in out.lines().zip(expected.clone()).enumerate() {
        assert_eq!(got, expected, "line {}", number + 1);
    }
    assert_eq!(out.lines().count(), expected.count());
}

/// The crate's constants are the header's, and its version.
#[test]
fn constants_are_the_headers() {
    // SAFETY: a call without pointers.
    assert_eq!(env!("CARGO_PKG_VERSION"), text(unsafe { nimskerf_version() }));
    let value = |name: &str| {
        let line = EXPECTED.lines().find_map(|line| line.strip_prefix(name)?.strip_prefix(": "));
        line.unwrap_or_else(|| panic!("{name} is not listed")).parse::<usize>().expect("a number")
    };
    assert_eq!(nimskerf::MAX_LEN, value("NIMSKERF_MAX_LEN"));
    assert_eq!(nimskerf::STACK_LEN, value("NIMSKERF_STACK_LEN"));
    assert_eq!(nimskerf::MAX_ALLOWANCE, value("NIMSKERF_MAX_ALLOWANCE"));
    assert_eq!(nimskerf::MIN_STEPS, value("NIMSKERF_MIN_STEPS_LEN"));
    assert_eq!(nimskerf::SPARE_ENTRIES, value("NIMSKERF_SPARE_ENTRIES"));
    assert_eq!(nimskerf::NODE_NUMBERS, value("NIMSKERF_NODE_NUMBERS"));
    assert_eq!(nimskerf::OPEN_NUMBERS, value("NIMSKERF_OPEN_NUMBERS"));
}
