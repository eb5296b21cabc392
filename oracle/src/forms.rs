//! Listings that are made by rule and not by chance: lines at the ends of their ranges and past them, each line at each
//! place, full tables, listings cut at every byte; each op with the operands that it needs and with one fewer, and what it
//! pushes; and chunks and modules about single sentences of document 01.

use crate::bytecode::{Chunk, Op};
use crate::form::Cursor;
use crate::listing::{MAX_BYTES, MAX_CONSTANTS, MAX_ENTRIES, MAX_OPS, MAX_SLOTS};
use crate::verify::op_depth_effect;
use std::collections::BTreeSet;

/// All of them.
pub fn listings() -> Vec<Vec<u8>> {
    let mut texts = lines();
    texts.extend(places());
    texts.extend(cuts());
    texts.extend(full_tables());
    texts.extend(about_one_sentence());
    texts.extend(twins());
    for form in op_forms() {
        texts.extend(form.ranges());
        texts.extend(form.needs());
        texts.extend(form.pushes());
    }
    texts.extend([long(1), long(10)]);
    texts.into_iter().map(String::into_bytes).collect()
}

// ── Ops ──────────────────────────────────────────────────────────────────────────────────

/// A name, its variant's word where it has one, and the largest number that each operand may be.
pub struct OpForm {
    pub text: String,
    pub maxima: Vec<u64>,
}

/// The ops that open, close or leave a block.
const STRUCTURAL: [&str; 7] = ["If", "Else", "EndIf", "Loop", "EndLoop", "Break", "BreakIf"];

/// The op that a text is, if it is one.
pub fn op_of(text: &str) -> Option<Op> {
    let mut cursor = Cursor::new(text.as_bytes());
    let mut ops = Vec::new();
    Op::read(&mut cursor, &mut ops)?;
    ops.pop().filter(|_| cursor.bytes_left() == 0)
}

/// Every form that the reader reads, found by trying.
pub fn op_forms() -> Vec<OpForm> {
    let mut forms = Vec::new();
    for name in Op::NAMES {
        for variant in ["", " Flat", " FlatNested", " Boxed"] {
            let text = format!("{name}{variant}");
            let reads = |count: &usize| op_of(&with(&text, &vec![0; *count])).is_some();
            if let Some(count) = (0..=3).find(reads) {
                let maxima = (0..count).map(|at| maximum(&text, count, at)).collect();
                forms.push(OpForm { text, maxima });
            }
        }
    }
    forms
}

/// A text with numbers behind it.
pub fn with(text: &str, operands: &[u64]) -> String {
    operands.iter().fold(text.to_string(), |line, operand| format!("{line} {operand}"))
}

/// The largest number that an operand may be, with the others 0.
fn maximum(text: &str, count: usize, at: usize) -> u64 {
    let reads = |value: &u64| {
        let mut operands = vec![0; count];
        operands[at] = *value;
        op_of(&with(text, &operands)).is_some()
    };
    [u64::from(u32::MAX), u64::from(u16::MAX), u64::from(u8::MAX), 7, 3].into_iter().find(reads).expect("a range")
}

/// Operands of one op, how many it needs, and the change of the height.
pub struct Effect {
    pub operands: Vec<u64>,
    pub need: usize,
    pub net: i32,
}

impl OpForm {
    /// The effect at operands from 0 to the largest, one of them changed at a time.
    pub fn effects(&self) -> Vec<Effect> {
        let middle: Vec<u64> = self.maxima.iter().map(|most| 2.min(*most)).collect();
        let mut all = BTreeSet::from([middle.clone()]);
        for (at, most) in self.maxima.iter().enumerate() {
            for value in [0, 1, 2, 3, 4, 5, 6, 7, 8, 9, 127, 128, 130, 200, *most] {
                let mut operands = middle.clone();
                operands[at] = value.min(*most);
                all.insert(operands);
            }
        }
        all.into_iter().map(|operands| self.effect(operands)).collect()
    }

    fn effect(&self, operands: Vec<u64>) -> Effect {
        let op = op_of(&with(&self.text, &operands)).expect("an op of its form");
        let (need, net) = op_depth_effect(&op, &Chunk::default());
        Effect { operands, need: need as usize, net }
    }

    /// The op at its largest operands, each operand too large by one, an operand too few and one too many. Nothing
    /// after a Return is examined.
    fn ranges(&self) -> Vec<String> {
        let mut lines = vec![with(&self.text, &self.maxima), with(&self.text, &self.maxima) + " 0"];
        if let Some((_, but_last)) = self.maxima.split_last() {
            lines.push(with(&self.text, but_last));
        }
        for at in 0..self.maxima.len() {
            let mut operands = self.maxima.clone();
            operands[at] += 1;
            lines.push(with(&self.text, &operands));
        }
        lines.into_iter().map(|line| chunk(&["Return".to_string(), line])).collect()
    }

    /// For each need and net of the op: with as many operands as it needs, with one fewer, and both in a loop that is
    /// entered at height 1.
    fn needs(&self) -> Vec<String> {
        let mut seen = BTreeSet::new();
        let mut texts = Vec::new();
        for Effect { operands, need, net } in self.effects() {
            if STRUCTURAL.contains(&self.text.as_str()) || need > 9 || !seen.insert((need, net)) {
                continue;
            }
            let op = with(&self.text, &operands);
            let pushed = (need as i32 + net) as usize;
            texts.push(chunk(&[pushes(need), vec![op.clone(), "Return".to_string()]].concat()));
            texts.push(in_loop(need, &[op.clone(), format!("PopN {pushed}")]));
            if need > 0 {
                texts.push(chunk(&[pushes(need - 1), vec![op.clone(), "Return".to_string()]].concat()));
                texts.push(in_loop(need - 1, &[op, format!("PopN {pushed}")]));
            }
        }
        texts
    }
}

impl OpForm {
    /// What the op pushes, one listing for each operand of each kind: it is packed alone with a size that no scalar has, and
    /// the refusal tells its width.
    fn pushes(&self) -> Vec<String> {
        let mut seen = BTreeSet::new();
        let mut texts = Vec::new();
        for Effect { operands, need, net } in self.effects() {
            // The kind that a flat form names is its last operand.
            let kind = operands.last().filter(|_| self.text.contains(" Flat")).copied();
            if STRUCTURAL.contains(&self.text.as_str()) || need > 3 || !seen.insert((need, net, kind)) {
                continue;
            }
            for above in 0..(need as i32 + net) as usize {
                let op = with(&self.text, &operands);
                let packed = ["NewComposite Flat 0 1 60000".to_string(), "Return".to_string()];
                texts.push(chunk(&[pushes(need), vec![op, format!("PopN {above}")], packed.to_vec()].concat()));
            }
        }
        texts
    }
}

fn pushes(count: usize) -> Vec<String> {
    vec!["PushImmediate 1".to_string(); count]
}

fn in_loop(pushed: usize, ops: &[String]) -> String {
    let exit = 2 + pushed + ops.len() + 1;
    let head = vec!["PushImmediate 1".to_string(), format!("Loop {exit}")];
    chunk(&[head, pushes(pushed), ops.to_vec(), vec!["EndLoop 1".to_string(), "Return".to_string()]].concat())
}

// ── Lines ────────────────────────────────────────────────────────────────────────────────

const HEAD: &str = "(module 8 8 6 0 0 8 9\n";

fn chunk(ops: &[String]) -> String {
    let lines: String = ops.iter().map(|op| format!("(op {op})\n")).collect();
    format!("{HEAD}(chunk 0\n{lines})\n)\n")
}

/// First lines, in form and out of it.
const HEADS: &str = include_str!("forms/heads");
/// Lines between the first and the chunks.
const ENTRIES: &str = include_str!("forms/entries");
/// Lines in a chunk, its first among them.
const IN_CHUNK: &str = include_str!("forms/in_chunk");
/// Ops of a chunk with two locals and the constants Text, Int and Byte.
const CHUNKS: &str = include_str!("forms/chunks");
/// Modules but for their first and last lines.
const MODULES: &str = include_str!("forms/modules");
/// Likewise, about kind 5.
const TWINS: &str = include_str!("forms/twins");

/// A table's lines. `\t`, `\r` and `\0` stand for the bytes that they name, and `\n` for an LF within the line.
fn table(text: &'static str) -> impl Iterator<Item = String> {
    text.lines().map(|line| line.replace("\\t", "\t").replace("\\r", "\r").replace("\\0", "\0").replace("\\n", "\n"))
}

/// Each line of the three tables in a listing that is whole but for it.
fn lines() -> Vec<String> {
    let heads = table(HEADS).map(|line| format!("{line}\n(chunk 0\n)\n)\n"));
    let entries = table(ENTRIES).map(|line| format!("{HEAD}{line}\n(chunk 0\n)\n)\n"));
    let in_chunk = table(IN_CHUNK).map(|line| match line.starts_with("(chunk") {
        true => format!("{HEAD}{line}\n(op Return)\n)\n)\n"),
        false => format!("{HEAD}(chunk 1\n{line}\n(op Return)\n)\n)\n"),
    });
    heads.chain(entries).chain(in_chunk).collect()
}

/// Chunks and modules about single sentences of document 01.
fn about_one_sentence() -> Vec<String> {
    let chunks = table(CHUNKS).map(|ops| {
        let lines: String = ops.split(", ").map(|op| format!("(op {op})\n")).collect();
        format!("(module 8 4 4 0 0 8 9\n(chunk 2\n(const 6)\n(const 3)\n(const 2)\n{lines})\n)\n")
    });
    chunks.chain(table(MODULES).map(|module| format!("{HEAD}{module}\n)\n"))).collect()
}

/// Modules about kind 5, each with F 0 and with F 8.
fn twins() -> Vec<String> {
    let bodies: Vec<String> = table(TWINS).chain(ops_of_kind_5_past_the_last()).collect();
    bodies.iter().flat_map(|body| [0, 8].map(|f| format!("(module 8 {f} 6 100 0 8 9\n{body}\n)\n"))).collect()
}

/// As many instructions as there is room for, and then one of kind 5.
fn ops_of_kind_5_past_the_last() -> impl Iterator<Item = String> {
    let full = "(op Add)\n".repeat(MAX_OPS);
    ["GetField Flat 0", "GetTupleField Flat 5", "GetIndex Flat"]
        .into_iter()
        .map(move |op| format!("(chunk 0\n{full}(op {op} 5)\n)"))
}

/// Each table with all that it has room for, and with one more. The instructions are too many bytes to be here: generated
/// listings have both.
fn full_tables() -> Vec<String> {
    let mut texts = Vec::new();
    for more in 0..2 {
        let lines = |line: &str, count: usize| line.repeat(count);
        let shared = lines("(slot shared)\n", MAX_SLOTS);
        let numbered: String = (0..MAX_SLOTS + more).map(|slot| format!("(private {slot} {slot})\n")).collect();
        let constants = lines("(const 0)\n", MAX_CONSTANTS - 1);
        let bodies = [
            lines("(slot private)\n", MAX_SLOTS + more),
            shared.clone() + &lines("(shared 0 0 0)\n", MAX_SLOTS + more),
            lines("(slot private)\n", MAX_SLOTS) + &numbered,
            lines("(enum 0)\n", MAX_ENTRIES + more),
            lines("(native (top))\n", MAX_ENTRIES + more),
            lines("(sig (top) (top))\n", MAX_ENTRIES + more),
            lines("(chunk 0\n)\n", MAX_ENTRIES + more),
            lines("(chunk 0\n)\n", MAX_ENTRIES - 1 + more) + "(chunk 33\n)\n",
            format!("(chunk 0\n{constants})\n(chunk 0\n{})\n", lines("(const 0)\n", 1 + more)),
        ];
        texts.extend(bodies.map(|body| format!("(module 8 8 6 0 256 8 9\n{body})\n")));
    }
    texts
}

/// A listing with a line of each form.
const EACH: [&str; 12] = [
    "(module 8 8 6 64 64 8 9",
    "(slot shared)",
    "(shared 0 3 0)",
    "(private 0 8)",
    "(enum 8)",
    "(native (top))",
    "(sig (top) (top))",
    "(chunk 1",
    "(const 3)",
    "(op Return)",
    ")",
    ")",
];

/// A line of each form, put in at each place.
fn places() -> Vec<String> {
    let mut texts = Vec::new();
    for at in 0..=EACH.len() {
        for line in &EACH[..EACH.len() - 1] {
            let mut lines = EACH.to_vec();
            lines.insert(at, line);
            texts.push(lines.join("\n") + "\n");
        }
    }
    texts
}

/// A listing cut at every byte, and with bytes after its end.
fn cuts() -> Vec<String> {
    let whole = chunk(&["Return".to_string()]);
    let short = (0..=whole.len()).map(|length| whole[..length].to_string());
    let longer = ["\n", " ", ")", ")\n", "\0", "\r\n", "(chunk 0\n)\n"].map(|rest| whole.clone() + rest);
    short.chain(longer).collect()
}

/// A listing of exactly the most bytes, where the last operand is of two digits; of one fewer where it has one.
fn long(last: u32) -> String {
    let ops = ["Return".to_string(), "Trap 1".to_string(), format!("GetLocal {last}")];
    let left = MAX_BYTES + last.to_string().len() - 2 - chunk(&ops).len();
    let wide = "GetLocal 65535".to_string();
    assert_eq!(left % (wide.len() + 6), 0, "lines of one length fill the listing");
    chunk(&[ops.to_vec(), vec![wide.clone(); left / (wide.len() + 6)]].concat())
}
