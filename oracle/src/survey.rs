//! Generates listings and answers them in one process: counts what they reach, and compares the original with the
//! walk of `limits`.

use crate::answer::{self, Answer};
use crate::bytecode::{
    ArrayElem, Chunk, ChunkSignature, EnumField, NewCompositeOperand, Op, SHARED_SLOT_COMPOSITE_FLAG, StructField,
    TupleField, WireShape,
};
use crate::choice;
use crate::generator::{self, Size};
use crate::limits::{Mark, Notes, Shape, Widths};
use crate::listing::{self, Listing, MAX_CONSTANTS, MAX_ENTRIES, MAX_LOCALS, MAX_OPS, MAX_PARAMS, MAX_SLOTS};
use crate::refusal::Refusal;
use crate::words::Table;
use crate::{nesting, twins, whole};
use std::collections::{BTreeMap, BTreeSet};

/// From this count on a survey must reach all that it can; fewer listings may miss something.
pub const FULL_COUNT: u64 = 20_000;

#[derive(Default)]
pub struct Survey {
    listings: u64,
    bytes: u64,
    most_instructions: usize,
    /// Listings with F 0 whose answer is the original's without floats.
    without_floats: u64,
    answers: BTreeMap<String, u64>,
    ops: BTreeMap<String, u64>,
    /// Tables that were exactly full, and tables with one line more.
    tables: BTreeMap<String, u64>,
    notes: Notes,
    /// Listings for which the two walks differ, or that are not written as they were read.
    pub faults: Vec<String>,
}

pub fn survey(seed: u64, count: u64, size: Size) -> Survey {
    let mut survey = Survey::default();
    for number in 0..count {
        let bytes = generator::listing(seed, number, size);
        survey.listings += 1;
        survey.bytes += bytes.len() as u64;
        survey.add(number, &bytes);
    }
    survey
}

impl Survey {
    pub fn add(&mut self, number: u64, bytes: &[u8]) {
        let read = listing::read(bytes);
        if twins::is_without_floats(bytes) {
            if read.as_ref().err() != answer::refused_without_floats(bytes).as_ref() {
                self.faults.push(format!("listing {number} is read otherwise by the build without floats"));
            }
            twins::places(bytes).into_iter().for_each(|place| self.notes.count(place));
        }
        let listing = match read {
            Ok(listing) => listing,
            Err(refusal) => {
                if refusal.passed_limit() == Some(2) {
                    count(&mut self.tables, &overfull(choice::overfull(bytes)));
                }
                return self.count_refusal(&refusal);
            }
        };
        if listing::write(&listing) != bytes {
            self.faults.push(format!("listing {number} is not written as it was read"));
        }
        self.most_instructions = self.most_instructions.max(listing.ops().count());
        self.count_ops(&listing);
        match nesting::check(&listing) {
            Ok(()) => self.compare(number, &listing),
            Err(refusal) => self.count_refusal(&refusal),
        }
    }

    fn compare(&mut self, number: u64, listing: &Listing) {
        self.count_tables(listing);
        let own = match whole::check_nested(listing, &mut self.notes) {
            Ok(marks) => {
                self.count_marks(listing, &marks);
                let instructions = marks.iter().map(Vec::len).sum();
                Answer::Accepted { chunks: marks.len(), instructions }
            }
            Err(refusal) => Answer::Refused(refusal),
        };
        match answer::answer_nested(listing) {
            Answer::BeyondCodes => count(&mut self.answers, "left out: other trap codes"),
            Answer::BeyondLimit(limit) => count(&mut self.answers, &format!("left out: limit {limit}")),
            original => {
                self.without_floats += u64::from(listing.float_bytes == 0);
                if original != own {
                    self.faults.push(format!("listing {number}: the original answers {original}, limits.rs {own}"));
                }
                match original {
                    Answer::Refused(refusal) => self.count_refusal(&refusal),
                    _ => count(&mut self.answers, "accepted"),
                }
            }
        }
    }

    fn count_refusal(&mut self, refusal: &Refusal) {
        count(&mut self.answers, &refusal.kind());
    }

    fn count_ops(&mut self, listing: &Listing) {
        for op in listing.ops() {
            count(&mut self.ops, &form_of(op));
        }
        for table in full_tables(listing) {
            count(&mut self.tables, &full(table));
        }
        if listing.module.chunks.iter().any(has_backward_target) {
            self.notes.count("backward target");
        }
    }

    fn count_tables(&mut self, listing: &Listing) {
        let module = &listing.module;
        let mut note = |is_met: bool, what| {
            if is_met {
                self.notes.count(what);
            }
        };
        let in_signatures = module.signatures.iter().flat_map(|sig| sig.params.iter().chain([&sig.ret, &sig.resume]));
        let shapes: Vec<&WireShape> = module.native_return_shapes.iter().chain(in_signatures).collect();
        let widths = Widths::of(listing);
        let is_unknown =
            |shape: &&WireShape| **shape != WireShape::Top && Shape::declared(shape, widths) == Shape::Unknown;
        note(shapes.iter().any(is_unknown), "shape whose tag is not known");
        let entries = &listing.layout().shared_layout;
        note(entries.iter().any(|entry| entry.kind >= SHARED_SLOT_COMPOSITE_FLAG), "composite shared entry");
        let (chunks, signatures) = (&module.chunks, &module.signatures);
        let is_short = |(chunk, sig): (&Chunk, &ChunkSignature)| sig.params.len() > usize::from(chunk.local_count);
        note(chunks.iter().zip(signatures).any(is_short), "more parameters than locals");
        note(chunks.len() > signatures.len(), "chunk without a signature");
        note(chunks.len() < signatures.len(), "signature without a chunk");
    }

    fn count_marks(&mut self, listing: &Listing, marks: &[Vec<Mark>]) {
        for (op, mark) in listing.ops().zip(marks.iter().flatten()) {
            match (op, mark.height) {
                (Op::Else(_) | Op::EndIf | Op::EndLoop(_), _) => {}
                (_, None) => self.notes.count("instruction that the walk does not examine"),
                (Op::GetIndex(_), _) if mark.blind => self.notes.count("blind index"),
                _ if mark.blind => self.notes.count("blind read"),
                _ => {}
            }
        }
    }

    /// What one listing reaches.
    pub fn of(bytes: &[u8]) -> Survey {
        let mut survey = Survey::default();
        survey.add(0, bytes);
        survey
    }

    /// All that was reached: answers, ops with their forms, what the walk met, and numbers of passes.
    pub fn reached(&self) -> BTreeSet<String> {
        let answers = self.answers.keys().cloned();
        let met = self.notes.counts.keys().map(|what| what.to_string());
        let passes = self.notes.passes.keys().copied().map(loop_with);
        let counted = self.ops.keys().chain(self.tables.keys()).cloned();
        answers.chain(counted).chain(met).chain(passes).collect()
    }

    /// Instructions that the walk examined, on all passes.
    pub fn examined(&self) -> u64 {
        self.notes.examined
    }

    /// What a full survey must reach and this one did not.
    pub fn missing(&self, size: Size) -> Vec<String> {
        let reached = self.reached();
        wanted(size).into_iter().filter(|what| !reached.contains(what)).collect()
    }

    /// All counts, as text.
    pub fn report(&self) -> String {
        let mut out =
            format!("listings {}, bytes {}, most instructions {}\n", self.listings, self.bytes, self.most_instructions);
        out.push_str(&format!("answered by the original without floats {}\n", self.without_floats));
        let mut table = |title: &str, rows: Vec<(String, u64)>| {
            out.push_str(&format!("\n{title}\n"));
            for (key, times) in rows {
                out.push_str(&format!("{times:9}  {key}\n"));
            }
        };
        let rows = |counts: &BTreeMap<String, u64>| counts.iter().map(|(key, n)| (key.clone(), *n)).collect();
        table("answers", rows(&self.answers));
        table("ops and operand forms in listings that read", rows(&self.ops));
        table("tables", rows(&self.tables));
        table("met by the walk", self.notes.counts.iter().map(|(key, n)| (key.to_string(), *n)).collect());
        table("loops by passes", self.notes.passes.iter().map(|(key, n)| (key.to_string(), *n)).collect());
        out
    }
}

pub fn count(counts: &mut BTreeMap<String, u64>, key: &str) {
    match counts.get_mut(key) {
        Some(times) => *times += 1,
        None => {
            counts.insert(key.to_string(), 1);
        }
    }
}

/// The tables, each by what its lines begin with; the parameters stand in one line.
const TABLES: [&str; 10] = [
    Table::Slot.begin(),
    Table::Shared.begin(),
    Table::Private.begin(),
    Table::Enum.begin(),
    Table::Native.begin(),
    Table::Sig.begin(),
    "parameters",
    Table::Chunk.begin(),
    Table::Const.begin(),
    Table::Op.begin(),
];

/// Those that have all the lines that there is room for.
fn full_tables(listing: &Listing) -> impl Iterator<Item = &'static str> {
    let (module, layout) = (&listing.module, listing.layout());
    let is_full = [
        layout.slots.len() == MAX_SLOTS,
        layout.shared_layout.len() == MAX_SLOTS,
        layout.private_composite_layout.len() == MAX_SLOTS,
        module.enum_layouts.len() == MAX_ENTRIES,
        module.native_return_shapes.len() == MAX_ENTRIES,
        module.signatures.len() == MAX_ENTRIES,
        module.signatures.iter().any(|sig| sig.params.len() == MAX_PARAMS),
        module.chunks.len() == MAX_ENTRIES,
        module.chunks.iter().map(|chunk| chunk.constants.len()).sum::<usize>() == MAX_CONSTANTS,
        listing.ops().count() == MAX_OPS,
    ];
    TABLES.into_iter().zip(is_full).filter_map(|(table, is_full)| is_full.then_some(table))
}

fn full(table: &str) -> String {
    format!("full: {}", table.trim_start_matches('('))
}

fn overfull(table: &str) -> String {
    format!("one too many: {}", table.trim_start_matches('('))
}

/// Whether an opener, an Else or a break names an instruction that is not after it.
fn has_backward_target(chunk: &Chunk) -> bool {
    chunk.ops.iter().enumerate().any(|(ip, op)| match op {
        Op::If(target) | Op::Else(target) | Op::Loop(target) | Op::Break(target) | Op::BreakIf(target) => {
            usize::from(*target) <= ip
        }
        _ => false,
    })
}

fn loop_with(passes: usize) -> String {
    format!("loop with {passes} passes")
}

/// All that a full survey must reach.
pub fn wanted(size: Size) -> Vec<String> {
    let mut wanted = answers_compared(size);
    wanted.extend(["left out: limit 5", "left out: limit 6", "left out: other trap codes"].map(String::from));
    wanted.extend(wanted_forms());
    wanted.extend(WANTED_NOTES.iter().chain(twins::PLACES).map(|what| what.to_string()));
    // A small listing has not the bytes for tables of many lines, nor for two arms with a composite each.
    if size == Size::Any {
        wanted.extend([twins::PLACE_PAST_THE_OPS, OTHER_KINDS_JOINED].map(String::from));
        wanted.extend(TABLES.into_iter().flat_map(|table| [full(table), overfull(table)]));
    }
    // LOCALS widenings, and the pass that finds all stable.
    let most_passes = if size == Size::Small { 3 } else { usize::from(MAX_LOCALS) + 1 };
    wanted.extend((1..=most_passes).map(loop_with));
    wanted
}

/// The answers that the original shares, and those of reading and nesting.
pub fn answers_compared(size: Size) -> Vec<String> {
    let mut wanted: Vec<String> = [1, 3].into_iter().chain(5..=17).map(|n| format!("refused {n:2}")).collect();
    // A small listing has not the bytes for limit 1.
    let first_limit = if size == Size::Small { 2 } else { 1 };
    wanted.extend((first_limit..=4).map(|limit| format!("refused  2, limit {limit}")));
    wanted.extend((1..=4).map(|reason| format!("refused 18, reason {reason}")));
    wanted.extend((1..=2).map(|reason| format!("refused 19, reason {reason}")));
    wanted.push("accepted".to_string());
    wanted
}

/// The name of an op; where it has variants, that too, and the kind that it names.
fn form_of(op: &Op) -> String {
    let line = op.text();
    let words: Vec<&str> = line.split(' ').collect();
    let kind = match op {
        Op::NewComposite(NewCompositeOperand::Flat { kind, .. } | NewCompositeOperand::Boxed { kind, .. }) => {
            kind.to_tag()
        }
        Op::GetField(StructField::Flat { kind, .. })
        | Op::GetTupleField(TupleField::Flat { kind, .. })
        | Op::GetEnumField(EnumField::Flat { kind, .. })
        | Op::GetIndex(ArrayElem::Flat { kind }) => kind.to_tag(),
        Op::GetField(StructField::FlatNested { variant, .. })
        | Op::GetTupleField(TupleField::FlatNested { variant, .. })
        | Op::GetEnumField(EnumField::FlatNested { variant, .. })
        | Op::GetIndex(ArrayElem::FlatNested { variant, .. }) => variant.to_tag(),
        Op::GetField(_) | Op::GetTupleField(_) | Op::GetEnumField(_) | Op::GetIndex(_) => {
            return words[..2].join(" ");
        }
        _ => return words[0].to_string(),
    };
    format!("{} {} of {kind}", words[0], words[1])
}

fn wanted_forms() -> Vec<String> {
    let of = |name: &str, kinds: u8| (0..kinds).map(|kind| format!("{name} of {kind}")).collect::<Vec<_>>();
    let mut wanted = Vec::new();
    for name in Op::NAMES {
        match *name {
            "NewComposite" => {
                wanted.extend(of("NewComposite Flat", 4));
                wanted.extend(of("NewComposite Boxed", 4));
            }
            "GetField" | "GetTupleField" | "GetEnumField" | "GetIndex" => {
                wanted.extend(of(&format!("{name} Flat"), 8));
                wanted.extend(of(&format!("{name} FlatNested"), 4));
                wanted.push(format!("{name} Boxed"));
            }
            _ => wanted.push(name.to_string()),
        }
    }
    wanted
}

/// One that small listings seldom have.
const OTHER_KINDS_JOINED: &str = "composites of one size and different kinds joined";

const WANTED_NOTES: &[&str] = &[
    "10 between arms",
    "10 between breaks",
    "11 where 10 would follow",
    "12 where 5 would follow",
    "13 past the locals",
    "backward target",
    "blind index",
    "blind read",
    "body's end after a loop",
    "call with as many arguments as declared",
    "call with fewer arguments than declared",
    "call with more arguments than declared",
    "call without a signature",
    "chunk without a signature",
    "composite shared entry",
    "declared shape resumed",
    "element of width 0 of a known array",
    "enum of a declared size",
    "enum without enum lines",
    "head after a loop",
    "instruction that the walk does not examine",
    "loop whose body has no end",
    "more parameters than locals",
    "native call with a flag",
    "native call without a flag",
    "one break after a loop",
    "several breaks after a loop",
    "shape whose tag is not known",
    "signature without a chunk",
    "store past the locals",
    "store to a parameter past the locals",
    "sum of sizes at its most",
    "text element missed",
    "text elements read",
    "text place read",
    "text places built",
    "text places cut",
    "text places differ",
    "text places indexed",
    "text places joined away",
    "unknown resumed",
];
