//! The listing form of document 01: read strictly, and written back.

use crate::bytecode::{
    Chunk, ChunkSignature, ConstValue, DataLayout, DataSlot, EnumLayout, Module, Op, PrivateCompositeLayout,
    SharedSlotLayout, SlotVisibility, WireShape,
};
use crate::form::{Cursor, Entry, Operand};
use crate::refusal::Refusal;

/// The most bytes that a listing may have (limit 1).
pub const MAX_BYTES: usize = 65_536;
/// Sizes of the tables (limit 2).
pub const MAX_SLOTS: usize = 256;
pub const MAX_ENTRIES: usize = 64;
pub const MAX_PARAMS: usize = 16;
pub const MAX_CONSTANTS: usize = 1_024;
pub const MAX_OPS: usize = 4_096;
/// The most locals of a chunk (limit 3).
pub const MAX_LOCALS: u16 = 32;

/// A module with what its first line says besides: widths in bytes, and the two trap codes. Where the listing has no
/// floats, `float_bytes` is 0.
#[derive(Clone, Debug, PartialEq, Eq)]
pub struct Listing {
    pub word_bytes: usize,
    pub float_bytes: usize,
    pub index_code: u16,
    pub host_code: u16,
    pub module: Module,
}

impl Listing {
    pub fn ops(&self) -> impl Iterator<Item = &Op> {
        self.module.chunks.iter().flat_map(|chunk| &chunk.ops)
    }

    /// The module's data layout; a listing always has one, be its tables empty.
    pub fn layout(&self) -> &DataLayout {
        self.module.data_layout.as_ref().expect("a listing has a data layout")
    }

    pub fn layout_mut(&mut self) -> &mut DataLayout {
        self.module.data_layout.as_mut().expect("a listing has a data layout")
    }
}

// ── Lines ────────────────────────────────────────────────────────────────────────────────

/// The beginnings of the lines that are no entry of a table alone.
pub const MODULE: &str = "(module";
pub const CHUNK: &str = "(chunk";
pub const OP: &str = "(op";
/// The end of an entry's line. The module and each chunk are closed by a line of their own, which is the same.
pub const CLOSE: &str = ")\n";

/// Declares an entry's line: how it begins, and what stands in it, in that order.
macro_rules! entries {
    ($($entry:ident $begin:literal { $($field:ident),+ }),+ $(,)?) => {$(
        impl Operand for $entry {
            fn read(cursor: &mut Cursor) -> Option<Self> {
                Some($entry { $($field: Operand::read(cursor)?),+ })
            }

            fn write(&self, out: &mut Vec<u8>) {
                $(self.$field.write(out);)+
            }
        }

        impl Entry for $entry {
            const BEGIN: &'static str = $begin;
        }
    )+};
}

entries! {
    DataSlot "(slot" { visibility },
    SharedSlotLayout "(shared" { offset, kind, len },
    PrivateCompositeLayout "(private" { slot, offset },
    EnumLayout "(enum" { min_payload },
    ChunkSignature "(sig" { ret, resume, params },
}

impl Entry for WireShape {
    const BEGIN: &'static str = "(native";
}

impl Entry for ConstValue {
    const BEGIN: &'static str = "(const";
}

impl Operand for SlotVisibility {
    fn read(cursor: &mut Cursor) -> Option<Self> {
        cursor.text(" ")?;
        match cursor.word() {
            b"shared" => Some(SlotVisibility::Shared),
            b"private" => Some(SlotVisibility::Private),
            _ => None,
        }
    }

    fn write(&self, out: &mut Vec<u8>) {
        out.extend_from_slice(match self {
            SlotVisibility::Shared => b" shared",
            SlotVisibility::Private => b" private",
        });
    }
}

impl Operand for WireShape {
    fn read(cursor: &mut Cursor) -> Option<Self> {
        cursor.text(" (")?;
        let shape = match cursor.word() {
            b"top" => WireShape::Top,
            b"scalar" => WireShape::Scalar { kind: u8::read(cursor)? },
            b"flat" => WireShape::Flat { kind: u8::read(cursor)?, size: u32::read(cursor)? },
            _ => return None,
        };
        cursor.text(")")?;
        Some(shape)
    }

    fn write(&self, out: &mut Vec<u8>) {
        match self {
            WireShape::Top => out.extend_from_slice(b" (top"),
            WireShape::Scalar { kind } => {
                out.extend_from_slice(b" (scalar");
                kind.write(out);
            }
            WireShape::Flat { kind, size } => {
                out.extend_from_slice(b" (flat");
                kind.write(out);
                size.write(out);
            }
        }
        out.push(b')');
    }
}

/// As many shapes as there are.
impl Operand for Vec<WireShape> {
    fn read(cursor: &mut Cursor) -> Option<Self> {
        let mut shapes = Vec::new();
        while cursor.is_at(b' ') {
            shapes.push(WireShape::read(cursor)?);
        }
        Some(shapes)
    }

    fn write(&self, out: &mut Vec<u8>) {
        self.iter().for_each(|shape| shape.write(out));
    }
}

impl Operand for ConstValue {
    fn read(cursor: &mut Cursor) -> Option<Self> {
        ConstValue::from_tag(u8::read(cursor)?)
    }

    fn write(&self, out: &mut Vec<u8>) {
        self.to_tag().write(out);
    }
}

// ── Reading ──────────────────────────────────────────────────────────────────────────────

/// Reads a listing: refusals 1 and 2 (limits 1 to 3). It goes over the bytes once and allocates nothing but the tables.
pub fn read(bytes: &[u8]) -> Result<Listing, Refusal> {
    if bytes.len() > MAX_BYTES {
        return Err(Refusal::limit(0, 0, 1));
    }
    let mut cursor = Cursor::new(bytes);
    listing(&mut cursor).map_err(|fault| match fault {
        Fault::CannotFollow => {
            let taken = &bytes[..bytes.len() - cursor.bytes_left()];
            Refusal::line(taken.iter().filter(|byte| **byte == b'\n').count())
        }
        Fault::TableFull => Refusal::limit(0, 0, 2),
        Fault::TooManyLocals => Refusal::limit(0, 0, 3),
    })
}

enum Fault {
    CannotFollow,
    TableFull,
    TooManyLocals,
}

/// The tables in their order. A line's first word decides to which table it belongs; its LF is taken last, and only from
/// a line that can follow.
fn listing(cursor: &mut Cursor) -> Result<Listing, Fault> {
    let mut listing = header(cursor).ok_or(Fault::CannotFollow)?;
    let module = &mut listing.module;
    module.data_layout = Some(DataLayout {
        slots: table(cursor, MAX_SLOTS)?,
        shared_layout: table(cursor, MAX_SLOTS)?,
        private_composite_layout: table(cursor, MAX_SLOTS)?,
    });
    module.enum_layouts = table(cursor, MAX_ENTRIES)?;
    module.native_return_shapes = table(cursor, MAX_ENTRIES)?;
    module.signatures = signatures(cursor)?;
    module.chunks = chunks(cursor)?;
    close(cursor)?;
    if cursor.bytes_left() == 0 { Ok(listing) } else { Err(Fault::CannotFollow) }
}

/// Takes an entry's line, if one comes.
fn entry<T: Entry>(cursor: &mut Cursor) -> Result<Option<T>, Fault> {
    if cursor.text(T::BEGIN).is_none() {
        return Ok(None);
    }
    let entry = T::read(cursor).ok_or(Fault::CannotFollow)?;
    close(cursor)?;
    Ok(Some(entry))
}

fn table<T: Entry>(cursor: &mut Cursor, max: usize) -> Result<Vec<T>, Fault> {
    let mut entries = Vec::new();
    while let Some(entry) = entry(cursor)? {
        if entries.len() == max {
            return Err(Fault::TableFull);
        }
        entries.push(entry);
    }
    Ok(entries)
}

fn signatures(cursor: &mut Cursor) -> Result<Vec<ChunkSignature>, Fault> {
    let mut signatures: Vec<ChunkSignature> = Vec::new();
    while let Some(signature) = entry::<ChunkSignature>(cursor)? {
        if signatures.len() == MAX_ENTRIES || signature.params.len() > MAX_PARAMS {
            return Err(Fault::TableFull);
        }
        signatures.push(signature);
    }
    Ok(signatures)
}

fn chunks(cursor: &mut Cursor) -> Result<Vec<Chunk>, Fault> {
    let mut chunks = Vec::new();
    let (mut constants_left, mut ops_left) = (MAX_CONSTANTS, MAX_OPS);
    while cursor.text(CHUNK).is_some() {
        let local_count = u16::read(cursor).ok_or(Fault::CannotFollow)?;
        cursor.text("\n").ok_or(Fault::CannotFollow)?;
        if chunks.len() == MAX_ENTRIES {
            return Err(Fault::TableFull);
        }
        if local_count > MAX_LOCALS {
            return Err(Fault::TooManyLocals);
        }
        let constants = table(cursor, constants_left)?;
        let ops = ops(cursor, ops_left)?;
        close(cursor)?;
        constants_left -= constants.len();
        ops_left -= ops.len();
        chunks.push(Chunk { local_count, constants, ops });
    }
    Ok(chunks)
}

fn ops(cursor: &mut Cursor, max: usize) -> Result<Vec<Op>, Fault> {
    let mut ops = Vec::new();
    while cursor.text(OP).is_some() {
        cursor.text(" ").ok_or(Fault::CannotFollow)?;
        Op::read(cursor, &mut ops).ok_or(Fault::CannotFollow)?;
        close(cursor)?;
        if ops.len() > max {
            return Err(Fault::TableFull);
        }
    }
    Ok(ops)
}

fn close(cursor: &mut Cursor) -> Result<(), Fault> {
    cursor.text(CLOSE).ok_or(Fault::CannotFollow)
}

fn header(cursor: &mut Cursor) -> Option<Listing> {
    cursor.text(MODULE)?;
    let word_bytes = cursor.number(8).filter(|bytes| bytes.is_power_of_two())? as usize;
    let float_bytes = cursor.number(8).filter(|bytes| *bytes == 0 || bytes.is_power_of_two())? as usize;
    cursor.has_floats = float_bytes > 0;
    let addr_bits_log2 = u8::read(cursor).filter(|log| (3..=6).contains(log))?;
    let shared_data_bytes = u32::read(cursor)?;
    let persistent_composite_bytes = u32::read(cursor)?;
    let index_code = u16::read(cursor)?;
    let host_code = u16::read(cursor).filter(|code| *code != index_code)?;
    cursor.text("\n")?;
    let module = Module { shared_data_bytes, persistent_composite_bytes, addr_bits_log2, ..Module::default() };
    Some(Listing { word_bytes, float_bytes, index_code, host_code, module })
}

// ── Writing ──────────────────────────────────────────────────────────────────────────────

/// Writes a listing. Reading gives the same listing back.
pub fn write(listing: &Listing) -> Vec<u8> {
    let mut out = Vec::new();
    write_to(listing, &mut out);
    out
}

/// Writes a listing behind what `out` holds. It allocates nothing but what `out` lacks.
pub fn write_to(listing: &Listing, out: &mut Vec<u8>) {
    let module = &listing.module;
    let layout = listing.layout();
    write_header(listing, out);
    write_table(&layout.slots, out);
    write_table(&layout.shared_layout, out);
    write_table(&layout.private_composite_layout, out);
    write_table(&module.enum_layouts, out);
    write_table(&module.native_return_shapes, out);
    write_table(&module.signatures, out);
    for chunk in &module.chunks {
        write_text(CHUNK, out);
        chunk.local_count.write(out);
        out.push(b'\n');
        write_table(&chunk.constants, out);
        chunk.ops.iter().for_each(|op| write_op(op, out));
        write_text(CLOSE, out);
    }
    write_text(CLOSE, out);
}

fn write_text(text: &str, out: &mut Vec<u8>) {
    out.extend_from_slice(text.as_bytes());
}

fn write_header(listing: &Listing, out: &mut Vec<u8>) {
    let module = &listing.module;
    write_text(MODULE, out);
    for bytes in [listing.word_bytes, listing.float_bytes] {
        u8::try_from(bytes).expect("a width is small").write(out);
    }
    module.addr_bits_log2.write(out);
    module.shared_data_bytes.write(out);
    module.persistent_composite_bytes.write(out);
    listing.index_code.write(out);
    listing.host_code.write(out);
    out.push(b'\n');
}

fn write_table<T: Entry>(entries: &[T], out: &mut Vec<u8>) {
    for entry in entries {
        write_text(T::BEGIN, out);
        entry.write(out);
        write_text(CLOSE, out);
    }
}

fn write_op(op: &Op, out: &mut Vec<u8>) {
    write_text(OP, out);
    out.push(b' ');
    op.write(out);
    write_text(CLOSE, out);
}

/// The bytes of an op's line, its LF included.
pub fn op_bytes(op: &Op) -> usize {
    let mut line = Vec::new();
    write_op(op, &mut line);
    line.len()
}

#[cfg(test)]
mod tests {
    use super::*;

    const MODULE: &str = "(module 8 8 6 0 0 8 9\n";

    fn refused(text: String) -> Vec<u64> {
        read(text.as_bytes()).expect_err("it is refused").words()
    }

    #[test]
    fn a_limit_is_passed_by_a_whole_line_and_before_any_later_line() {
        let shapes = " (top)".repeat(2 + MAX_PARAMS + 1);
        assert_eq!(refused(format!("{MODULE}(sig{shapes})\n(sig\n")), [2, 0, 0, 2]);
        assert_eq!(refused(format!("{MODULE}(sig{shapes} (x))\n")), [1, 0, 1]);
        assert_eq!(refused(format!("{MODULE}(chunk 33\nx\n")), [2, 0, 0, 3]);
        assert_eq!(refused(format!("{MODULE}(chunk 33")), [1, 0, 1]);
        assert_eq!(refused(format!("{MODULE}(chunk 0\n{}(op x", "(op Dup)\n".repeat(MAX_OPS + 1))), [2, 0, 0, 2]);
    }

    #[test]
    fn with_f_0_an_op_of_kind_5_cannot_follow_wherever_it_stands() {
        for op in ["GetField Flat 0", "GetTupleField Flat 0", "GetEnumField Flat 0", "GetIndex Flat"] {
            for (before, lines) in [("", 2), ("(op Return)\n", 3), (&"(op Dup)\n".repeat(MAX_OPS), 2 + MAX_OPS as u64)]
            {
                let line = |kind: u8| format!("(module 8 0 6 0 0 8 9\n(chunk 0\n{before}(op {op} {kind})\n(op x");
                assert_eq!(refused(line(5)), [1, 0, lines]);
                let past_the_table = before.len() > 100;
                let later = if past_the_table { vec![2, 0, 0, 2] } else { vec![1, 0, lines + 1] };
                assert_eq!(refused(line(6)), later);
            }
        }
    }

    #[test]
    fn f_may_be_0_and_a_constant_of_kind_5_is_read_and_written() {
        let text = "(module 8 0 6 0 0 8 9\n(chunk 0\n(const 5)\n(const 255)\n(op FixedMul 5)\n)\n)\n";
        assert_eq!(write(&read(text.as_bytes()).expect("it is read")), text.as_bytes());
        for head in ["(module 0 8", "(module 0 0", "(module 8 00", "(module 8 3", "(module 8 16"] {
            assert_eq!(refused(format!("{head} 6 0 0 8 9\n)\n")), [1, 0, 0]);
        }
    }

    #[test]
    fn what_is_nearly_a_name_is_none() {
        for name in Op::NAMES {
            let line = |name: &str| format!("{MODULE}(chunk 0\n(op {name}x)\n");
            assert_eq!(refused(line(name)), [1, 0, 2]);
            assert_eq!(refused(line(&name[1..])), [1, 0, 2]);
        }
    }
}
