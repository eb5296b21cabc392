//! Tables to be written: of random words, of a listing with one word changed, and some at the ends of what they may hold.

use crate::bytecode::FLOAT_TAG;
use crate::forms::{op_forms, with};
use crate::listing::{MAX_BYTES, MAX_LOCALS, MAX_OPS};
use crate::random::Random;
use crate::words::{self, Table, Words};

/// Numbers at the ends of what words may say, and just past them.
/// Of a shape's word those with 42 bits are the greatest; 2^54 is so great that a product with the 1,024 of a SIZE is cut to 0.
#[rustfmt::skip]
pub const BOUNDS: [u64; 45] = [
    0, 1, 2, 3, 4, 5, 6, 7, 8, 9, 15, 16, 17, 18, 19, 31, 32, 33, 63, 64, 65, 74, 75,
    254, 255, 256, 257, 1_021, 1_022, 1_024, 1_025, 4_095, 4_096, 4_097, 65_535, 65_536, 65_537,
    (1 << 32) - 1, 1 << 32, (1 << 42) - 2, (1 << 42) + 2, 1 << 54, (1 << 63) - 1, 1 << 63, u64::MAX,
];

fn bound(random: &mut Random) -> u64 {
    random.pick(&BOUNDS)
}

// ── One word changed ─────────────────────────────────────────────────────────────────────

/// A change of a word: its place, and what comes there.
#[derive(Clone, Copy)]
pub struct Change {
    pub at: usize,
    pub value: u64,
}

/// A change of tables whose words in use are these, more often than not of one of them.
pub fn change(random: &mut Random, words: &Words, in_use: &[(usize, u64)]) -> Change {
    let at = match random.below(10) {
        0 => random.pick(&Table::ALL).count(),
        1 => place_in(random, in_use, Table::Module, |_| true),
        2 => place_in(random, in_use, Table::Chunk, |_| true),
        3 => place_in(random, in_use, Table::Op, |word| word == 0),
        4..=7 => random.pick(in_use).0,
        _ => random.below(words::COUNT),
    };
    let value = match random.below(8) {
        0 => words[at].wrapping_add(1),
        1 => words[at].wrapping_sub(1),
        2 => words[at] ^ (1 << random.below(64)),
        3 => random.next(),
        _ => bound(random),
    };
    Change { at, value }
}

/// The place of a word in use of a table's row, chosen by its number in the row; of the first row where there is none.
fn place_in(random: &mut Random, in_use: &[(usize, u64)], table: Table, is_wanted: fn(usize) -> bool) -> usize {
    let places =
        in_use.iter().map(|(at, _)| *at).filter(|at| table.row_and_word(*at).is_some_and(|(_, word)| is_wanted(word)));
    let places: Vec<usize> = places.collect();
    if places.is_empty() { table.at(0, 0) } else { random.pick(&places) }
}

// ── Random words ─────────────────────────────────────────────────────────────────────────

/// Fills the tables at random: with any words, with one number, with little, or with modules of which some listing gives many.
pub fn fill(random: &mut Random, words: &mut Words) {
    match random.below(12) {
        0 => words.fill_with(|| random.next()),
        1 => {
            let number = bound(random);
            words.fill(number);
            words[Table::Module.count()] = random.pick(&[1, number]);
        }
        2 => {
            words.fill(0);
            words[Table::Module.count()] = 1;
            for _ in 0..random.below(20) {
                words[random.below(words::COUNT)] = bound(random);
            }
        }
        // What is not in use keeps what was there.
        _ => Rows { wild_per_mille: random.pick(&[0, 0, 2, 10, 50, 300]), random, words }.fill(),
    }
}

/// Rows whose words are within their bounds, but for some.
struct Rows<'a> {
    random: &'a mut Random,
    words: &'a mut Words,
    /// How many words of a thousand may be any.
    wild_per_mille: usize,
}

impl Rows<'_> {
    fn put(&mut self, at: usize, number: u64) {
        let is_wild = self.random.below(1_000) < self.wild_per_mille;
        self.words[at] = if is_wild { bound(self.random) } else { number };
    }

    /// Puts numbers from 0 to each of these.
    fn put_up_to(&mut self, at: usize, most: &[u64]) {
        for (word, most) in most.iter().enumerate() {
            let number = self.up_to(*most);
            self.put(at + word, number);
        }
    }

    fn up_to(&mut self, most: u64) -> u64 {
        let any = self.random.next() % (most + 1);
        self.random.pick(&[0, any, any, most])
    }

    fn fill(&mut self) {
        let counts = Table::ALL.map(|table| self.count(table));
        for table in Table::ALL {
            self.put(table.count(), counts[table as usize]);
            for row in 0..counts[table as usize] as usize {
                self.row(table, row);
            }
        }
        self.chunks(counts);
    }

    fn count(&mut self, table: Table) -> u64 {
        let most = table.most() as u64;
        match self.random.below(60) {
            _ if table == Table::Module => 1,
            // Constants and instructions without a chunk are few.
            0..4 if table == Table::Chunk => 0,
            4 => most,
            5..20 => self.random.below(20) as u64,
            _ => u64::from(table == Table::Chunk) + self.random.below(3) as u64,
        }
    }

    fn row(&mut self, table: Table, row: usize) {
        const BITS_8: u64 = u8::MAX as u64;
        const BITS_16: u64 = u16::MAX as u64;
        const BITS_32: u64 = u32::MAX as u64;
        let at = table.at(row, 0);
        match table {
            Table::Module => self.header(at),
            Table::Slot => self.put_up_to(at, &[1]),
            Table::Shared => self.put_up_to(at + 1, &[BITS_32, BITS_8, BITS_16]),
            Table::Private => self.put_up_to(at + 1, &[BITS_16, BITS_32]),
            Table::Enum => self.put_up_to(at + 1, &[BITS_32]),
            Table::Native => self.shape(at + 1),
            Table::Sig => {
                let shapes = words::FIXED_SHAPES + self.random.pick(&[0, 1, 2, 3, 15, 16]);
                self.put(at, shapes as u64);
                (1..=shapes).for_each(|word| self.shape(at + word));
            }
            Table::Chunk => self.put_up_to(at + 1, &[u64::from(MAX_LOCALS)]),
            Table::Const => {
                let kind = self.random.pick(&[0, 1, 2, 3, 4, 5, 6, 255]);
                self.put(at + 1, kind);
            }
            Table::Op => {
                let code = self.random.below(words::FORMS.len());
                self.put(at, code as u64);
                self.put_up_to(at + 1, &words::FORMS[code].maxima);
            }
        }
    }

    fn header(&mut self, at: usize) {
        let index_code = self.random.word();
        let host_code = if self.random.chance(90) { index_code.wrapping_add(1) } else { self.random.word() };
        let row = [
            self.random.pick(&[1, 2, 4, 8]),
            self.random.pick(&[0, 1, 2, 4, 8, 8]),
            self.random.pick(&[3, 4, 5, 6]),
            u64::from(self.random.long()),
            u64::from(self.random.long()),
            u64::from(index_code),
            u64::from(host_code),
        ];
        row.into_iter().enumerate().for_each(|(word, number)| self.put(at + 1 + word, number));
    }

    fn shape(&mut self, at: usize) {
        let (kind, size) = (self.up_to(u64::from(u8::MAX)), self.up_to(u64::from(u32::MAX)));
        let shape = self.random.pick(&["top)".to_string(), format!("scalar {kind})"), format!("flat {kind} {size})")]);
        self.put(at, words::shape_word(&shape));
    }

    /// Where the constants and instructions of each chunk begin: in order, but for some.
    fn chunks(&mut self, counts: [u64; Table::ALL.len()]) {
        for (table, word) in words::OF_CHUNKS {
            let chunks = counts[Table::Chunk as usize] as usize;
            let end = counts[table as usize];
            let mut firsts: Vec<u64> = (1..chunks).map(|_| self.random.next() % (end + 1)).collect();
            firsts.sort_unstable();
            for (chunk, first) in [0].into_iter().chain(firsts).take(chunks).enumerate() {
                self.put(Table::Chunk.at(chunk, word), first);
            }
        }
    }
}

// ── At the ends ──────────────────────────────────────────────────────────────────────────

/// Lines of listings that tables have room for. Of some no listing has them: their numbers are too great, or they too many.
pub fn at_the_ends() -> Vec<String> {
    let mut texts = ops_at_their_ends();
    texts.extend(long());
    texts.extend(full());
    texts
}

/// Each op with its least operands, its greatest, and each of them too great by one and as great as can be; and each that
/// names a kind with kind 5 and F 0.
fn ops_at_their_ends() -> Vec<String> {
    let mut texts = Vec::new();
    for form in op_forms() {
        let mut all = vec![vec![0; form.maxima.len()], form.maxima.clone()];
        for at in 0..form.maxima.len() {
            for past in [form.maxima[at] + 1, u64::MAX] {
                let mut operands = form.maxima.clone();
                operands[at] = past;
                all.push(operands);
            }
        }
        if let Some((_, before)) = form.maxima.split_last() {
            all.push([before, &[u64::from(FLOAT_TAG)]].concat());
        }
        for operands in all {
            for float_bytes in [0, 8] {
                let op = with(&form.text, &operands);
                texts.push(format!("(module 8 {float_bytes} 6 0 0 8 9\n(chunk 0\n(op {op})\n)\n)\n"));
            }
        }
    }
    texts
}

/// Modules of some bytes fewer than a listing may have, of as many, of some more, and of many more.
fn long() -> Vec<String> {
    const LONGEST: &str = "(op GetDataIndexed 4294967295 4294967295)\n";
    let text = |last: &str, lines: usize| {
        format!("(module 8 8 6 0 0 8 9\n(chunk 0\n{}(op SetData {last})\n)\n)\n", LONGEST.repeat(lines))
    };
    let lines = (MAX_BYTES - text("1", 0).len()) / LONGEST.len();
    let mut texts: Vec<String> = (1..=10).map(|digits| text(&"1".repeat(digits), lines)).collect();
    let lengths: Vec<usize> = texts.iter().map(String::len).collect();
    assert!(lengths.contains(&MAX_BYTES) && lengths.contains(&(MAX_BYTES + 1)), "{lengths:?}");
    texts.extend([text("1", lines + 1), text("1", 2_000), text("1", MAX_OPS - 1)]);
    texts
}

/// Every table full, of the shortest lines: the first chunk has all instructions and the last all constants. Of longer
/// ones it would be no listing.
fn full() -> [String; 2] {
    let lines = |line: &str, table: Table| line.repeat(table.most());
    let tables = [
        ("(slot shared)\n", Table::Slot),
        ("(shared 0 0 0)\n", Table::Shared),
        ("(private 0 0)\n", Table::Private),
        ("(enum 0)\n", Table::Enum),
        ("(native (top))\n", Table::Native),
        ("(sig (top) (top))\n", Table::Sig),
    ];
    let tables: String = tables.into_iter().map(|(line, table)| lines(line, table)).collect();
    let constants = lines("(const 0)\n", Table::Const);
    let between = "(chunk 0\n)\n".repeat(Table::Chunk.most() - 2);
    ["(op Dup)\n", "(op PopN 255)\n"].map(|op| {
        let first = format!("(chunk 0\n{})\n", lines(op, Table::Op));
        format!("(module 8 8 6 0 0 8 9\n{tables}{first}{between}(chunk 32\n{constants})\n)\n")
    })
}

/// Lines of every form, among them a signature with all its parameters, and chunks with constants and instructions, with
/// either, and with none.
pub const EACH: &str = "(module 4 2 5 4294967295 64 65535 0
(slot shared)
(slot private)
(shared 4294967295 255 65535)
(shared 0 0 0)
(private 65535 4294967295)
(enum 4294967295)
(native (flat 255 4294967295))
(native (scalar 255))
(sig (top) (scalar 5))
(sig (top) (top) (top) (top) (top) (top) (top) (top) (top) (top) (top) (top) (top) (top) (top) (top) (scalar 7) (flat 3 1))
(chunk 32
(const 255)
(const 5)
(op IsEnum 65535 0 65535)
(op GetIndex Boxed)
(op GetField Flat 65535 5)
)
(chunk 0
)
(chunk 1
(const 0)
)
(chunk 2
(op PopN 255)
(op Return)
)
)
";
