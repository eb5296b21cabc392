//! The listings of the conformance kit, read into tables and written back; and tables that no listing gives.

mod common;

use stagecheck::{Counts, Refusal, TABLE_WORDS, Tables, check, read};

/// A line of each form.
const EVERY_FORM: &[u8] = b"(module 4 0 5 4294967295 0 8 65535
(slot shared)
(slot private)
(shared 0 255 16)
(private 1 7)
(enum 9)
(native (scalar 5))
(sig (top) (flat 3 10) (scalar 0) (top))
(chunk 32
(const 255)
(op Const 0)
(op GetField FlatNested 1 20 3)
(op GetIndex Boxed)
(op Return)
)
(chunk 0
)
)
";

/// What every byte of a buffer is before a call.
const BEFORE: u8 = 0xEE;

const NO_LISTING: Refusal = Refusal::CannotFollow { lines: 0 };

/// Writes into a buffer of some length, with what the buffer is then.
fn written(tables: &Tables, length: usize) -> (Result<usize, Refusal>, Vec<u8>) {
    let mut out = vec![BEFORE; length];
    (tables.write(&mut out), out)
}

/// The stored text says that the listing cannot be read: refusal 1, or 2 with limits 1 to 3.
fn is_refused_in_reading(text: &str) -> bool {
    text.starts_with("refused 1 ") || ["1", "2", "3"].iter().any(|limit| text == format!("refused 2 0 0 {limit}\n"))
}

#[test]
fn what_reads_is_written_as_the_same_bytes() {
    let mut tables = Tables::new();
    let (mut back, mut refused, mut unread) = (0, 0, 0);
    for (listing, text) in common::listings("conformance/listings", "answer") {
        let answer = tables.read(&listing);
        if is_refused_in_reading(&text) {
            assert_eq!(answer.err(), check(&listing).err(), "{text}");
            unread += 1;
            continue;
        }
        let counts = answer.expect("it is read");
        match check(&listing) {
            Ok(accepted) => {
                let instructions = accepted.instructions() as u64;
                assert_eq!(counts, Counts { chunks: accepted.chunks(), instructions });
                back += 1;
            }
            Err(_) => refused += 1,
        }
        let length = listing.len();
        let too_short = Refusal::BufferTooShort { needed: length as u64 };
        assert_eq!(written(&tables, length), (Ok(length), listing.clone()));
        assert_eq!(written(&tables, length - 1), (Err(too_short), vec![BEFORE; length - 1]));
        assert_eq!(written(&tables, 0), (Err(too_short), Vec::new()));
        let longer = [&listing[..], &[BEFORE; 9]].concat();
        assert_eq!(written(&tables, length + 9), (Ok(length), longer));
        assert_eq!(tables.to_listing(), Ok(listing));
    }
    assert!(back > 0 && refused > 0 && unread > 0, "{back} accepted, {refused} refused, {unread} not read");
}

#[test]
fn no_listing_gives_new_tables() {
    assert_eq!(written(&Tables::new(), 100), (Err(NO_LISTING), vec![BEFORE; 100]));
    assert_eq!(written(&Tables::new(), 0), (Err(NO_LISTING), Vec::new()));
    assert_eq!(Tables::new().to_listing(), Err(NO_LISTING));
}

/// No word that counts may be the largest that there is. In use are ten counts, seven words of the first line, two
/// slots, 3, 2, 1 and 1 words of the next four lines, 5 of the signature, 3 for each chunk, the constant, and 2, 4, 1
/// and 1 words of the instructions. All other words may hold anything.
#[test]
fn a_word_in_use_is_refused_and_not_cut() {
    let kept = read(EVERY_FORM).expect("it is read");
    let mut in_use = 0;
    for at in 0..TABLE_WORDS {
        let mut words = Box::new(*kept.words());
        words[at] = u64::MAX;
        let changed = Tables::from(words);
        match changed.to_listing() {
            Ok(listing) => assert_eq!(listing, EVERY_FORM, "word {at}"),
            Err(refusal) => {
                assert_eq!(refusal, NO_LISTING, "word {at}");
                assert_eq!(written(&changed, 0), (Err(NO_LISTING), Vec::new()), "word {at}");
                in_use += 1;
            }
        }
    }
    assert_eq!(in_use, 10 + 7 + 2 + 3 + 2 + 1 + 1 + 5 + 2 * 3 + 1 + 2 + 4 + 1 + 1);
}

#[test]
fn what_tables_held_before_is_of_no_account() {
    let mut used = Tables::from(Box::new([u64::MAX; TABLE_WORDS]));
    assert_eq!(used.read(EVERY_FORM), Ok(Counts { chunks: 2, instructions: 4 }));
    assert_eq!(used.to_listing().as_deref(), Ok(EVERY_FORM));
}

#[test]
fn a_buffer_too_short_says_what_is_needed() {
    let refusal = read(EVERY_FORM).expect("it is read").write(&mut []).unwrap_err();
    let needed = EVERY_FORM.len() as u64;
    assert_eq!((refusal.number(), refusal.numbers()), (20, vec![20, 0, needed]));
    assert_eq!((refusal.chunk(), refusal.ip()), (None, None));
    assert_eq!(refusal.to_string(), format!("the listing needs a buffer of {needed} bytes"));
}
