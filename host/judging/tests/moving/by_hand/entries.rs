//! Entries of test files and the records that they are, both ways.

use super::{moved, refused, Case};
use judging::classes::by_hand::CLOSE;
use judging::program::Task;

const IMPORT_1: Task = Task::Import(1);
const IMPORT_2: Task = Task::Import(2);
const EXPORT: Task = Task::Export;

/// The record `CLOSE`, of set 2, as the only entry of a file.
const ENTRY: &str = "Count = 1
Key = 000102030405060708090A0B
Nonce = F0F1F2F3F4F5F6F7F8F9FAFB
PT = 636C6F7365
AD = 76616C7665203132
CT = 06BF4BF2A4DA672106D0B341A823AA0EF5

";

/// An entry of set 1 without data and text.
const EMPTY: &str = "Count = 1
Key = 000102030405060708090A0B0C0D0E0F
Nonce = F0F1F2F3F4F5F6F7F8F9FAFBFCFDFEFF
PT = \nAD = \nCT = 5754E1B71037A0B3FCF92897BF46F9FD

";

/// Its record: twelve rounds at the start and twelve at the end.
const EMPTY_RECORD: &str = "set=1
key=000102030405060708090a0b0c0d0e0f
nonce=f0f1f2f3f4f5f6f7f8f9fafbfcfdfeff
ad=
text=
cipher=
tag=5754e1b71037a0b3fcf92897bf46f9fd
rounds=24
";

/// An entry of set 1 with one block of data, a block of padding, and three bytes of text.
const THREE: &str = "Count = 2
Key = 00000000000000000000000000000000
Nonce = 11111111111111111111111111111111
PT = 616263
AD = ABCDEF0123456789
CT = C1C2C30102030405060708090A0B0C0D0E0F10

";

/// Its record: six rounds behind each of the two blocks of data more.
const THREE_RECORD: &str = "set=1
key=00000000000000000000000000000000
nonce=11111111111111111111111111111111
ad=abcdef0123456789
text=616263
cipher=c1c2c3
tag=0102030405060708090a0b0c0d0e0f10
rounds=36
";

/// Gives the entry with this count.
fn counted(entry: &str, count: &str) -> String {
    let (_, rest) = entry.split_once('\n').expect("a first line");
    format!("Count = {count}\n{rest}")
}

/// Gives the entry as often as said, counted from 1.
fn row(entry: &str, count: usize) -> String {
    let entry = |count: usize| counted(entry, &count.to_string());
    (1..=count).map(entry).collect()
}

/// Gives the cases.
pub fn cases() -> Vec<Case> {
    let all = [known(), no_sets(), counts(), lines(), rows(), exported()];
    all.concat()
}

/// Gives files that become records.
#[rustfmt::skip]
fn known() -> Vec<Case> {
    let no_cipher = ENTRY.replace("06BF4BF2A4", "");
    let no_text = ENTRY.replace("PT = 636C6F7365", "PT = ");
    let longest = ENTRY.replace("06BF4BF2A4", &"5A".repeat(256));
    vec![
        moved("nothing for set 1", IMPORT_1, &[], &[], "done: records=0"),
        moved("nothing for set 2", IMPORT_2, &[], &[], "done: records=0"),
        moved("one of set 2", IMPORT_2, &[ENTRY], &[CLOSE], "done: records=1"),
        moved("one of set 1", IMPORT_1, &[EMPTY], &[EMPTY_RECORD], "done: records=1"),
        moved("two of set 1", IMPORT_1, &[EMPTY, THREE], &[EMPTY_RECORD, THREE_RECORD], "done: records=2"),
        moved("twelve", IMPORT_2, &[&row(ENTRY, 12)], &[CLOSE; 12], "done: records=12"),
        moved("no cipher", IMPORT_2, &[&no_cipher], &[&CLOSE.replace("06bf4bf2a4", "")], "done: records=1"),
        moved("no text", IMPORT_2, &[&no_text], &[&CLOSE.replace("636c6f7365", "")], "done: records=1"),
        moved("a cipher of 256 bytes", IMPORT_2, &[&longest], &[&CLOSE.replace("06bf4bf2a4", &"5a".repeat(256))], "done: records=1"),
    ]
}

/// Gives files for sets that there are not.
#[rustfmt::skip]
fn no_sets() -> Vec<Case> {
    vec![
        refused("nothing for set 0", Task::Import(0), &[], "refused: answer=1"),
        refused("an entry for set 5", Task::Import(5), &[ENTRY], "refused: answer=1"),
        refused("a broken entry for set 5", Task::Import(5), &["x"], "refused: answer=1"),
        refused("an entry of set 1 for set 257", Task::Import(257), &[EMPTY], "refused: answer=1"),
    ]
}

/// Gives files with wrong counts.
#[rustfmt::skip]
fn counts() -> Vec<Case> {
    let of = |count| counted(ENTRY, count);
    let nine = row(ENTRY, 9);
    vec![
        refused("count 0", IMPORT_2, &[&of("0")], "refused: answer=10 record=1 line=1 column=9"),
        refused("count 2 first", IMPORT_2, &[&of("2")], "refused: answer=10 record=1 line=1 column=9"),
        refused("count 01", IMPORT_2, &[&of("01")], "refused: answer=10 record=1 line=1 column=9"),
        refused("count 10 first", IMPORT_2, &[&of("10")], "refused: answer=10 record=1 line=1 column=10"),
        refused("no count", IMPORT_2, &[&of("")], "refused: answer=10 record=1 line=1 column=9"),
        refused("count 1 again", IMPORT_2, &[ENTRY, ENTRY], "refused: answer=10 record=2 line=1 column=9"),
        refused("count 3 second", IMPORT_2, &[ENTRY, &of("3")], "refused: answer=10 record=2 line=1 column=9"),
        refused("count 1 tenth", IMPORT_2, &[&nine, &of("1")], "refused: answer=10 record=10 line=1 column=10"),
        refused("count 11 tenth", IMPORT_2, &[&nine, &of("11")], "refused: answer=10 record=10 line=1 column=10"),
    ]
}

/// Gives entries with a wrong line.
#[rustfmt::skip]
fn lines() -> Vec<Case> {
    let with = |from: &str, to: &str| ENTRY.replace(from, to);
    let long = "AA".repeat(257);
    vec![
        refused("a key of set 2 for set 1", IMPORT_1, &[ENTRY], "refused: answer=10 record=1 line=2 column=31"),
        refused("a key of set 1 for set 2", IMPORT_2, &[EMPTY], "refused: answer=10 record=1 line=2 column=31"),
        refused("a nonce of 11 bytes", IMPORT_2, &[&with("FAFB", "FA")], "refused: answer=10 record=1 line=3 column=31"),
        refused("no text and no blank", IMPORT_1, &[&EMPTY.replace("PT = ", "PT =")], "refused: answer=10 record=1 line=4 column=5"),
        refused("no blanks", IMPORT_2, &[&with("PT = ", "PT=")], "refused: answer=10 record=1 line=4 column=3"),
        refused("a text of 257 bytes", IMPORT_2, &[&with("636C6F7365", &long)], "refused: answer=10 record=1 line=4 column=518"),
        refused("data of 257 bytes", IMPORT_2, &[&with("76616C7665203132", &long)], "refused: answer=10 record=1 line=5 column=518"),
        refused("a digit too few", IMPORT_2, &[&with("203132", "20313")], "refused: answer=10 record=1 line=5 column=21"),
        refused("a lower-case digit", IMPORT_2, &[&with("06BF", "06bF")], "refused: answer=10 record=1 line=6 column=8"),
        refused("a tag of 11 bytes alone", IMPORT_2, &[&with("06BF4BF2A4DA", "")], "refused: answer=10 record=1 line=6 column=28"),
        refused("a cipher of 257 bytes", IMPORT_2, &[&with("06BF4BF2A4", &long)], "refused: answer=10 record=1 line=6 column=542"),
        refused("data before the text", IMPORT_2, &[&with("PT = ", "AD = ")], "refused: answer=10 record=1 line=4 column=1"),
        refused("no empty line", IMPORT_2, &[ENTRY.trim_end(), "\n"], "refused: answer=10 record=1 line=7 column=1"),
        refused("no last line feed", IMPORT_2, &[ENTRY.trim_end()], "refused: answer=10 record=1 line=6 column=40"),
        refused("carriage returns", IMPORT_2, &[&with("\n", "\r\n")], "refused: answer=10 record=1 line=1 column=10"),
    ]
}

/// Gives rows of entries that go wrong.
#[rustfmt::skip]
fn rows() -> Vec<Case> {
    let [two, three] = ["2", "3"].map(|count| counted(ENTRY, count));
    let broken = three.replace("Nonce = F0", "Nonce = f0");
    vec![
        refused("two empty lines", IMPORT_2, &[ENTRY, "\n", &two], "refused: answer=10 record=2 line=1 column=1"),
        refused("no empty line between", IMPORT_2, &[ENTRY.trim_end(), "\n", &two], "refused: answer=10 record=1 line=7 column=1"),
        refused("a broken third", IMPORT_2, &[ENTRY, &two, &broken], "refused: answer=10 record=3 line=3 column=9"),
        refused("a third of set 1", IMPORT_2, &[ENTRY, &two, &counted(EMPTY, "3")], "refused: answer=10 record=3 line=2 column=31"),
        refused("a record", IMPORT_2, &[CLOSE], "refused: answer=10 record=1 line=1 column=1"),
        refused("a record behind an entry", IMPORT_2, &[ENTRY, CLOSE], "refused: answer=10 record=2 line=1 column=1"),
    ]
}

/// Gives records that become files, and others.
#[rustfmt::skip]
fn exported() -> Vec<Case> {
    let form_2 = CLOSE.replace("set=2\n", "form=2\nset=2\nchip=0\n");
    let wrong_rounds = CLOSE.replace("rounds=32", "rounds=9999999");
    let broken_rounds = CLOSE.replace("rounds=32", "rounds=032");
    let (no_cipher, no_cipher_record) = (ENTRY.replace("06BF4BF2A4", ""), CLOSE.replace("06bf4bf2a4", ""));
    vec![
        moved("no records", EXPORT, &[], &[], "done: records=0"),
        moved("a record of set 2", EXPORT, &[CLOSE], &[ENTRY], "done: records=1"),
        moved("records of set 1", EXPORT, &[EMPTY_RECORD, THREE_RECORD], &[EMPTY, THREE], "done: records=2"),
        moved("records of sets 1 and 2", EXPORT, &[CLOSE, THREE_RECORD, CLOSE], &[ENTRY, THREE, &counted(ENTRY, "3")], "done: records=3"),
        moved("twelve records", EXPORT, &[CLOSE; 12], &[&row(ENTRY, 12)], "done: records=12"),
        moved("wrong rounds", EXPORT, &[&wrong_rounds], &[ENTRY], "done: records=1"),
        moved("a record without cipher", EXPORT, &[&no_cipher_record], &[&no_cipher], "done: records=1"),
        refused("broken rounds", EXPORT, &[&broken_rounds], "refused: answer=10 record=1 line=8 column=9"),
        refused("form 2", EXPORT, &[&form_2], "refused: answer=10 record=1 line=1 column=1"),
        refused("form 2 behind form 1", EXPORT, &[CLOSE, &form_2], "refused: answer=10 record=2 line=1 column=1"),
        refused("an entry", EXPORT, &[ENTRY], "refused: answer=10 record=1 line=1 column=1"),
        refused("upper-case data", EXPORT, &[CLOSE, &CLOSE.replace("ad=766", "ad=76C")], "refused: answer=10 record=2 line=4 column=6"),
        refused("no last line feed of a record", EXPORT, &[CLOSE.trim_end()], "refused: answer=10 record=1 line=8 column=10"),
        refused("an empty line behind a record", EXPORT, &[CLOSE, "\n"], "refused: answer=10 record=2 line=1 column=1"),
        refused("an unknown set", EXPORT, &[&CLOSE.replace("set=2", "set=5")], "refused: answer=10 record=1 line=1 column=5"),
    ]
}
