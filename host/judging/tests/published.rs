//! The samples of test files: what the command makes of them.

use judging::command::{bench, ends, named_sample};
use judging::end::Whole;
use judging::layout::{file_of, place};
use judging::program::{root, Task};
use second::cipher::SETS;
use second::entry;
use second::random::Random;
use second::vectors::short_record;
use std::fs::{self, File};
use std::process::Stdio;

/// The seed with which `second entries` makes the sample of a test file.
const SEED: u64 = 181;

/// Says that the sample of a test file is what the second program makes: six right entries, of which some have no text, some no data.
#[test]
fn the_sample_is_made_by_the_second_program() {
    let mut random = Random::new(SEED);
    let entry = |count| entry::written(count, &short_record(&mut random, &SETS[0]));
    let made: Vec<u8> = (1..=6).flat_map(entry).collect();
    let sample = named_sample("published.txt");
    assert!(made == sample);
    let text = String::from_utf8(sample).expect("plain text");
    let lines: Vec<&str> = text.lines().collect();
    let empty = |line: usize| {
        lines
            .chunks(7)
            .map(move |entry| entry[line].ends_with("= "))
    };
    let fields: Vec<(bool, bool)> = empty(3).zip(empty(4)).collect();
    for kind in [(true, true), (true, false), (false, true), (false, false)] {
        assert!(fields.contains(&kind), "{kind:?}");
    }
}

/// Says that the sample of a test file becomes records, however the command is given it, that each of them is equal, and that they become the file again.
#[test]
fn the_sample() {
    let path = place("published-records");
    let import = Whole::of(Task::Import(1), &named_sample("published.txt"));
    let export = Whole::of(Task::Export, &import.report);
    fs::write(&path, &import.report).expect("a file for the test");
    let (file, records) = (root().join("samples/published.txt"), path);
    let mut ran = 0;
    for (words, path, wanted) in [
        (&["import", "1"][..], &file, &import),
        (&["export"], &records, &export),
    ] {
        let named = path.to_str().expect("a plain path");
        let opened = || Stdio::from(File::open(path).expect("it opens"));
        for (more, input) in [
            (&[named][..], Stdio::null()),
            (&["--", named], Stdio::null()),
            (&["-"], opened()),
            (&["--", "-"], opened()),
            (&[], opened()),
        ] {
            let output = ends(bench("", &[words, more].concat()), input, 0);
            assert!(output.stdout == wanted.report, "{words:?} {more:?}");
            assert_eq!(output.stderr, b"bench: done: records=6\n");
            ran += 1;
        }
    }
    assert_eq!(ran, 10);
    assert!(export.report == named_sample("published.txt"));

    let judged = ends(
        bench("", &[]),
        File::open(&records).expect("it opens").into(),
        0,
    );
    let counts = b"bench: 6 records: 6 equal, 0 differ, 0 unread\n";
    assert_eq!(judged.stderr, counts);
}

/// Says that the sample of a test file is refused for set 2 and for no set, and judged as no records.
#[test]
fn the_sample_for_other_sets() {
    let mut ran = 0;
    for (words, said) in [
        (
            &["import", "2"][..],
            "refused: answer=10 record=1 line=2 column=31",
        ),
        (&["import", "0"], "refused: answer=1"),
        (&["import", "5"], "refused: answer=1"),
        (&["import", "257"], "refused: answer=1"),
        (&["import", "18446744073709551615"], "refused: answer=1"),
        (&["export"], "refused: answer=10 record=1 line=1 column=1"),
        (&["forward"], "refused: answer=10 record=1 line=1 column=1"),
    ] {
        let words = [words, &["samples/published.txt"]].concat();
        let output = ends(bench("", &words), Stdio::null(), 1);
        assert!(output.stdout.is_empty(), "{words:?}");
        assert_eq!(output.stderr, format!("bench: {said}\n").as_bytes());
        ran += 1;
    }
    assert_eq!(ran, 7);
    let output = ends(bench("", &["samples/published.txt"]), Stdio::null(), 1);
    assert_eq!(output.stdout, b"record=1\nverdict=unread\nfield=1\n");
}

/// Says that the published answers of v1.2 become records of their set, which are equal and become the file again, that no other set makes them equal, and that
/// set 2, whose keys are shorter, refuses them.
#[test]
fn the_published_answers_of_v12() {
    let mut ran = 0;
    for (own, sample, entries) in [
        ("3", "published-v12-128.txt", 4),
        ("4", "published-v12-128a.txt", 1),
    ] {
        let file = format!("samples/{sample}");
        for set in ["1", "3", "4"] {
            let read = ends(bench("", &["import", set, &file]), Stdio::null(), 0);
            let done = format!("bench: done: records={entries}\n");
            assert_eq!(read.stderr, done.as_bytes());
            let kept = || Stdio::from(file_of("published-v12", &read.stdout));
            let (equal, status) = if set == own { (entries, 0) } else { (0, 1) };
            let judged = ends(bench("", &[]), kept(), status);
            let differ = entries - equal;
            let counts =
                format!("bench: {entries} records: {equal} equal, {differ} differ, 0 unread\n");
            assert_eq!(judged.stderr, counts.as_bytes(), "{sample} as set {set}");
            let again = ends(bench("", &["export"]), kept(), 0);
            assert!(
                again.stdout == named_sample(sample),
                "{sample} as set {set}"
            );
            ran += 1;
        }
        let refused = ends(bench("", &["import", "2", &file]), Stdio::null(), 1);
        let said = b"bench: refused: answer=10 record=1 line=2 column=31\n";
        assert_eq!(
            (&refused.stdout[..], &refused.stderr[..]),
            (&b""[..], &said[..])
        );
        ran += 1;
    }
    assert_eq!(ran, 8);
}

/// Says that the sample of a test file with a letter for a digit is refused there, by line and column, and is the beginning of the other without it.
#[test]
fn the_broken_sample() {
    let words = ["import", "1", "samples/published-broken.txt"];
    let output = ends(bench("", &words), Stdio::null(), 1);
    let refused = b"bench: refused: answer=10 record=3 line=6 column=21\n";
    assert_eq!(
        (&output.stdout[..], &output.stderr[..]),
        (&b""[..], &refused[..])
    );

    let broken = named_sample("published-broken.txt");
    let broken = String::from_utf8(broken).expect("plain text");
    let whole = broken.replace("CO", "C0");
    assert!(named_sample("published.txt").starts_with(whole.as_bytes()));
    let input = file_of("published-unbroken", whole.as_bytes());
    let output = ends(bench("", &["import", "1"]), input.into(), 0);
    assert_eq!(output.stderr, b"bench: done: records=3\n");
}
