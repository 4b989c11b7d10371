//! Moving records from form 1 to form 2 and back: one record, and whole inputs.

use second::cipher::{set_numbers, SETS};
use second::make::lines_of;
use second::moving::{back, forward, move_all, Direction, Lengths, Moved};
use second::random::Random;
use second::record::{Broken, Form, Refused};
use second::vectors;

/// The lines of a record of any set but the second behind those of set and chip.
const REST_1: &str = "key=000102030405060708090a0b0c0d0e0f\n\
    nonce=101112131415161718191a1b1c1d1e1f\n\
    ad=a0a1\n\
    text=b0b1b2\n\
    cipher=c0c1c2\n\
    tag=f0e0d0c0b0a090807060504030201000\n\
    rounds=30\n";

/// The lines of a record of set 2 behind those of set and chip.
const REST_2: &str = "key=000102030405060708090a0b\n\
    nonce=101112131415161718191a1b\n\
    ad=\n\
    text=\n\
    cipher=\n\
    tag=f0e0d0c0b0a0908070605040\n\
    rounds=0\n";

/// What one move gives.
type Given = Result<Lengths, Refused>;

/// Moving one record, forward or back.
type Way = fn(&[u8], &mut [u8]) -> Given;

/// Gives the text of form 1 of the record of the set.
fn old(set: u64) -> String {
    match set {
        2 => format!("set=2\n{REST_2}"),
        _ => format!("set={set}\n{REST_1}"),
    }
}

/// Gives the text of form 2 of the record of the set, with those characters as its chip.
fn new(set: u64, chip: &str) -> String {
    match set {
        2 => format!("form=2\nset=2\nchip={chip}\n{REST_2}"),
        _ => format!("form=2\nset={set}\nchip={chip}\n{REST_1}"),
    }
}

/// Gives the record of set 1 that has the longest text of all, as form 1 and as form 2 with chip 0.
fn longest() -> (String, String) {
    let (key, full) = ("5a".repeat(16), "c3".repeat(256));
    let rest = format!(
        "key={key}\nnonce={key}\nad={full}\ntext={full}\ncipher={full}\ntag={key}\nrounds=9999999\n"
    );
    (
        format!("set=1\n{rest}"),
        format!("form=2\nset=1\nchip=0\n{rest}"),
    )
}

/// Gives pairs of texts of form 1 and of form 2 with chip 0 that hold the same.
fn pairs() -> Vec<(String, String)> {
    let of_sets = set_numbers().map(|set| (old(set), new(set, "0")));
    of_sets.chain([longest()]).collect()
}

/// Gives the answer of a record that breaks there.
fn broken(line: u64, column: u64) -> Given {
    Err(Refused::Broken(Broken { line, column }))
}

/// Gives what a move gives with so much room, having checked that a refusal leaves the room as it was.
fn tried(way: Way, text: &[u8], room: usize) -> (Given, Vec<u8>) {
    let mut out = vec![0x77; room];
    let given = way(text, &mut out);
    if given.is_err() {
        assert!(out.iter().all(|byte| *byte == 0x77));
    }
    (given, out)
}

/// Checks that a move is refused so whatever the room up to the given one, and gives how many it tried.
fn check_refused(way: Way, text: &[u8], rooms: usize, wanted: Given) -> usize {
    let mut ran = 0;
    for room in 0..=rooms {
        let shown = String::from_utf8_lossy(text);
        assert_eq!(tried(way, text, room).0, wanted, "room {room}: {shown}");
        ran += 1;
    }
    ran
}

/// Checks that a move writes what is wanted in every room that suffices and is refused with 6 in every other.
fn check_rooms(way: Way, text: &str, wanted: &str) -> usize {
    let written = wanted.len();
    let taken = text.len();
    let short = Err(Refused::Short);
    let mut ran = check_refused(way, text.as_bytes(), written - 1, short);
    for room in written..written + 20 {
        let (given, out) = tried(way, text.as_bytes(), room);
        assert_eq!(given, Ok(Lengths { taken, written }));
        assert_eq!(out[..written], *wanted.as_bytes());
        assert!(out[written..].iter().all(|byte| *byte == 0x77));
        ran += 1;
    }
    ran
}

/// Says what moving forward writes, letter for letter.
#[test]
fn forward_written_down() {
    let text = "set=2\nkey=000102030405060708090a0b\nnonce=101112131415161718191a1b\n\
        ad=a0a1\ntext=b0\ncipher=c0\ntag=f0e0d0c0b0a0908070605040\nrounds=1234567\n";
    let wanted = "form=2\nset=2\nchip=0\nkey=000102030405060708090a0b\n\
        nonce=101112131415161718191a1b\nad=a0a1\ntext=b0\ncipher=c0\n\
        tag=f0e0d0c0b0a0908070605040\nrounds=1234567\n";
    let (given, out) = tried(forward, text.as_bytes(), 200);
    let (taken, written) = (6 + 29 + 31 + 8 + 8 + 10 + 29 + 15, 7 + 6 + 7 + 130);
    assert_eq!(given, Ok(Lengths { taken, written }));
    assert_eq!(out[..written], *wanted.as_bytes());
    assert!(out[written..].iter().all(|byte| *byte == 0x77));
}

/// Says what moving back writes, letter for letter.
#[test]
fn back_written_down() {
    let text = "form=2\nset=1\nchip=0\nkey=000102030405060708090a0b0c0d0e0f\n\
        nonce=101112131415161718191a1b1c1d1e1f\nad=\ntext=\ncipher=\n\
        tag=f0e0d0c0b0a090807060504030201000\nrounds=24\n";
    let wanted = "set=1\nkey=000102030405060708090a0b0c0d0e0f\n\
        nonce=101112131415161718191a1b1c1d1e1f\nad=\ntext=\ncipher=\n\
        tag=f0e0d0c0b0a090807060504030201000\nrounds=24\n";
    let (given, out) = tried(back, text.as_bytes(), 200);
    let (taken, written) = (7 + 6 + 7 + 141, 6 + 37 + 39 + 4 + 6 + 8 + 37 + 10);
    assert_eq!(given, Ok(Lengths { taken, written }));
    assert_eq!(out[..written], *wanted.as_bytes());
    assert!(out[written..].iter().all(|byte| *byte == 0x77));
}

/// Says that the numbers of the refusals are those of the rules.
#[test]
fn numbers_of_the_refusals() {
    let broken = Refused::Broken(Broken { line: 2, column: 3 });
    assert_eq!(broken.number(), 10);
    assert_eq!(Refused::Chip.number(), 11);
    assert_eq!(Refused::Short.number(), 6);
}

/// Says what each room gives, both ways, from none to more than enough.
#[test]
fn every_room() {
    let mut ran = 0;
    let mut rooms = 0;
    for (one, two) in pairs() {
        ran += check_rooms(forward, &one, &two);
        ran += check_rooms(back, &two, &one);
        rooms += one.len() + two.len() + 40;
    }
    assert_eq!(ran, rooms);
    // The longest text of form 1, and with two lines of 7 bytes more.
    let (one, two) = longest();
    assert_eq!((one.len(), two.len()), (1_688, 1_702));
}

/// Says that a chip other than 0 is refused with 11 in every room.
#[test]
fn chips_before_short_rooms() {
    let mut ran = 0;
    for set in set_numbers() {
        for chip in [
            "1", "7", "9", "10", "256", "9999", "10000", "32768", "65535",
        ] {
            let text = new(set, chip);
            ran += check_refused(back, text.as_bytes(), 200, Err(Refused::Chip));
        }
    }
    assert_eq!(ran, SETS.len() * 9 * 201);
}

/// Says that of all chips only 0 goes back.
#[test]
fn every_chip() {
    let (mut refused, mut moved) = (0, 0);
    for chip in 0..=65_535 {
        let text = new(2, &chip.to_string());
        match tried(back, text.as_bytes(), 200).0 {
            Ok(_) => moved += 1,
            other => {
                assert_eq!(other, Err(Refused::Chip));
                assert_ne!(chip, 0);
                refused += 1;
            }
        }
    }
    assert_eq!((refused, moved), (65_535, 1));
}

/// Says that chips of no right form are refused with 10 in every room, and where.
#[test]
fn chips_of_no_right_form() {
    let cases = [
        ("", 6),
        ("a", 6),
        ("f", 6),
        ("+1", 6),
        ("-1", 6),
        ("-0", 6),
        (" 1", 6),
        ("00", 7),
        ("01", 7),
        ("0 ", 7),
        ("1x", 7),
        ("65536", 10),
        ("70000", 10),
        ("99999", 10),
        ("65536x", 10),
        ("100000", 11),
        ("655350", 11),
        ("65535 ", 11),
    ];
    let mut ran = 0;
    for set in set_numbers() {
        for (chip, column) in cases {
            let text = new(set, chip);
            ran += check_refused(back, text.as_bytes(), 200, broken(3, column));
        }
    }
    assert_eq!(ran, SETS.len() * 18 * 201);
}

/// Says that a broken line is refused with 10 in every room, whatever the chip in front of it or behind.
#[test]
fn broken_lines_before_chips_and_short_rooms() {
    let cases = [
        ("form=2", "form=1", 1, 6),
        ("form=2", "form=3", 1, 6),
        ("form=2", "form=02", 1, 6),
        ("form=2", "form=22", 1, 7),
        ("form=2", "form=2 ", 1, 7),
        ("form=2", "Form=2", 1, 1),
        ("set=1", "set=5", 2, 5),
        ("key=00", "key=0g", 4, 6),
        ("nonce=10", "nonce=1", 5, 38),
        ("ad=a0a1", "ad=a0a", 6, 7),
        ("text=b0", "text=B0", 7, 6),
        ("cipher=", "cipher", 8, 7),
        ("tag=f0", "tag=f0f0", 9, 37),
        ("rounds=30", "rounds=030", 10, 9),
        ("rounds=30\n", "rounds=30", 10, 10),
        ("rounds=30\n", "", 10, 1),
    ];
    let mut ran = 0;
    for chip in ["0", "1", "65535"] {
        for (from, to, line, column) in cases {
            let text = new(1, chip).replace(from, to);
            ran += check_refused(back, text.as_bytes(), 200, broken(line, column));
        }
    }
    assert_eq!(ran, 3 * 16 * 201);
}

/// Says that a broken line of form 1 is refused with 10 in every room, and where.
#[test]
fn broken_lines_of_form_1() {
    let cases = [
        ("set=1", "set=5", 1, 5),
        ("set=1", "form=2\nset=1", 1, 1),
        ("set=1", "form=1\nset=1", 1, 1),
        ("set=1", "set=1\nchip=0", 2, 1),
        ("key=00", "key=0g", 2, 6),
        ("nonce=10", "nonce=1", 3, 38),
        ("ad=a0a1", "ad=a0a", 4, 7),
        ("text=b0", "text=B0", 5, 6),
        ("cipher=", "cipher", 6, 7),
        ("tag=f0", "tag=f0f0", 7, 37),
        ("rounds=30", "rounds=030", 8, 9),
        ("rounds=30\n", "rounds=30", 8, 10),
        ("rounds=30\n", "", 8, 1),
    ];
    let mut ran = 0;
    for (from, to, line, column) in cases {
        let text = old(1).replace(from, to);
        ran += check_refused(forward, text.as_bytes(), 200, broken(line, column));
    }
    assert_eq!(ran, 13 * 201);
}

/// Says that a record of the form that a move writes is refused by it at its first character.
#[test]
fn records_of_the_other_form() {
    let mut ran = 0;
    for set in set_numbers() {
        for chip in ["0", "1", "65535", "65536"] {
            let text = new(set, chip);
            ran += check_refused(forward, text.as_bytes(), 200, broken(1, 1));
        }
        ran += check_refused(back, old(set).as_bytes(), 200, broken(1, 1));
    }
    assert_eq!(ran, SETS.len() * 5 * 201);
}

/// Gives the line and column one past the end of a text that is the beginning of a record.
fn end_of(text: &str) -> (u64, u64) {
    let lines: Vec<&str> = text.split('\n').collect();
    let last = lines[lines.len() - 1];
    (lines.len() as u64, last.len() as u64 + 1)
}

/// Says that every cut of a record is refused with 10 where it ends, whatever its chip and the room.
#[test]
fn every_cut() {
    let mut ran = 0;
    let mut cuts = 0;
    for set in set_numbers() {
        let texts = [
            (forward as Way, old(set)),
            (back, new(set, "0")),
            (back, new(set, "65535")),
        ];
        for (way, text) in texts {
            for end in 0..text.len() {
                let cut = &text[..end];
                let (line, column) = end_of(cut);
                for room in [0, 1, 200] {
                    let (given, _) = tried(way, cut.as_bytes(), room);
                    assert_eq!(given, broken(line, column), "cut at {end}");
                    ran += 1;
                }
            }
            cuts += text.len();
        }
    }
    assert_eq!(ran, cuts * 3);
    // The lengths of the record of each set, in form 1 and in form 2 with either chip.
    assert_eq!(cuts, 3 * (163 + 177 + 181) + 122 + 136 + 140);
}

/// Says that what stands behind the one record isn't looked at.
#[test]
fn bytes_behind_the_record() {
    let (one, two) = (old(1), new(1, "7"));
    let behind: [&[u8]; 9] = [
        b"x",
        b"\n",
        b"\0\xff",
        b"set=5\n",
        b"form=2\n",
        b"form=1\n",
        b"rounds=30\n",
        one.as_bytes(),
        two.as_bytes(),
    ];
    let mut ran = 0;
    for (one, two) in pairs() {
        for rest in behind {
            let ways: [(Way, &str, &str); 2] = [(forward, &one, &two), (back, &two, &one)];
            for (way, text, wanted) in ways {
                let longer = [text.as_bytes(), rest].concat();
                let (given, out) = tried(way, &longer, wanted.len());
                let (taken, written) = (text.len(), wanted.len());
                assert_eq!(given, Ok(Lengths { taken, written }));
                assert_eq!(out, wanted.as_bytes());
                let (given, _) = tried(way, &longer, wanted.len() - 1);
                assert_eq!(given, Err(Refused::Short));
                ran += 1;
            }
            let refused = [new(1, "9").as_bytes(), rest].concat();
            assert_eq!(tried(back, &refused, 300).0, Err(Refused::Chip));
        }
    }
    assert_eq!(ran, (SETS.len() + 1) * 9 * 2);
}

/// Gives what the one record of a text becomes, or why it isn't moved.
fn moved(way: Way, text: &[u8]) -> Result<Vec<u8>, Refused> {
    let (given, out) = tried(way, text, 2_000);
    let Lengths { taken, written } = given?;
    assert_eq!(taken, text.len());
    Ok(out[..written].to_vec())
}

/// Says that old to new to old gives the same bytes.
#[test]
fn old_to_new_to_old() {
    let mut random = Random::new(71);
    let mut ran = 0;
    for index in 0..1_000 {
        let record = vectors::record(&mut random, index);
        let text = lines_of(Form::One, &record).expect("a right record");
        let newer = moved(forward, &text).expect("a right text");
        assert!(newer.starts_with(b"form=2\nset="));
        assert_eq!(newer[12..20], *b"\nchip=0\n");
        assert_eq!(newer[20..], text[6..]);
        assert_eq!(moved(back, &newer), Ok(text));
        ran += 1;
    }
    assert_eq!(ran, 1_000);
}

/// Says that new to old to new gives the same bytes where the chip is 0, and is refused elsewhere.
#[test]
fn new_to_old_to_new() {
    let mut random = Random::new(72);
    let (mut same, mut refused) = (0, 0);
    for index in 0..1_000 {
        let record = vectors::record_in(Form::Two, &mut random, index);
        let text = lines_of(Form::Two, &record).expect("a right record");
        match moved(back, &text) {
            Ok(older) => {
                assert_eq!(moved(forward, &older), Ok(text));
                assert_eq!(record.chip, 0);
                same += 1;
            }
            Err(why) => {
                assert_eq!(why, Refused::Chip);
                assert_ne!(record.chip, 0);
                refused += 1;
            }
        }
    }
    assert_eq!(same + refused, 1_000);
    assert!(same >= 250 && refused >= 500, "{same} and {refused}");
}

/// Checks all that moving an input of records gives.
fn check_all(direction: Direction, input: &str, output: &str, said: &str, status: u8) {
    let wanted = Moved {
        output: output.as_bytes().to_vec(),
        said: said.to_string(),
        status,
    };
    assert_eq!(move_all(direction, input.as_bytes()), wanted);
}

/// Says that an empty input gives an empty output.
#[test]
fn an_empty_input() {
    check_all(Direction::Forward, "", "", "bench: done: records=0\n", 0);
    check_all(Direction::Back, "", "", "bench: done: records=0\n", 0);
}

/// Says that all records of an input are moved, one after another.
#[test]
fn whole_inputs() {
    let (ones, twos): (Vec<String>, Vec<String>) = pairs().into_iter().unzip();
    let mut ran = 0;
    for count in 1..=12 {
        let pick =
            |texts: &[String]| -> String { texts.iter().cycle().take(count).cloned().collect() };
        let (one, two) = (pick(&ones), pick(&twos));
        let said = format!("bench: done: records={count}\n");
        check_all(Direction::Forward, &one, &two, &said, 0);
        check_all(Direction::Back, &two, &one, &said, 0);
        ran += 1;
    }
    assert_eq!(ran, 12);
}

/// Says that the first refused record is told and nothing moved, wherever it stands.
#[test]
fn refused_inputs() {
    let (one, two) = (old(1), new(1, "0"));
    let cases = [
        // Forward.
        (
            Direction::Forward,
            one.replace("ad=a0a1", "ad=a0A1") + &one + &one,
            "bench: refused: answer=10 record=1 line=4 column=6\n",
        ),
        (
            Direction::Forward,
            one.clone() + &one.replace("ad=a0a1", "ad=a0a") + &one,
            "bench: refused: answer=10 record=2 line=4 column=7\n",
        ),
        (
            Direction::Forward,
            one.clone() + &one + &one.replace("rounds=30", "rounds=030"),
            "bench: refused: answer=10 record=3 line=8 column=9\n",
        ),
        (
            Direction::Forward,
            one.clone() + &two + &one,
            "bench: refused: answer=10 record=2 line=1 column=1\n",
        ),
        (
            Direction::Forward,
            one.clone() + "\n",
            "bench: refused: answer=10 record=2 line=1 column=1\n",
        ),
        (
            Direction::Forward,
            one.repeat(11) + "set=1\nkey=0",
            "bench: refused: answer=10 record=12 line=2 column=6\n",
        ),
        // Back, broken.
        (
            Direction::Back,
            "form=1\n".to_string() + &one + &two,
            "bench: refused: answer=10 record=1 line=1 column=6\n",
        ),
        (
            Direction::Back,
            two.clone() + &new(1, "65536") + &two,
            "bench: refused: answer=10 record=2 line=3 column=10\n",
        ),
        (
            Direction::Back,
            two.clone() + &two + &one,
            "bench: refused: answer=10 record=3 line=1 column=1\n",
        ),
        (
            Direction::Back,
            two.clone() + &two.replace("tag=", "tga="),
            "bench: refused: answer=10 record=2 line=9 column=2\n",
        ),
        (
            Direction::Back,
            two.clone() + "form",
            "bench: refused: answer=10 record=2 line=1 column=5\n",
        ),
        (
            Direction::Back,
            two.clone() + "fo",
            "bench: refused: answer=10 record=2 line=1 column=3\n",
        ),
        // Back, with a chip.
        (
            Direction::Back,
            new(1, "1") + &two + &two,
            "bench: refused: answer=11 record=1\n",
        ),
        (
            Direction::Back,
            two.clone() + &new(2, "65535") + &two,
            "bench: refused: answer=11 record=2\n",
        ),
        (
            Direction::Back,
            two.clone() + &two + &new(2, "10"),
            "bench: refused: answer=11 record=3\n",
        ),
        // Of two refused records the first is told, and a broken one isn't told for its chip.
        (
            Direction::Back,
            two.clone() + &new(1, "5") + &new(1, "00"),
            "bench: refused: answer=11 record=2\n",
        ),
        (
            Direction::Back,
            two.clone() + &new(1, "00") + &new(1, "5"),
            "bench: refused: answer=10 record=2 line=3 column=7\n",
        ),
        (
            Direction::Back,
            two.clone() + &new(1, "5").replace("rounds=30", "rounds="),
            "bench: refused: answer=10 record=2 line=10 column=8\n",
        ),
    ];
    let mut ran = 0;
    for (direction, input, said) in cases {
        check_all(direction, &input, "", said, 1);
        ran += 1;
    }
    assert_eq!(ran, 18);
}

/// Says what is told of an input of three records that ends at any place.
#[test]
fn inputs_that_end_anywhere() {
    let mut ran = 0;
    let mut lengths = 0;
    let (one, two) = (old(2), new(2, "0"));
    let ways = [
        (Direction::Forward, &one, &two),
        (Direction::Back, &two, &one),
    ];
    for (direction, text, wanted) in ways {
        let input = text.repeat(3);
        for end in 0..=input.len() {
            let (whole, more) = (end / text.len(), end % text.len());
            if more == 0 {
                let said = format!("bench: done: records={whole}\n");
                check_all(direction, &input[..end], &wanted.repeat(whole), &said, 0);
            } else {
                let (line, column) = end_of(&text[..more]);
                let record = whole + 1;
                let said = format!(
                    "bench: refused: answer=10 record={record} line={line} column={column}\n"
                );
                check_all(direction, &input[..end], "", &said, 1);
            }
            ran += 1;
        }
        lengths += input.len() + 1;
    }
    assert_eq!(ran, lengths);
    assert_eq!(ran, 3 * 122 + 1 + 3 * 136 + 1);
}

/// Says that a whole input moved forward and back is the same, and one with any chip isn't moved back.
#[test]
fn whole_inputs_there_and_back() {
    let mut random = Random::new(73);
    let (mut input, mut ran) = (Vec::new(), 0);
    for index in 0..200 {
        let record = vectors::record(&mut random, index);
        input.extend(lines_of(Form::One, &record).expect("a right record"));
        let newer = move_all(Direction::Forward, &input);
        let older = move_all(Direction::Back, &newer.output);
        assert_eq!((newer.status, older.status), (0, 0));
        assert_eq!(newer.output.len(), input.len() + 14 * (index as usize + 1));
        assert_eq!(older.output, input);
        let refused = [newer.output, new(1, "3").into_bytes()].concat();
        let said = format!("bench: refused: answer=11 record={}\n", index + 2);
        let moved = move_all(Direction::Back, &refused);
        assert_eq!((moved.output, moved.said), (Vec::new(), said));
        ran += 1;
    }
    assert_eq!(ran, 200);
}
