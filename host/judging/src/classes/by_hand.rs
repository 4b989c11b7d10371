//! Cases written out with their output or with the place where they break, so that both programs are held to the rules themselves.

use crate::input::Input;
use second::record::Form;

/// A record of set 1 that is in form: everything in it is zero or empty, but the rounds.
const ZEROS: &str = "set=1
key=00000000000000000000000000000000
nonce=00000000000000000000000000000000
ad=
text=
cipher=
tag=00000000000000000000000000000000
rounds=25
";

/// A right record of set 2, the order `close` to `valve 12`.
pub const CLOSE: &str = "set=2
key=000102030405060708090a0b
nonce=f0f1f2f3f4f5f6f7f8f9fafb
ad=76616c7665203132
text=636c6f7365
cipher=06bf4bf2a4
tag=da672106d0b341a823aa0ef5
rounds=32
";

/// The same record in form 2, of chip 7.
const CLOSE_2: &str = "form=2
set=2
chip=7
key=000102030405060708090a0b
nonce=f0f1f2f3f4f5f6f7f8f9fafb
ad=76616c7665203132
text=636c6f7365
cipher=06bf4bf2a4
tag=da672106d0b341a823aa0ef5
rounds=32
";

/// Published answers of v1.2, of two blocks of text in set 3 and of nothing in set 4.
const PUBLISHED: &str = "set=3
key=000102030405060708090a0b0c0d0e0f
nonce=000102030405060708090a0b0c0d0e0f
ad=
text=000102030405060708090a0b0c0d0e0f
cipher=bc820dbdf7a4631c5b29884ad69175c3
tag=f58e28436dd71556d58dfa56ac890beb
rounds=36
set=4
key=000102030405060708090a0b0c0d0e0f
nonce=000102030405060708090a0b0c0d0e0f
ad=
text=
cipher=
tag=7a834e6f09210957067b10fd831f0078
rounds=24
";

/// Gives a case with its output.
fn case(name: &str, bytes: impl Into<Vec<u8>>, output: &str) -> Input {
    Input {
        output: Some(output.to_string()),
        ..Input::told(name, bytes)
    }
}

/// Gives a case with the line that says where it breaks.
fn breaks(name: &str, bytes: impl Into<Vec<u8>>, fault: &str) -> Input {
    Input {
        fault: Some(format!("bench: {fault}\n")),
        ..Input::told(name, bytes)
    }
}

/// Gives the cases of a form with their output.
pub fn whole_cases(form: Form) -> Vec<Input> {
    match form {
        Form::One => whole_cases_1(),
        Form::Two => whole_cases_2(),
    }
}

/// Gives the cases of a form with the line that says where they break.
pub fn faults(form: Form) -> Vec<Input> {
    match form {
        Form::One => faults_1(),
        Form::Two => faults_2(),
    }
}

/// Gives the cases of form 1 with their output.
fn whole_cases_1() -> Vec<Input> {
    let rounds = "record=1\nverdict=differs\nfield=rounds\n";
    vec![
        case("the printed case", ZEROS, rounds),
        case(
            "published answers of sets 3 and 4",
            PUBLISHED,
            "record=1\nverdict=equal\nfield=none\nrecord=2\nverdict=equal\nfield=none\n",
        ),
        case(
            "published answers called set 1",
            PUBLISHED
                .replace("set=3", "set=1")
                .replace("set=4", "set=1"),
            "record=1\nverdict=differs\nfield=cipher\nrecord=2\nverdict=differs\nfield=tag\n",
        ),
        case("empty", "", ""),
        case(
            "the printed case with the right rounds",
            ZEROS.replace("25", "24"),
            "record=1\nverdict=differs\nfield=tag\n",
        ),
        case(
            "a cipher of no text goes on",
            ZEROS.replace("25", "24").replace("cipher=", "cipher=ff"),
            "record=1\nverdict=differs\nfield=cipher\n",
        ),
        case(
            "a whole cipher",
            CLOSE,
            "record=1\nverdict=equal\nfield=none\n",
        ),
        case(
            "a cipher cut off after three right bytes",
            CLOSE.replace("cipher=06bf4bf2a4", "cipher=06bf4b"),
            "record=1\nverdict=differs\nfield=cipher\n",
        ),
        case(
            "a cipher that goes on by a byte",
            CLOSE.replace("cipher=06bf4bf2a4", "cipher=06bf4bf2a400"),
            "record=1\nverdict=differs\nfield=cipher\n",
        ),
        case("rounds of 0 are in form", ZEROS.replace("25", "0"), rounds),
        case(
            "twice",
            ZEROS.repeat(2),
            "record=1\nverdict=differs\nfield=rounds\nrecord=2\nverdict=differs\nfield=rounds\n",
        ),
        case(
            "without its last line feed",
            ZEROS.trim_end(),
            "record=1\nverdict=unread\nfield=8\n",
        ),
        case(
            "with an empty line behind it",
            format!("{ZEROS}\n"),
            "record=1\nverdict=differs\nfield=rounds\nrecord=2\nverdict=unread\nfield=1\n",
        ),
        case(
            "a broken record is the last",
            format!("set=5\n{ZEROS}"),
            "record=1\nverdict=unread\nfield=1\n",
        ),
        case(
            "two broken lines",
            ZEROS.replace("ad=", "ad=0").replace("25", "025"),
            "record=1\nverdict=unread\nfield=4\n",
        ),
        case(
            "a key for set 1 in set 2",
            ZEROS.replace("set=1", "set=2"),
            "record=1\nverdict=unread\nfield=2\n",
        ),
        case(
            "no nonce line",
            "set=1\nkey=00000000000000000000000000000000\n",
            "record=1\nverdict=unread\nfield=3\n",
        ),
        case(
            "upper-case hex",
            ZEROS.replace("text=", "text=FF"),
            "record=1\nverdict=unread\nfield=5\n",
        ),
        case(
            "a lone line feed",
            "\n",
            "record=1\nverdict=unread\nfield=1\n",
        ),
    ]
}

/// Gives the cases of form 1 with the line that says where they break.
fn faults_1() -> Vec<Input> {
    let key = "key=00000000000000000000000000000000\n";
    let no_text = ZEROS.replace("text=\n", "");
    vec![
        breaks(
            "a letter for a digit of the key",
            CLOSE.replace("key=0001", "key=000l"),
            "record 1: line 2, column 8",
        ),
        breaks(
            "an upper-case digit",
            CLOSE.replace("tag=da", "tag=dA"),
            "record 1: line 7, column 6",
        ),
        breaks(
            "a blank behind the text",
            CLOSE.replace("636c6f7365", "636c6f7365 "),
            "record 1: line 5, column 16",
        ),
        breaks(
            "a carriage return",
            CLOSE.replace("set=2", "set=2\r"),
            "record 1: line 1, column 6",
        ),
        breaks(
            "no such set",
            ZEROS.replace("set=1", "set=5"),
            "record 1: line 1, column 5",
        ),
        breaks(
            "two digits for the set",
            ZEROS.replace("set=1", "set=12"),
            "record 1: line 1, column 6",
        ),
        breaks(
            "the 25th digit of a key in set 2",
            ZEROS.replace("set=1", "set=2"),
            "record 1: line 2, column 29",
        ),
        breaks(
            "a key of 24 digits in set 1",
            CLOSE.replace("set=2", "set=1"),
            "record 1: line 2, column 29",
        ),
        breaks(
            "a digit alone",
            ZEROS.replace("ad=", "ad=0"),
            "record 1: line 4, column 5",
        ),
        breaks(
            "the 513th digit of a text",
            ZEROS.replace("text=", &format!("text={}", "00".repeat(257))),
            "record 1: line 5, column 518",
        ),
        breaks(
            "a needless zero",
            ZEROS.replace("25", "024"),
            "record 1: line 8, column 9",
        ),
        breaks(
            "eight digits",
            ZEROS.replace("25", "12345678"),
            "record 1: line 8, column 15",
        ),
        breaks(
            "no digit",
            ZEROS.replace("25", ""),
            "record 1: line 8, column 8",
        ),
        breaks(
            "a name with a letter too many",
            ZEROS.replace("cipher", "chipher"),
            "record 1: line 6, column 2",
        ),
        breaks("a line left out", no_text, "record 1: line 5, column 1"),
        breaks(
            "a line twice",
            ZEROS.replace(key, &key.repeat(2)),
            "record 1: line 3, column 1",
        ),
        breaks(
            "the end before a line",
            format!("set=1\n{key}"),
            "record 1: line 3, column 1",
        ),
        breaks(
            "the end in a name",
            format!("set=1\n{key}non"),
            "record 1: line 3, column 4",
        ),
        breaks(
            "the end before the last line feed",
            ZEROS.trim_end(),
            "record 1: line 8, column 10",
        ),
        breaks(
            "two broken lines",
            ZEROS.replace("cipher=", "cipher=x").replace("25", "x"),
            "record 1: line 6, column 8",
        ),
        breaks(
            "an empty line between two records",
            format!("{ZEROS}\n{ZEROS}"),
            "record 2: line 1, column 1",
        ),
        breaks(
            "the third record",
            format!("{CLOSE}{ZEROS}{}", CLOSE.replace("76616c", "7661g")),
            "record 3: line 4, column 8",
        ),
        breaks(
            "the tenth record",
            format!("{}set=1\nkey=\n", CLOSE.repeat(9)),
            "record 10: line 2, column 5",
        ),
    ]
}

/// Gives the cases of form 2 with their output.
fn whole_cases_2() -> Vec<Input> {
    let equal = "record=1\nverdict=equal\nfield=none\n";
    let unread_in = |line| format!("record=1\nverdict=unread\nfield={line}\n");
    vec![
        case("a right record", CLOSE_2, equal),
        case("chip 0", CLOSE_2.replace("chip=7", "chip=0"), equal),
        case("chip 65535", CLOSE_2.replace("chip=7", "chip=65535"), equal),
        case(
            "a cipher cut off after three right bytes",
            CLOSE_2.replace("cipher=06bf4bf2a4", "cipher=06bf4b"),
            "record=1\nverdict=differs\nfield=cipher\n",
        ),
        case(
            "another tag",
            CLOSE_2.replace("tag=d", "tag=e"),
            "record=1\nverdict=differs\nfield=tag\n",
        ),
        case(
            "other rounds",
            CLOSE_2.replace("rounds=32", "rounds=33"),
            "record=1\nverdict=differs\nfield=rounds\n",
        ),
        case(
            "published answers of sets 3 and 4",
            PUBLISHED
                .replace("set=3", "form=2\nset=3\nchip=1")
                .replace("set=4", "form=2\nset=4\nchip=2"),
            "record=1\nverdict=equal\nfield=none\nrecord=2\nverdict=equal\nfield=none\n",
        ),
        case(
            "both forms",
            [CLOSE_2, ZEROS, CLOSE_2].concat(),
            "record=1\nverdict=equal\nfield=none\nrecord=2\nverdict=differs\nfield=rounds\nrecord=3\nverdict=equal\nfield=none\n",
        ),
        case(
            "with an empty line behind it",
            [CLOSE_2, "\n"].concat(),
            "record=1\nverdict=equal\nfield=none\nrecord=2\nverdict=unread\nfield=1\n",
        ),
        case("without its last line feed", CLOSE_2.trim_end(), &unread_in(10)),
        case("form 1 is no value", CLOSE_2.replace("form=2", "form=1"), &unread_in(1)),
        case("form 3", CLOSE_2.replace("form=2", "form=3"), &unread_in(1)),
        case("no such set", CLOSE_2.replace("set=2", "set=5"), &unread_in(2)),
        case("no chip", CLOSE_2.replace("chip=7\n", ""), &unread_in(3)),
        case("chip 65536", CLOSE_2.replace("chip=7", "chip=65536"), &unread_in(3)),
        case("a needless zero", CLOSE_2.replace("chip=7", "chip=07"), &unread_in(3)),
        case("a key for set 2 in set 1", CLOSE_2.replace("set=2", "set=1"), &unread_in(4)),
        case("two broken lines", CLOSE_2.replace("ad=7", "ad=").replace("32\n", "x\n"), &unread_in(6)),
        case("upper-case hex", CLOSE_2.replace("tag=da", "tag=DA"), &unread_in(9)),
        case("no form line", CLOSE_2.replace("form=2\n", ""), &unread_in(2)),
        case("a chip in form 1", CLOSE.replace("set=2", "set=2\nchip=0"), &unread_in(2)),
        case("a form line in front of form 1", ["form=2\n", CLOSE].concat(), &unread_in(3)),
        case("half of the first name", "fo", &unread_in(1)),
    ]
}

/// Gives the cases of form 2 with the line that says where they break.
fn faults_2() -> Vec<Input> {
    let chip = |value: &str| CLOSE_2.replace("chip=7", &format!("chip={value}"));
    vec![
        breaks("half of the first name", "fo", "record 1: line 1, column 1"),
        breaks("the first name", "form", "record 1: line 1, column 1"),
        breaks(
            "the first name and its sign",
            "form=",
            "record 1: line 1, column 6",
        ),
        breaks(
            "the form and the end",
            "form=2",
            "record 1: line 1, column 7",
        ),
        breaks(
            "the form line and the end",
            "form=2\n",
            "record 1: line 2, column 1",
        ),
        breaks(
            "the form line twice",
            ["form=2\n", CLOSE_2].concat(),
            "record 1: line 2, column 1",
        ),
        breaks(
            "form 1 is no value",
            CLOSE_2.replace("form=2", "form=1"),
            "record 1: line 1, column 6",
        ),
        breaks(
            "form 22",
            CLOSE_2.replace("form=2", "form=22"),
            "record 1: line 1, column 7",
        ),
        breaks(
            "upper-case form",
            CLOSE_2.replace("form", "Form"),
            "record 1: line 1, column 1",
        ),
        breaks(
            "no such set",
            CLOSE_2.replace("set=2", "set=5"),
            "record 1: line 2, column 5",
        ),
        breaks("chip 65536", chip("65536"), "record 1: line 3, column 10"),
        breaks("chip 70000", chip("70000"), "record 1: line 3, column 10"),
        breaks("chip 100000", chip("100000"), "record 1: line 3, column 11"),
        breaks("chip 00", chip("00"), "record 1: line 3, column 7"),
        breaks("no digit", chip(""), "record 1: line 3, column 6"),
        breaks(
            "a chip with a sign",
            chip("+7"),
            "record 1: line 3, column 6",
        ),
        breaks(
            "a letter for a digit of the key",
            CLOSE_2.replace("key=0001", "key=000l"),
            "record 1: line 4, column 8",
        ),
        breaks(
            "no line feed at the end",
            CLOSE_2.trim_end(),
            "record 1: line 10, column 10",
        ),
        breaks(
            "the form line of a second record",
            [CLOSE_2, "form"].concat(),
            "record 2: line 1, column 1",
        ),
        breaks(
            "a chip behind two of form 1",
            [CLOSE, ZEROS, &chip("x")].concat(),
            "record 3: line 3, column 6",
        ),
        breaks(
            "a key behind two of form 2",
            [CLOSE_2, CLOSE_2, &CLOSE.replace("key=0", "key=")].concat(),
            "record 3: line 2, column 28",
        ),
    ]
}
