//! The list that the program looks hex digits up in stands whole in the file of the program. That its entries are loaded from there is no matter of
//! this test: docs/landings/W4.md has the machine code.

use judging::program::file;
use std::fs;

/// Says that the program has the list, an entry for each of the 256 characters in their order; a letter in upper case has 16 more than in lower case.
#[test]
fn the_list_of_digits_stands_in_the_program() {
    let mut list = [0xff; 256];
    let (lower, upper) = ((0..).zip(b"0123456789abcdef"), (26..).zip(b"ABCDEF"));
    for (value, digit) in lower.chain(upper) {
        list[usize::from(*digit)] = value;
    }
    let program = fs::read(file()).expect("the file of the program, which `host/build bench` writes");
    assert!(program.windows(list.len()).any(|part| *part == list));
}
