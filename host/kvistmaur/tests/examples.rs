//! The examples, run: what each has to print.

use second::{calls, hex::written};
use std::process::Command;

/// Runs an example as its first line says, but as `cargo test` has built it, and compares what it prints.
fn prints(example: &str, wanted: &str) {
    let cargo = std::env::var_os("CARGO").expect("cargo runs this test");
    let ran = Command::new(cargo)
        .args("run --quiet --locked --offline --profile test -p kvistmaur --example".split(' '))
        .arg(example)
        .current_dir(env!("CARGO_MANIFEST_DIR"))
        .output()
        .expect("cargo can be run");
    let said = String::from_utf8_lossy(&ran.stderr);
    assert!(ran.status.success(), "{example}: {}: {said}", ran.status);
    assert_eq!(String::from_utf8_lossy(&ran.stdout), wanted);
}

/// An order as a whole; ciphertext and tag are the second program's.
#[test]
fn order() {
    let (key, nonce) = (b"a key of 16 byte", b"message no. 0001");
    let order = b"close, crew in the trench";
    let (mut cipher, mut tag) = ([0; 25], [0; 16]);
    calls::seal(1, key, nonce, b"valve 12", order, &mut cipher, &mut tag);
    let [cipher, tag] = [&cipher[..], &tag].map(|bytes| String::from_utf8(written(bytes)).unwrap());
    let wanted = format!(
        "\
sealed in 54 rounds: {cipher}
tag: {tag}
opened: close, crew in the trench
damaged: the tag differs (answer 9)
what is left of the order: 00000000000000000000000000000000000000000000000000
"
    );
    prints("order", &wanted);
}

#[test]
fn seal_stream() {
    let wanted = "\
sealed: 19000 bytes
opened: true
damaged: the tag differs
limited to 200 bytes: the data or the text passes its limit
";
    prints("seal_stream", wanted);
}

#[test]
fn check_fragments() {
    let wanted = "\
in fragments of 1: yes
in fragments of 7: yes
in fragments of 64: yes
to another valve: no
damaged: no
without end: the data or the text passes its limit
";
    prints("check_fragments", wanted);
}

#[test]
fn second_walk() {
    let wanted = r#"first walk: yes
  unverified: "step 1: close; s"
  unverified: "tep 2: wait for "
  unverified: "the crew"
second walk: yes, all of it is verified
  unverified: "step 1: close; s"
  unverified: "tep 2: wait for "
  unverified: "the crep"
second walk, damaged: the tag differs
first walk, damaged: the tag differs, so there is no second
"#;
    prints("second_walk", wanted);
}
