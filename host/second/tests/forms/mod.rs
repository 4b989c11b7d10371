//! The shapes of all right lines, a right record of each set, and a search for what completes a beginning.

use second::cipher::SETS;
use second::record::{Broken, Form};

/// Both forms.
pub const FORMS: [Form; 2] = [Form::One, Form::Two];

/// A right record of set 1.
pub const SET_1: [&[u8]; 8] = [
    b"set=1",
    b"key=000102030405060708090a0b0c0d0e0f",
    b"nonce=101112131415161718191a1b1c1d1e1f",
    b"ad=a0a1",
    b"text=b0b1b2",
    b"cipher=c0c1c2",
    b"tag=f0e0d0c0b0a090807060504030201000",
    b"rounds=30",
];

/// A right record of set 2.
pub const SET_2: [&[u8]; 8] = [
    b"set=2",
    b"key=000102030405060708090a0b",
    b"nonce=101112131415161718191a1b",
    b"ad=a0a1",
    b"text=b0b1b2",
    b"cipher=c0c1c2",
    b"tag=f0e0d0c0b0a0908070605040",
    b"rounds=30",
];

/// Gives the right record of set 1 with another set line; sets 3 and 4 ask no more of the other lines.
const fn under(set: &'static [u8]) -> [&'static [u8]; 8] {
    let mut record = SET_1;
    record[0] = set;
    record
}

/// The right records, one of each set.
pub const RECORDS: [[&[u8]; 8]; SETS.len()] = [SET_1, SET_2, under(b"set=3"), under(b"set=4")];

/// Gives the lines of form 2 for a record's lines of form 1, with a chip that may have one more digit.
pub fn in_form_2<'a>(record: &[&'a [u8]; 8]) -> [&'a [u8]; 10] {
    let [set, key, nonce, ad, text, cipher, tag, rounds] = *record;
    [
        b"form=2",
        set,
        b"chip=6553",
        key,
        nonce,
        ad,
        text,
        cipher,
        tag,
        rounds,
    ]
}

/// Gives the lines of the right records in the form.
pub fn records_in(form: Form) -> [Vec<&'static [u8]>; SETS.len()] {
    match form {
        Form::One => RECORDS.map(|record| record.to_vec()),
        Form::Two => RECORDS.map(|record| in_form_2(&record).to_vec()),
    }
}

/// Gives how many lines a record of the form has.
pub fn count_of_lines(form: Form) -> usize {
    match form {
        Form::One => 8,
        Form::Two => 10,
    }
}

/// The characters that may stand at one place of a line.
type Choice = &'static [u8];

/// What may stand at each place of a line of one length, its line feed included.
type Shape = Vec<Choice>;

/// All shapes of the lines of both forms, each with keys of 16 and of 12 bytes.
pub struct Forms {
    one: [Vec<Vec<Shape>>; 2],
    two: [Vec<Vec<Shape>>; 2],
}

/// Gives the shape of a line with that name and those choices in its value.
fn shape(name: &'static [u8], value: &[Choice]) -> Shape {
    let mut places: Shape = name.chunks(1).collect();
    places.extend(value);
    places.push(b"\n");
    places
}

/// Gives the shape of a line with that name and so many hex digits.
fn hex_shape(name: &'static [u8], digits: usize) -> Shape {
    shape(name, &vec![&b"0123456789abcdef"[..]; digits])
}

/// Gives the shapes of a line with that name and at most 256 bytes, the longest first.
fn shapes_of_bytes(name: &'static [u8]) -> Vec<Shape> {
    let counts = (0..=256).rev();
    counts.map(|count| hex_shape(name, count * 2)).collect()
}

/// Gives the shapes of the rounds line: a zero, and numbers of one to seven digits.
fn shapes_of_rounds() -> Vec<Shape> {
    let mut all = vec![shape(b"rounds=", &[b"0"])];
    let mut value: Vec<Choice> = vec![b"123456789"];
    while value.len() <= 7 {
        all.push(shape(b"rounds=", &value));
        value.push(b"0123456789");
    }
    all
}

/// Gives the shapes of the chip line: a zero, numbers of one to four digits, and five up to 65535.
fn shapes_of_chips() -> Vec<Shape> {
    const ANY: Choice = b"0123456789";
    const NO_ZERO: Choice = b"123456789";
    let values: [&[Choice]; 10] = [
        &[b"0"],
        &[NO_ZERO],
        &[NO_ZERO, ANY],
        &[NO_ZERO, ANY, ANY],
        &[NO_ZERO, ANY, ANY, ANY],
        &[b"12345", ANY, ANY, ANY, ANY],
        &[b"6", b"01234", ANY, ANY, ANY],
        &[b"6", b"5", b"01234", ANY, ANY],
        &[b"6", b"5", b"5", b"012", ANY],
        &[b"6", b"5", b"5", b"3", b"012345"],
    ];
    values.map(|value| shape(b"chip=", value)).into()
}

/// Gives the shapes of the ten lines of form 2 in a set that has keys of so many bytes.
fn shapes_in_form_2(key: usize) -> Vec<Vec<Shape>> {
    let mut all = shapes(key);
    all.insert(1, shapes_of_chips());
    all.insert(0, vec![shape(b"form=2", &[])]);
    all
}

/// Gives the shapes of the eight lines of form 1 in a set that has keys of so many bytes.
fn shapes(key: usize) -> Vec<Vec<Shape>> {
    vec![
        vec![shape(b"set=", &[b"1234"])],
        vec![hex_shape(b"key=", key * 2)],
        vec![hex_shape(b"nonce=", key * 2)],
        shapes_of_bytes(b"ad="),
        shapes_of_bytes(b"text="),
        shapes_of_bytes(b"cipher="),
        vec![hex_shape(b"tag=", key * 2)],
        shapes_of_rounds(),
    ]
}

/// Says whether the characters are the beginning of some line of that shape.
fn fits(front: &[u8], shape: &Shape) -> bool {
    let mut places = front.iter().zip(shape);
    front.len() <= shape.len() && places.all(|(character, choice)| choice.contains(character))
}

impl Forms {
    /// Gives all shapes.
    pub fn new() -> Forms {
        Forms {
            one: [16, 12].map(shapes),
            two: [16, 12].map(shapes_in_form_2),
        }
    }

    /// Gives the shapes of line `number`, from 1, in a record of the form whose text begins as this one.
    fn of(&self, form: Form, text: &[u8], number: usize) -> &[Shape] {
        let (keys, short): (_, &[u8]) = match form {
            Form::One => (&self.one, b"set=2"),
            Form::Two => (&self.two, b"form=2\nset=2"),
        };
        let key = usize::from(text.starts_with(short));
        &keys[key][number - 1]
    }

    /// Gives a right line `number` of the form that begins with the given characters, if there is one.
    pub fn completed(
        &self,
        form: Form,
        text: &[u8],
        number: usize,
        front: &[u8],
    ) -> Option<Vec<u8>> {
        let mut all = self.of(form, text, number).iter();
        let shape = all.find(|shape| fits(front, shape))?;
        let rest = shape[front.len()..].iter().map(|choice| choice[0]);
        Some(front.iter().copied().chain(rest).collect())
    }

    /// Gives the text of a record of the form that begins with the given one, if there is one.
    pub fn record_from(&self, form: Form, text: &[u8]) -> Option<Vec<u8>> {
        let mut whole = Vec::new();
        let mut lines = text.split_inclusive(|byte| *byte == b'\n');
        for number in 1..=count_of_lines(form) {
            let begun = lines.next().unwrap_or_default();
            whole.extend(self.completed(form, &whole, number, begun)?);
        }
        lines.next().is_none().then_some(whole)
    }
}

/// Gives the lines of a text, each ended by a line feed.
pub fn text_of(lines: &[&[u8]]) -> Vec<u8> {
    lines.iter().flat_map(|l| [*l, b"\n"].concat()).collect()
}

/// Gives every text of at most three characters that has no others than these.
fn short_texts(characters: &[u8]) -> Vec<Vec<u8>> {
    let mut all = vec![Vec::new()];
    let mut grown = 0;
    while all[grown].len() < 3 {
        for character in characters {
            let text = [&all[grown][..], &[*character]].concat();
            all.push(text);
        }
        grown += 1;
    }
    all
}

/// Gives the name of a line, with its sign.
pub fn label_of(line: &[u8]) -> &[u8] {
    let sign = line.iter().position(|byte| *byte == b'=');
    &line[..=sign.expect("every line has one")]
}

/// Hands over each right record of the form with each byte changed to each, and the byte's place.
pub fn each_change(form: Form, mut take: impl FnMut(usize, &[u8])) {
    for record in records_in(form) {
        let text = text_of(&record);
        for place in 0..text.len() {
            for new in 0..=255 {
                let mut other = text.clone();
                other[place] = new;
                take(place, &other);
            }
        }
    }
}

/// Hands over each right record of the form up to each line, with a short value behind its name, behind a cut name and alone; and the lines after it.
pub fn each_short_value(form: Form, mut take: impl FnMut(&[u8], &[u8])) {
    let values = short_texts(b"0129afgA =\r\n");
    for record in records_in(form) {
        for place in 0..record.len() {
            let before = text_of(&record[..place]);
            let after = text_of(&record[place + 1..]);
            let label = label_of(record[place]);
            for value in &values {
                for front in [label, &label[..label.len() - 1], b""] {
                    take(&[&before, front, value].concat(), &after);
                }
            }
        }
    }
}

/// Gives the place, from 0, in the text at which a record was said to break.
pub fn place_of(text: &[u8], broken: Broken) -> usize {
    let lines = text.split_inclusive(|byte| *byte == b'\n');
    let before = lines.take(broken.line as usize - 1);
    before.map(<[u8]>::len).sum::<usize>() + broken.column as usize - 1
}
