//! How long a comparison is, from which seed, and what it says meanwhile.

use std::io::Write;
use std::time::{SystemTime, UNIX_EPOCH};

/// How many a variable of the environment asks for, or so many when it isn't there.
pub fn number_or(name: &str, default: usize) -> usize {
    variable(name).map_or(default, |number| number as usize)
}

/// The seed of `KVISTMAUR_SEED`, or one that differs from run to run when it isn't there.
pub fn seed() -> u64 {
    variable("KVISTMAUR_SEED").unwrap_or_else(|| {
        let since = SystemTime::now().duration_since(UNIX_EPOCH);
        since.expect("the clock is past 1970").as_nanos() as u64
    })
}

/// The number that a variable of the environment has, if it is there.
fn variable(name: &str) -> Option<u64> {
    let text = std::env::var_os(name)?;
    let number = text.to_str().and_then(|text| text.parse().ok());
    Some(number.unwrap_or_else(|| panic!("{name} is no number: {text:?}")))
}

/// A class: what it is, how many calls it makes, and what makes them.
pub struct Class<H> {
    pub name: &'static str,
    pub calls: usize,
    pub run: fn(&mut H),
}

/// What a run is made of.
pub struct Plan<H: 'static> {
    pub classes: &'static [Class<H>],
    /// Makes a call of any kind, which is done behind the classes, and how often at least.
    pub any: fn(&mut H),
    pub fewest: usize,
    /// How many calls a harness has made.
    pub made: fn(&H) -> usize,
}

impl<H> Plan<H> {
    /// Makes the calls of all classes, and then calls of any kind until there are so many.
    pub fn run(&self, harness: &mut H, calls: usize) {
        for class in self.classes {
            self.class(harness, class.name, class.calls, class.run);
        }
        let rest = calls.saturating_sub((self.made)(harness));
        let mixed = rest.max(self.fewest);
        self.class(harness, "of any kind", mixed, |harness| {
            (0..mixed).for_each(|_| (self.any)(harness));
        });
        let made = (self.made)(harness);
        assert!(made >= calls, "{made} calls were made");
    }

    /// Makes the calls of a class, and panics when they aren't as many as they should be.
    fn class(&self, harness: &mut H, name: &str, calls: usize, run: impl Fn(&mut H)) {
        let before = (self.made)(harness);
        run(harness);
        let own = (self.made)(harness) - before;
        println!("{own} calls: {name}");
        assert!(calls > 0 && own == calls, "{calls} were set out: {name}");
    }
}

/// Writes a line to standard error, past the test runner, which would keep it back.
pub fn say(line: &str) {
    writeln!(std::io::stderr(), "differential: {line}").expect("standard error takes a line");
}
