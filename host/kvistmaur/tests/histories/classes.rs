//! The classes of histories, each a row with the number of histories that it has to come to.

use crate::history::History;
use crate::{any, damaged, ends, limits, right, typed};

/// A class: what it is, how many histories of it there are in a gate's run, and what makes one and says whether it became one.
pub struct Class {
    pub name: &'static str,
    pub histories: usize,
    pub run: fn(&mut History) -> bool,
}

/// All classes; the numbers are written down so that a class that shrinks is noticed.
#[rustfmt::skip]
pub const CLASSES: [Class; 21] = [
    Class { name: "a right message", histories: 18_000, run: right::short },
    Class { name: "a right message with refused calls between", histories: 15_400, run: right::with_refusals },
    Class { name: "a right message beside another stream", histories: 1_000, run: right::beside_another },
    Class { name: "a right message in pieces of several blocks", histories: 4_000, run: right::several_blocks },
    Class { name: "a right message that is long", histories: 200, run: right::long },
    Class { name: "a right message that fills its stream's limit", histories: 6_000, run: limits::filled },
    Class { name: "a right message over an open stream", histories: 1_000, run: ends::started_over },
    Class { name: "a message that was changed on its way", histories: 8_000, run: ends::wrong_end },
    Class { name: "counts written near a limit", histories: 6_000, run: limits::near },
    Class { name: "a bit of the area turned", histories: 7_000, run: damaged::bit },
    Class { name: "a byte of the area made another", histories: 3_000, run: damaged::byte },
    Class { name: "a number of the area made another", histories: 8_000, run: damaged::number },
    Class { name: "two parts of the area swapped, or one turned around", histories: 3_000, run: damaged::moved },
    Class { name: "an area of another length", histories: 2_400, run: damaged::length },
    Class { name: "an area of noise", histories: 2_000, run: damaged::noise },
    Class { name: "a made-up state that breaks no rule", histories: 2_000, run: damaged::made_up },
    Class { name: "refused starts", histories: 4_000, run: ends::refused_starts },
    Class { name: "a stream that has ended", histories: 2_000, run: ends::ended },
    Class { name: "a stream that is given up", histories: 2_000, run: ends::given_up },
    Class { name: "calls of any kind", histories: 3_000, run: any::any_history },
    Class { name: "by the types, too", histories: 2_000, run: typed::beside_the_boundary },
];
