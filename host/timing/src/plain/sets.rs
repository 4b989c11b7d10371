//! The sets: lengths of key and block, first word, and the constants of the middle runs, from one up to another.

use super::sponge::Sponge;
use kvistmaur::Set;

pub type Ascon128 = Sponge<16, 8, 0x800c_0600_0000_0000, 0, 6>;
pub type Ascon96 = Sponge<12, 16, 0x600c_0800_0000_0000, 0, 8>;
pub type Ascon128V12 = Sponge<16, 8, 0x8040_0c06_0000_0000, 6, 12>;
pub type Ascon128aV12 = Sponge<16, 16, 0x8080_0c08_0000_0000, 4, 12>;

/// Says that a set was added to the model, and not here.
#[cold]
pub fn unknown(set: Set) -> ! {
    panic!("the plain program does not have {set:?}")
}
