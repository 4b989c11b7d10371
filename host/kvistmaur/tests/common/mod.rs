//! What the comparisons with the second program use.

mod lent;
mod run;

pub use lent::Lent;
pub use run::{number_or, say, seed, Class, Plan};
