//! Links the C boundary of the permutation and of reading digits.
#[path = "../link.rs"]
mod link;

fn main() {
    link::archive("timing", "timing");
}
