//! Links the C boundary of whole messages and of streams.
#[path = "../link.rs"]
mod link;

fn main() {
    link::archive("gateway", "kvistmaur");
}
