//! Times the proved library against the Rust version, both in one run and by turns. Each line gives
//! the time of one call on either side and their ratio. For test, reduce, member and ask the Rust side
//! goes by the quick search, and texts are read and written by the plain version and in one pass; all
//! else there is the plain version, which is not written for speed.

mod ask;
#[path = "../compare/entries.rs"]
mod entries;
mod member;
mod multiply;
mod numbers;
mod reduce;
mod replay;
mod test;
mod text;
mod tidy;
mod timing;
mod trace;

/// Times one entry after another.
fn main() {
    timing::heading();
    tidy::bench();
    replay::bench();
    multiply::bench();
    test::bench();
    reduce::bench();
    member::bench();
    ask::bench();
    text::bench();
    numbers::bench();
    trace::bench();
}
