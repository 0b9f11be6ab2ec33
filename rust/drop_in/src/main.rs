//! Uses every public item of `async-channel` and prints what each answers.
//!
//! `original.txt` is what it printed over async-channel 2.5.0, as the repository's
//! `tools/rust_compare_original` writes it. Over any drop-in it prints the same, but for the last
//! section: lines that begin with `by rule` tell what this project's rules decide otherwise than
//! the original does, and `by_rule.txt` has those lines, by hand.

mod calls;
mod operations;

#[cfg(test)]
#[path = "../../tests/borrows/mod.rs"]
mod borrows;
#[cfg(test)]
#[path = "../../tests/traits/mod.rs"]
mod traits;

fn main() {
    calls::channels();
    calls::senders();
    calls::receivers();
    calls::weak_handles();
    calls::errors();
    operations::futures();
    operations::streams();
    operations::blocking();
    operations::cancelled();
    operations::texts();
    operations::by_rule();
}
