//! Prints docs/prototype.svg: `cargo run --example prototype >docs/prototype.svg` from the top of the repository, with this crate's manifest.
#![forbid(unsafe_code)]

mod picture;

fn main() {
    print!("{}", picture::picture());
}
