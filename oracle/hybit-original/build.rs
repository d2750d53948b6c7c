#[path = "../source.rs"]
mod source;

fn main() {
    source::write_root(&source::folder());
}
