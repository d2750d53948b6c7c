//! The example program writes what is recorded beside it.

#[allow(dead_code)]
#[path = "../examples/station.rs"]
mod station;

#[test]
fn output() {
    let recorded = include_str!("../examples/station.txt");
    assert_eq!(station::report().unwrap(), recorded);
}
