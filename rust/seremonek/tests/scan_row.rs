//! What `make show` prints is what the repository says that it prints.

#[path = "../examples/scan_row.rs"]
mod scan_row;

#[test]
fn the_example_prints_what_stands_beside_it() {
    assert_eq!(scan_row::told(), include_str!("../examples/scan_row.txt"));
}
