//! How much stack a call takes: no more than the header says.

use crate::compiled::{Program, header_folder};

/// What the header says of the two functions that store the cosine table: about 17 KB.
const MOST: usize = 18 * 1_024;

/// What it says of the others: less than 1 KB.
const OTHERS: usize = 1_024;

#[test]
fn no_more_than_the_header_says() {
    let printed = Program::of(&header_folder().join("stack.c")).printed();
    let mut functions = 0;
    for line in printed.lines().filter(|line| line.contains(" trr_")) {
        let (bytes, name) = line.trim_start().split_once(' ').expect("two words");
        let bytes: usize = bytes.parse().expect("a number");
        let table = ["trr_carrier_run", "trr_receiver_receive"].contains(&name);
        let bound = if table { MOST } else { OTHERS };
        assert!(bytes < bound, "{line}");
        functions += 1;
    }
    assert_eq!(functions, 23, "{printed}");
}
