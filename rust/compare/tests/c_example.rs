//! The example for C compiles without a warning and prints what it should.

#[path = "c/compiler.rs"]
mod compiler;

use std::path::Path;

#[test]
fn example_prints_what_is_written_beside_it() {
    let examples = Path::new(compiler::INCLUDE).join("../examples");
    let printed = compiler::printed(&examples.join("example.c"), "c_example");
    let expected = std::fs::read_to_string(examples.join("example.txt"));
    assert_eq!(printed, expected.expect("what the example prints"));
}
