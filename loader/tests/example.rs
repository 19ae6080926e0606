//! The loader's ten lines, as they stand in examples/.
mod common;

use common::{SAMPLE, made, run};
use std::process::Command;

#[test]
fn the_example_places_sorts() {
    let folder = std::env::temp_dir().join(format!("sort_placement-example-{}", std::process::id()));
    std::fs::create_dir_all(&folder).expect("a folder");
    let (plan, out) = (folder.join("plan"), folder.join("out"));
    std::fs::write(&plan, made(SAMPLE)).expect("a plan");
    // cargo builds examples beside the test programs' folder
    let programs = std::path::Path::new(env!("CARGO_BIN_EXE_sort_placement")).parent().expect("a folder");
    let example = programs.join("examples/place_sorts");
    let ran = Command::new(example).args([&plan, &out]).status().expect("cargo test builds the examples");
    assert!(ran.success());
    assert_eq!(std::fs::read(&out).expect("an output"), run(&["ensure"], &made(SAMPLE)).stdout);
    std::fs::remove_dir_all(&folder).expect("it goes");
}
