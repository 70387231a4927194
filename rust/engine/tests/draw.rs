//! The example in Rust, run: it prints what the example in C prints, and writes the sheet.

use std::path::PathBuf;
use std::process::{Command, Output};

/// A file below the repository's root.
fn path(name: &str) -> PathBuf {
    PathBuf::from(env!("CARGO_MANIFEST_DIR"))
        .join("../..")
        .join(name)
}

/// The example with these arguments. `cargo test` builds it next to the folder of the tests.
fn draw(words: &[PathBuf]) -> Output {
    let test = std::env::current_exe().expect("this test's path");
    let program = test.parent().expect("deps").with_file_name("examples/draw");
    let run = Command::new(program).args(words).output();
    run.expect("the example, which `cargo test` builds")
}

#[test]
fn it_draws_trench_b() {
    let sheet = std::env::temp_dir().join(format!("draw-{}.sheet", std::process::id()));
    let run = draw(&[path("examples/c/trench_b.plan"), sheet.clone()]);
    let drawn =
        std::fs::read(path("examples/c/trench_b.drawn")).expect("what the example in C prints");
    assert_eq!((run.status.code(), run.stdout), (Some(0), drawn.clone()));
    let again = draw(std::slice::from_ref(&sheet));
    assert_eq!((again.status.code(), again.stdout), (Some(0), drawn));
    let bytes = std::fs::read(&sheet).expect("the sheet");
    let opened = reference::open(&bytes).expect("a sheet");
    assert_eq!(opened.stage(), reference::Stage::Charted);
    std::fs::remove_file(sheet).expect("to remove the sheet");
}

#[test]
fn it_prints_a_refusal() {
    let run = draw(&[path("examples/d.plan")]);
    let said = String::from_utf8(run.stderr).expect("a text");
    assert_eq!(
        (run.status.code(), run.stdout),
        (Some(1), b"refused 10 at 5\n".to_vec())
    );
    assert!(said.contains("the labels break the label rules"), "{said}");
    assert_eq!(draw(&[path("examples/none.plan")]).status.code(), Some(2));
}
