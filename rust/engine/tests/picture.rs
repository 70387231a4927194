//! The picture of a chart, as `tools/plan.py svg` makes it of the engine's file, holds what the engine says of the sheet.

use engine::Sheet;
use std::io::Write;
use std::path::PathBuf;
use std::process::{Command, Stdio};

/// A file below the repository's root.
fn path(name: &str) -> PathBuf {
    PathBuf::from(env!("CARGO_MANIFEST_DIR"))
        .join("../..")
        .join(name)
}

/// The sheet of a plan of the folder examples, labelled and charted.
fn charted(name: &str) -> Sheet {
    let mut sheet = Sheet::default();
    let file = std::fs::read(path(&format!("examples/{name}.plan"))).expect("a plan file");
    sheet.open(&file).expect("a plan");
    sheet.sweep().expect("labels");
    sheet.chart().expect("a chart");
    sheet
}

/// The picture of a sheet.
fn picture(sheet: &Sheet) -> String {
    let tool = Command::new("python3")
        .arg(path("tools/plan.py"))
        .args(["svg", "-"])
        .stdin(Stdio::piped())
        .stdout(Stdio::piped())
        .spawn();
    let mut tool = tool.expect("python3, in which the kit is written too");
    let mut input = tool.stdin.take().expect("its input");
    input.write_all(sheet.bytes()).expect("the file is read");
    drop(input);
    let output = tool.wait_with_output().expect("its output");
    assert!(output.status.success());
    String::from_utf8(output.stdout).expect("a text")
}

/// The first line of a group of a picture, and the numbers in each line after it.
fn group<'a>(picture: &'a str, name: &str) -> (&'a str, Vec<Vec<i64>>) {
    let start = format!("<g id=\"{name}\"");
    let mut lines = (picture.lines()).skip_while(|line| !line.starts_with(&start));
    let first = lines.next().expect("the group");
    let numbers = |line: &str| {
        let parts = line.split(|c: char| !c.is_ascii_digit());
        parts.filter_map(|part| part.parse().ok()).collect()
    };
    let inside = lines.take_while(|line| *line != "</g>");
    (first, inside.map(numbers).collect())
}

/// Where each context stands in the picture: at its place in the chart, in even steps from West's corner to East's.
fn places(picture: &str, sheet: &Sheet) -> Vec<(i64, i64)> {
    let (_, circles) = group(picture, "points");
    let at: Vec<(i64, i64)> = circles.iter().map(|it| (it[0], it[1])).collect();
    let size = (
        sheet.width().expect("a width"),
        sheet.height().expect("a height"),
    );
    let (width, height) = (i64::from(size.0), i64::from(size.1));
    let (west, east) = (at[3], at[1]);
    assert!(west.0 < east.0 && west.1 < east.1);
    let points = sheet.points().expect("points");
    assert_eq!(at.len(), points.len());
    for (&(across, down), &(x, y)) in at.iter().zip(&points) {
        assert_eq!((across - west.0) * width, (east.0 - west.0) * i64::from(x));
        assert_eq!(
            (down - west.1) * height,
            (east.1 - west.1) * (height - i64::from(y))
        );
    }
    at
}

/// The lines that are due for a label: from the context that has it, by the middle, to its neighbour; of the border each once.
fn lines(sheet: &Sheet, at: &[(i64, i64)], label: u8) -> Vec<Vec<i64>> {
    let rings = sheet.rings();
    let darts = (0..)
        .zip(&rings)
        .flat_map(|(u, ring)| ring.iter().map(move |&v| (u, usize::from(v))));
    let labelled = darts.zip(sheet.labels().expect("labels"));
    let due = labelled.filter(|&((u, v), &it)| it == label && (label < 4 || u < v));
    let mut lines: Vec<Vec<i64>> = due
        .map(|((u, v), _)| {
            let ((x, y), (p, q)) = (at[u], at[v]);
            vec![x, y, (x + p) / 2, (y + q) / 2, p, q]
        })
        .collect();
    lines.sort();
    lines
}

/// A point with its number for each context, a line for each contact: red with a head from below up, blue with a head from left to
/// right, and grey without one between border contexts.
#[test]
fn it_holds_the_chart() {
    for name in [
        "a",
        "b",
        "column-12",
        "wheel-20",
        "irreducible-25",
        "irreducible-200",
    ] {
        let sheet = charted(name);
        let picture = picture(&sheet);
        let at = places(&picture, &sheet);
        let mut count = 0;
        for (name, label) in [("red", 0), ("blue", 1), ("border", 4)] {
            let (first, mut found) = group(&picture, name);
            found.sort();
            assert_eq!(found, lines(&sheet, &at, label), "{name}");
            assert_eq!(
                first.contains(&format!("marker-mid=\"url(#{name}-head)\"")),
                label < 4
            );
            count += found.len();
        }
        assert_eq!(count, 3 * sheet.n() - 7);
        let (_, numbers) = group(&picture, "numbers");
        let due: Vec<Vec<i64>> = (0..)
            .zip(&at)
            .map(|(u, &(x, y))| vec![x, y + 4, u])
            .collect();
        assert_eq!(numbers, due);
    }
}

/// The picture in docs is the one of its plan.
#[test]
fn the_stored_picture_is_this_one() {
    let stored =
        std::fs::read_to_string(path("docs/chart-irreducible-25.svg")).expect("the picture");
    assert!(stored == picture(&charted("irreducible-25")));
}
