//! A refusal is shown in the words of the table in `include/touchchart.h`.

use engine::Refusal;

const HEADER: &str = include_str!("../../../include/touchchart.h");

/// The rows of the header's table: number, when, place. A line without a number goes on with the row above it.
fn rows() -> Vec<[String; 3]> {
    let mut lines = (HEADER.lines()).skip_while(|line| !line.starts_with(" *     No.  when "));
    let heading = lines.next().expect("the table's heading");
    let columns = ["No.", "when", "place"].map(|name| heading.find(name).expect("a column"));
    let mut rows: Vec<[String; 3]> = Vec::new();
    for line in lines.take_while(|line| *line != " *") {
        let ends = [columns[1], columns[2], line.len()];
        let cells = [0, 1, 2].map(|k| line[columns[k]..ends[k]].trim());
        match rows.last_mut() {
            Some(row) if cells[0].is_empty() => {
                for (cell, more) in row.iter_mut().zip(cells) {
                    *cell = format!("{cell} {more}").trim().to_string();
                }
            }
            _ => rows.push(cells.map(String::from)),
        }
    }
    rows
}

#[test]
fn the_words_are_the_header_s() {
    let rows = rows();
    assert_eq!(rows.len(), 17);
    for ([number, when, place], due) in rows.iter().zip(1..) {
        assert_eq!(number, &due.to_string());
        let place = match place.as_str() {
            "0" => String::new(),
            _ => format!(" (place: {place})"),
        };
        let refusal = Refusal {
            number: due,
            place: 7,
        };
        assert_eq!(
            refusal.to_string(),
            format!("refused {due} at 7: {when}{place}")
        );
    }
}

/// A host hands a refusal on as any error, and a number that no call gives is shown too.
#[test]
fn it_is_an_error() {
    let opened = || -> Result<(), Box<dyn std::error::Error>> {
        engine::Sheet::default().open(&[1, 0])?;
        Ok(())
    };
    let error = opened().expect_err("a refusal").to_string();
    assert!(
        error.starts_with("refused 1 at 0: a record's length is missing"),
        "{error}"
    );
    for number in [0, 18, 255] {
        let refusal = Refusal { number, place: 3 };
        assert_eq!(refusal.to_string(), format!("refused {number} at 3"));
    }
}
