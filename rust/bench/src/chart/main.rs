//! Reads the tables that `placements` prints, or a document with them, and writes the chart of
//! their ratios lib/ref as SVG.
mod axis;
mod drawing;
mod scale;
mod style;
mod svg;
mod tables;
#[cfg(test)]
mod words;

use std::io::{self, Read};
use std::process::ExitCode;

fn chart(text: &str) -> Result<String, String> {
    let cases = tables::cases(text)?;
    if cases.is_empty() {
        return Err("no table with lib/ref".to_string());
    }
    Ok(drawing::draw(&cases))
}

fn main() -> ExitCode {
    let mut text = String::new();
    let read = io::stdin().read_to_string(&mut text);
    match read.map_err(|e| e.to_string()).and_then(|_| chart(&text)) {
        Ok(svg) => {
            print!("{svg}");
            ExitCode::SUCCESS
        }
        Err(error) => {
            eprintln!("chart: {error}");
            ExitCode::FAILURE
        }
    }
}

#[cfg(test)]
mod tests {
    use super::*;

    #[test]
    fn the_chart_is_of_the_tables_of_the_document() {
        let document = include_str!("../../../../docs/PERFORMANCE.md");
        let drawn = include_str!("../../../../docs/performance.svg");
        assert!(chart(document).as_deref() == Ok(drawn), "draw it again");
    }

    #[test]
    fn no_chart_without_a_table() {
        assert_eq!(chart("Text."), Err("no table with lib/ref".to_string()));
    }
}
