//! The ratios lib/ref of the benchmark's tables, read from Markdown in which they stand.
use std::fmt;

/// The number of a column and its unit.
type Size = (String, String);

/// A call on inputs of one size, with the least and the most of its ratio.
#[derive(Debug, PartialEq)]
pub struct Case {
    pub call: String,
    /// The bytes of each key.
    pub key: String,
    /// Where the call takes a table or a bucket.
    pub size: Option<Size>,
    pub least: f64,
    pub most: f64,
}

#[derive(Clone, Copy, Debug, PartialEq)]
pub enum Verdict {
    Faster,
    Neither,
    Slower,
}

impl Case {
    /// Faster or slower where it is so at every placement.
    pub fn verdict(&self) -> Verdict {
        if self.most < 1.0 {
            Verdict::Faster
        } else if self.least > 1.0 {
            Verdict::Slower
        } else {
            Verdict::Neither
        }
    }
}

impl fmt::Display for Case {
    fn fmt(&self, f: &mut fmt::Formatter) -> fmt::Result {
        write!(f, "{}, {} bytes", self.call, self.key)?;
        if let Some((number, unit)) = &self.size {
            write!(f, ", {number} {unit}")?;
        }
        write!(f, ": {:.2}–{:.2}", self.least, self.most)
    }
}

/// Where a column is, and the size of its cases.
type Column = (usize, Option<Size>);

/// The fields of a line of a table.
fn fields(line: &str) -> Option<Vec<&str>> {
    let inner = line.trim().strip_prefix('|')?;
    let inner = inner.strip_suffix('|').unwrap_or(inner);
    Some(inner.split('|').map(str::trim).collect())
}

/// The columns of lib/ref: the first names the number and the unit of its size, where it has one,
/// and those after it a number each.
fn columns(header: &[&str]) -> Vec<Column> {
    let Some(first) = header.iter().position(|name| name.starts_with("lib/ref")) else {
        return vec![];
    };
    let Some((number, unit)) = header[first]
        .strip_prefix("lib/ref, ")
        .and_then(|size| size.split_once(' '))
    else {
        return vec![(first, None)];
    };
    let more = header[first + 1..].iter().copied();
    let numbers = more.take_while(|name| name.parse::<usize>().is_ok());
    [number]
        .into_iter()
        .chain(numbers)
        .enumerate()
        .map(|(i, number)| (first + i, Some((number.to_string(), unit.to_string()))))
        .collect()
}

/// The least and the most of a field: two numbers with a dash between, or one of a single run.
fn range(field: &str) -> Option<(f64, f64)> {
    let (least, most) = field.split_once('–').unwrap_or((field, field));
    let (least, most) = (least.parse().ok()?, most.parse().ok()?);
    // A logarithmic axis has no place for 0.
    (0.0 < least && least <= most && most < f64::INFINITY).then_some((least, most))
}

/// The cases of a row.
fn row(fields: &[&str], columns: &[Column]) -> Option<Vec<Case>> {
    let &[call, key, ..] = fields else {
        return None;
    };
    let case = |(at, size): &Column| {
        let (least, most) = range(fields.get(*at)?)?;
        Some(Case {
            call: call.to_string(),
            key: key.to_string(),
            size: size.clone(),
            least,
            most,
        })
    };
    columns.iter().map(case).collect()
}

/// The cases of all tables that have lib/ref, in their order; the rest of the text is passed over.
/// An error is a row that can't be read.
pub fn cases(text: &str) -> Result<Vec<Case>, String> {
    let mut cases = vec![];
    let mut header: Option<Vec<Column>> = None;
    for line in text.lines() {
        match (fields(line), &header) {
            (None, _) => header = None,
            (Some(fields), None) => header = Some(columns(&fields)),
            (Some(fields), Some(_)) if fields[0] == "---" => {}
            (Some(fields), Some(columns)) => {
                cases.extend(row(&fields, columns).ok_or_else(|| line.to_string())?)
            }
        }
    }
    Ok(cases)
}

#[cfg(test)]
mod tests {
    use super::*;

    fn case(key: &str, size: Option<(&str, &str)>, least: f64, most: f64) -> Case {
        Case {
            call: "route".to_string(),
            key: key.to_string(),
            size: size.map(|(number, unit)| (number.to_string(), unit.to_string())),
            least,
            most,
        }
    }

    #[test]
    fn a_row_without_sizes() {
        let columns = columns(&["call", "key bytes", "lib/ref", "lib/floor"]);
        let read = |field| row(&["route", "3", field, "3.06–3.38"], &columns);
        assert_eq!(read("0.32–0.34"), Some(vec![case("3", None, 0.32, 0.34)]));
        assert_eq!(read("1.07"), Some(vec![case("3", None, 1.07, 1.07)]));
        for bad in [
            "",
            "–",
            "0.32-0.34",
            "0.32–",
            "0.34–0.32",
            "0.00–0.01",
            "NaN",
            "1–inf",
        ] {
            assert_eq!(read(bad), None, "{bad}");
        }
    }

    #[test]
    fn a_row_with_sizes() {
        let columns = columns(&["call", "key bytes", "lib/ref, 2 pivots", "64", "growth"]);
        let read = row(
            &["route", "60", "0.67–0.71", "1.35–1.47", "23.01"],
            &columns,
        );
        let wanted = vec![
            case("60", Some(("2", "pivots")), 0.67, 0.71),
            case("60", Some(("64", "pivots")), 1.35, 1.47),
        ];
        assert_eq!(read, Some(wanted));
        assert_eq!(row(&["route", "60", "0.67–0.71"], &columns), None);
    }

    #[test]
    fn other_text_and_tables_are_passed_over() {
        let text = "\
# Title
| call | check/call |
|---|---|
| route | 0.59 |

| call | key bytes | lib/ref |
|---|---|---|
| route | 3 | 0.42 |
Text.
";
        assert_eq!(cases(text), Ok(vec![case("3", None, 0.42, 0.42)]));
        let bad = text.replace("0.42", "x");
        assert_eq!(cases(&bad), Err("| route | 3 | x |".to_string()));
    }

    #[test]
    fn verdicts() {
        let verdict = |least, most| case("3", None, least, most).verdict();
        assert_eq!(verdict(0.95, 0.99), Verdict::Faster);
        assert_eq!(verdict(0.73, 1.00), Verdict::Neither);
        assert_eq!(verdict(0.95, 1.10), Verdict::Neither);
        assert_eq!(verdict(1.00, 1.10), Verdict::Neither);
        assert_eq!(verdict(1.01, 1.10), Verdict::Slower);
    }
}
