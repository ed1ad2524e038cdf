//! The picture: a row for each call, the one with the greatest ratio first. In a row is a lane for
//! each key length, and in a lane a bar for each size, from the least of the ratio to the most.
use crate::axis::{draw_axis, draw_sides, COLUMN_GAP, TOP};
use crate::scale::Scale;
use crate::style::{colour, CALL, HEAD, NOTE, RULE, SLOW};
use crate::svg::Svg;
use crate::tables::{Case, Verdict};

const TITLE: &str = "Time of a call: library / reference";

const WIDTH: f64 = 900.0;
/// What stays free at the edges.
const MARGIN: f64 = 16.0;
/// Where the axis begins; before it stand the names of the calls.
const LEFT: f64 = 190.0;
/// Where the axis ends if a column of what is slow stands after it.
const RIGHT: f64 = 700.0;
/// Where the axis ends if nothing is slow: "slower →" still has room behind a bold line at its end.
const RIGHT_ALONE: f64 = 824.0;
const LEGEND_STEP: f64 = 280.0;
const LANE_GAP: f64 = 1.5;
const ROW_MARGIN: f64 = 3.0;
const LEAST_ROW: f64 = 18.0;
const LEAST_BAR: f64 = 3.0;

fn lanes(row: &[Case]) -> impl Iterator<Item = &[Case]> {
    row.chunk_by(|a, b| a.key == b.key)
}

/// Bars of a lane with many are thinner, but not by as much.
fn bar_height(lane: &[Case]) -> f64 {
    if lane.len() == 1 {
        4.0
    } else {
        2.5
    }
}

fn lane_height(lane: &[Case]) -> f64 {
    bar_height(lane) * lane.len() as f64 + LANE_GAP
}

fn lanes_height(row: &[Case]) -> f64 {
    lanes(row).map(lane_height).sum::<f64>() - LANE_GAP
}

fn row_height(row: &[Case]) -> f64 {
    (lanes_height(row) + 2.0 * ROW_MARGIN).max(LEAST_ROW)
}

fn rows(cases: &[Case]) -> Vec<&[Case]> {
    let most = |row: &[Case]| row.iter().map(|case| case.most).fold(0.0, f64::max);
    let mut rows: Vec<_> = cases.chunk_by(|a, b| a.call == b.call).collect();
    rows.sort_by(|a, b| most(b).total_cmp(&most(a)));
    rows
}

/// In words, the key lengths with which a call is slower, and the sizes where it is one length.
fn slow(row: &[Case]) -> Option<String> {
    let slow = |case: &&Case| case.verdict() == Verdict::Slower;
    let slow: Vec<&Case> = row.iter().filter(slow).collect();
    let first = slow.first()?;
    let mut keys: Vec<&str> = slow.iter().map(|case| case.key.as_str()).collect();
    keys.dedup();
    let words = format!("{} bytes", keys.join(", "));
    let Some((_, unit)) = first.size.as_ref().filter(|_| keys.len() == 1) else {
        return Some(words);
    };
    let sizes = slow.iter().filter_map(|case| case.size.as_ref());
    let sizes: Vec<&str> = sizes.map(|(number, _)| number.as_str()).collect();
    Some(format!("{words}, {} {unit}", sizes.join(" or ")))
}

fn draw_lane(svg: &mut Svg, scale: &Scale, lane: &[Case], top: f64) {
    for (i, case) in lane.iter().enumerate() {
        let (x, end) = (scale.x(case.least), scale.x(case.most));
        let width = (end - x).max(LEAST_BAR);
        let height = bar_height(lane);
        let (x, y) = ((x + end - width) / 2.0, top + i as f64 * height);
        let colour = colour(case.verdict());
        svg.named_rect([x, y, width, height], colour, &case.to_string());
    }
}

fn draw_row(svg: &mut Svg, scale: &Scale, row: &[Case], top: f64) {
    let middle = top + row_height(row) / 2.0;
    let base = middle + 4.0;
    svg.rect([0.0, top, WIDTH, 0.5], RULE);
    svg.text([LEFT - 8.0, base], &CALL, &row[0].call);
    if let Some(words) = slow(row) {
        svg.text([scale.end() + COLUMN_GAP, base], &SLOW, &words);
    }
    let mut top = middle - lanes_height(row) / 2.0;
    for lane in lanes(row) {
        draw_lane(svg, scale, lane, top);
        top += lane_height(lane);
    }
}

fn draw_head(svg: &mut Svg, cases: &[Case]) {
    svg.text([MARGIN, 26.0], &HEAD, TITLE);
    let notes = [
        "A bar is a case, from the least of its ratio at all placements to the most.",
        "In a row the bars stand as in the tables, short keys above.",
    ];
    for (i, note) in notes.into_iter().enumerate() {
        svg.text([MARGIN, 46.0 + i as f64 * 16.0], &NOTE, note);
    }
    let verdicts = [
        (Verdict::Slower, "slower at every placement"),
        (Verdict::Faster, "faster at every placement"),
        (Verdict::Neither, "neither"),
    ];
    for (i, (verdict, words)) in verdicts.into_iter().enumerate() {
        let x = MARGIN + i as f64 * LEGEND_STEP;
        let count = cases
            .iter()
            .filter(|case| case.verdict() == verdict)
            .count();
        svg.rect([x, 74.0, 20.0, 8.0], colour(verdict));
        svg.text([x + 26.0, 82.0], &NOTE, &format!("{words}: {count} cases"));
    }
}

/// The picture as text.
pub fn draw(cases: &[Case]) -> String {
    let rows = rows(cases);
    let height: f64 = rows.iter().map(|row| row_height(row)).sum();
    let ratios = cases.iter().flat_map(|case| [case.least, case.most]);
    let column = cases.iter().any(|case| case.verdict() == Verdict::Slower);
    let right = if column { RIGHT } else { RIGHT_ALONE };
    let scale = Scale::over(ratios, LEFT, right - LEFT);
    let mut svg = Svg::new(WIDTH, (TOP + height + MARGIN).ceil(), TITLE);
    draw_head(&mut svg, cases);
    draw_axis(&mut svg, &scale, height);
    draw_sides(&mut svg, &scale, column);
    let mut top = TOP;
    for row in rows {
        draw_row(&mut svg, &scale, row, top);
        top += row_height(row);
    }
    svg.end()
}

#[cfg(test)]
mod tests {
    use super::*;
    use crate::tables::cases;

    const TABLES: &str = "\
| call | key bytes | lib/ref, 2 pivots | 8 |
|---|---|---|---|
| a | 3 | 0.90–1.00 | 0.80–0.90 |
| b | 3 | 0.80–0.90 | 1.00–1.10 |
| b | 8 | 1.10–1.20 | 1.20–1.30 |
| c | 3 | 0.80–0.90 | 1.10–1.40 |
| c | 8 | 1.10–1.20 | 0.80–0.90 |
";

    #[test]
    fn the_greatest_ratio_first() {
        let cases = cases(TABLES).unwrap();
        let calls: Vec<_> = rows(&cases)
            .iter()
            .map(|row| row[0].call.as_str())
            .collect();
        assert_eq!(calls, ["c", "b", "a"]);
    }

    #[test]
    fn what_is_slow_in_words() {
        let cases = cases(TABLES).unwrap();
        let words: Vec<_> = rows(&cases).into_iter().map(slow).collect();
        let wanted = [Some("3, 8 bytes"), Some("8 bytes, 2 or 8 pivots"), None];
        assert_eq!(words, wanted.map(|words| words.map(str::to_string)));
    }
    /// The texts of a picture: left and right end, base line, size, and the words.
    fn texts(svg: &str) -> Vec<([f64; 4], &str)> {
        let of_line = |line| {
            let parts: Vec<&str> = str::split(line, '"').collect();
            let number = |i: usize| parts[i].parse::<f64>().unwrap();
            let (x, base, size) = (number(1), number(3), number(7));
            let words = parts.last().unwrap().strip_prefix('>').unwrap();
            let words = words.strip_suffix("</text>").unwrap();
            let width = NOTE.width(words) * size / f64::from(NOTE.size);
            let left = match parts[5] {
                "start" => x,
                "middle" => x - width / 2.0,
                _ => x - width,
            };
            ([left, left + width, base, size], words)
        };
        let lines = svg.lines().filter(|line| line.starts_with("<text "));
        lines.map(of_line).collect()
    }

    /// Tables whose one case has these ratios beside one that is a hundredth.
    fn drawn(ratios: &str) -> String {
        let table = "| call | key bytes | lib/ref |\n|---|---|---|\n| a | 3 | 0.01 |\n";
        draw(&cases(&format!("{table}| b | 64 | {ratios} |\n")).unwrap())
    }

    #[test]
    fn no_text_is_printed_over_another_or_past_the_edge() {
        for ratios in ["0.01", "0.90", "0.97–1.09", "1.01", "1.10–1.45", "90–120"] {
            let svg = drawn(ratios);
            let texts = texts(&svg);
            for (i, &([left, right, base, size], words)) in texts.iter().enumerate() {
                assert!(left >= 0.0 && right <= WIDTH, "{ratios}: {words}");
                for &([l, r, b, s], other) in &texts[..i] {
                    let apart = r <= left || right <= l || (base - b).abs() >= size.min(s);
                    assert!(apart, "{ratios}: {other} and {words}");
                }
            }
        }
    }

    #[test]
    fn a_column_only_where_a_case_is_slower() {
        let words = |ratios| drawn(ratios).contains(">slower with</text>");
        assert!(words("1.01–1.09"));
        assert!(!words("0.97–1.09"));
    }

    #[test]
    fn one_has_its_text_however_long_the_axis_is() {
        for ratios in ["0.01", "0.97–1.09", "90–120"] {
            let svg = drawn(ratios);
            assert!(texts(&svg).iter().any(|(_, words)| *words == "1.00"));
        }
    }
}
