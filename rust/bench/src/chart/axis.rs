//! The axis of the picture: its marks, the ground under the bars and the words over them.
use crate::scale::Scale;
use crate::style::{bold, EVEN, INK, RULE, SLOW_GROUND, TICK};
use crate::svg::Svg;
use crate::tables::Verdict;

/// From the axis to the column: half of a mark's text, and a little.
pub const COLUMN_GAP: f64 = 18.0;
/// Where the rows begin, under the legend and the marks of the axis.
pub const TOP: f64 = 132.0;
/// The lines over the rows: which side is which, and the texts of the marks.
const SIDES_BASE: f64 = TOP - 22.0;
const MARKS_BASE: f64 = TOP - 6.0;
/// What is free between the texts of two marks, at the least.
const MARK_GAP: f64 = 2.0;

/// 1, which everything is held against, is written as ratios are.
fn mark_text(tick: f64) -> String {
    if tick == 1.0 {
        "1.00".to_string()
    } else {
        tick.to_string()
    }
}

/// The marks that have room for their texts, those nearest to 1 first: each with its place.
fn mark_texts(scale: &Scale) -> Vec<(f64, String)> {
    let mut ticks: Vec<f64> = scale.ticks().collect();
    ticks.sort_by(|a, b| a.ln().abs().total_cmp(&b.ln().abs()));
    let mut placed: Vec<(f64, String)> = vec![];
    for tick in ticks {
        let (x, text) = (scale.x(tick), mark_text(tick));
        let apart = |(other, beside): &(f64, String)| {
            let halves = (TICK.width(&text) + TICK.width(beside)) / 2.0;
            (x - other).abs() >= halves + MARK_GAP
        };
        if placed.iter().all(apart) {
            placed.push((x, text));
        }
    }
    placed
}

/// The marks of the axis, and the ground under the bars.
pub fn draw_axis(svg: &mut Svg, scale: &Scale, height: f64) {
    let even = scale.x(1.0);
    svg.rect([even, TOP, scale.end() - even, height], SLOW_GROUND);
    for tick in scale.ticks() {
        svg.rect([scale.x(tick) - 0.25, TOP, 0.5, height], RULE);
    }
    svg.rect([even - 1.0, TOP, 2.0, height], INK);
    for (x, text) in mark_texts(scale) {
        let font = if x == even { &EVEN } else { &TICK };
        svg.text([x, MARKS_BASE], font, &text);
    }
}

/// The words over the axis, and over the column of what is slow where there is one. The column's
/// stand a line lower: the bold line may be near the end of the axis.
pub fn draw_sides(svg: &mut Svg, scale: &Scale, column: bool) {
    let even = scale.x(1.0);
    let faster = bold(Verdict::Faster, "end");
    let slower = bold(Verdict::Slower, "start");
    svg.text([even - 10.0, SIDES_BASE], &faster, "← faster");
    svg.text([even + 10.0, SIDES_BASE], &slower, "slower →");
    if column {
        let x = scale.end() + COLUMN_GAP;
        svg.text([x, MARKS_BASE], &slower, "slower with");
    }
}
