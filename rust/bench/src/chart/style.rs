//! Colours and fonts of the picture.
use crate::svg::Font;
use crate::tables::Verdict;

pub const INK: &str = "#222222";
pub const RULE: &str = "#d4d4d4";
pub const SLOW_GROUND: &str = "#fdf0e6";

pub const NOTE: Font = Font {
    anchor: "start",
    size: 12,
    weight: "normal",
    fill: INK,
};
pub const HEAD: Font = Font {
    size: 16,
    weight: "bold",
    ..NOTE
};
pub const CALL: Font = Font {
    anchor: "end",
    ..NOTE
};
pub const TICK: Font = Font {
    anchor: "middle",
    ..NOTE
};
pub const EVEN: Font = Font {
    weight: "bold",
    ..TICK
};
pub const SLOW: Font = Font {
    fill: "#a83f00",
    ..NOTE
};

pub fn colour(verdict: Verdict) -> &'static str {
    match verdict {
        Verdict::Faster => "#0072b2",
        Verdict::Neither => "#808080",
        Verdict::Slower => "#c84c00",
    }
}

pub fn bold(verdict: Verdict, anchor: &'static str) -> Font {
    Font {
        anchor,
        weight: "bold",
        fill: colour(verdict),
        ..NOTE
    }
}
