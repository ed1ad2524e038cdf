//! The elements of a picture, as text.

pub struct Svg {
    text: String,
}

/// `anchor` is where the place of a text is on it: start, middle or end.
pub struct Font {
    pub anchor: &'static str,
    pub size: u32,
    pub weight: &'static str,
    pub fill: &'static str,
}

/// The width of a letter in parts of its height, at the most that a line of a usual font has.
const LETTER: f64 = 0.6;

impl Font {
    /// What a text takes of a line. Fonts differ: this is rather too much than too little.
    pub fn width(&self, text: &str) -> f64 {
        text.chars().count() as f64 * f64::from(self.size) * LETTER
    }
}

/// Left, top, width and height.
pub type Area = [f64; 4];

fn escaped(text: &str) -> String {
    text.replace('&', "&amp;").replace('<', "&lt;")
}

fn placed([x, y, width, height]: Area) -> String {
    format!("x=\"{x:.1}\" y=\"{y:.1}\" width=\"{width:.1}\" height=\"{height:.1}\"")
}

impl Svg {
    /// On white, so that it can be read on a page of any colour.
    pub fn new(width: f64, height: f64, title: &str) -> Self {
        let text = format!(
            "<svg xmlns=\"http://www.w3.org/2000/svg\" width=\"{width}\" height=\"{height}\" \
             viewBox=\"0 0 {width} {height}\" font-family=\"sans-serif\" role=\"img\">\n\
             <title>{}</title>\n",
            escaped(title)
        );
        let mut svg = Svg { text };
        svg.rect([0.0, 0.0, width, height], "#ffffff");
        svg
    }

    pub fn rect(&mut self, area: Area, fill: &str) {
        self.text += &format!("<rect {} fill=\"{fill}\"/>\n", placed(area));
    }

    /// A rectangle that says what it is where a pointer rests on it.
    pub fn named_rect(&mut self, area: Area, fill: &str, name: &str) {
        let (area, name) = (placed(area), escaped(name));
        self.text += &format!("<rect {area} fill=\"{fill}\"><title>{name}</title></rect>\n");
    }

    pub fn text(&mut self, [x, y]: [f64; 2], font: &Font, text: &str) {
        let Font {
            anchor,
            size,
            weight,
            fill,
        } = font;
        self.text += &format!(
            "<text x=\"{x:.1}\" y=\"{y:.1}\" text-anchor=\"{anchor}\" font-size=\"{size}\" \
             font-weight=\"{weight}\" fill=\"{fill}\">{}</text>\n",
            escaped(text)
        );
    }

    pub fn end(self) -> String {
        self.text + "</svg>\n"
    }
}
