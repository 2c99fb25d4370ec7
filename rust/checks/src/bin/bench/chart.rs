//! A bar chart of ratios as SVG.

use std::fmt::Write;

/// Bars that stand together under one title.
pub struct Group {
    pub title: String,
    /// Names and ratios.
    pub bars: Vec<(String, f64)>,
}

const BAR: f64 = 16.0;
const TITLE: f64 = 26.0;
const LEFT: f64 = 210.0;
const WIDTH: f64 = 620.0;
const COLOURS: [&str; 6] = ["#888888", "#1f6f8b", "#3a9d5d", "#9bc53d", "#c8553d", "#e8a33d"];

/// The chart: one bar for each ratio, and a line at 1.
pub fn draw(heading: &str, groups: &[Group]) -> String {
    let largest = groups.iter().flat_map(|group| &group.bars).map(|bar| bar.1).fold(1.0, f64::max);
    let scale = WIDTH / (largest * 1.02);
    let lines: usize = groups.iter().map(|group| group.bars.len()).sum();
    let height = 60.0 + groups.len() as f64 * (TITLE + 8.0) + lines as f64 * BAR;
    let mut svg = String::new();
    let mut text = |line: String| writeln!(svg, "{line}").expect("a string takes all lines");
    let full_width = LEFT + WIDTH + 60.0;
    text(format!(
        "<svg xmlns=\"http://www.w3.org/2000/svg\" width=\"{full_width}\" height=\"{height}\" \
         font-family=\"sans-serif\" font-size=\"12\">"
    ));
    text(format!("<rect width=\"{full_width}\" height=\"{height}\" fill=\"white\"/>"));
    text(format!("<text x=\"10\" y=\"22\" font-size=\"15\" font-weight=\"bold\">{heading}</text>"));
    let mut y = 40.0;
    for group in groups {
        y += TITLE;
        text(format!("<text x=\"10\" y=\"{}\" font-weight=\"bold\">{}</text>", y - 6.0, group.title));
        for (number, (name, ratio)) in group.bars.iter().enumerate() {
            let (middle, long) = (y + BAR - 4.0, ratio * scale);
            let colour = COLOURS[number % COLOURS.len()];
            text(format!("<text x=\"{}\" y=\"{middle}\" text-anchor=\"end\">{name}</text>", LEFT - 6.0));
            text(format!(
                "<rect x=\"{LEFT}\" y=\"{:.1}\" width=\"{long:.1}\" height=\"{}\" fill=\"{colour}\"/>",
                y + 1.0,
                BAR - 3.0
            ));
            text(format!("<text x=\"{:.1}\" y=\"{middle}\">{ratio:.2}</text>", LEFT + long + 4.0));
            y += BAR;
        }
        y += 8.0;
    }
    let one = LEFT + scale;
    text(format!(
        "<line x1=\"{one:.1}\" y1=\"40\" x2=\"{one:.1}\" y2=\"{:.1}\" stroke=\"black\" stroke-dasharray=\"4 3\"/>",
        height - 12.0
    ));
    text("</svg>".to_string());
    svg
}
