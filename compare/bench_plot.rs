//! The plot of the growth: three fields side by side, time over entries, library and what it is compared with.

use crate::measure::Both;
use std::fmt::Write;

/// A field's inner width and height, and the distance of one field from the next.
const WIDTH: f64 = 210.0;
const HEIGHT: f64 = 180.0;
const STEP: f64 = 280.0;

/// The colours of the library and of what it is compared with.
const COLOURS: [&str; 2] = ["#0b5fa5", "#c2571a"];

/// What a field shows: its title, what the library is compared with, and the times at each number of entries.
pub struct Field {
    pub title: &'static str,
    pub other: &'static str,
    pub points: Vec<(u64, Both)>,
}

/// The next round number that isn't below: 1, 2 or 5 with zeros.
fn round_up(number: f64) -> f64 {
    let power = 10f64.powf(number.log10().floor());
    let steps = [1.0, 2.0, 5.0, 10.0];
    steps.iter().map(|step| step * power).find(|round| *round >= number).unwrap_or(number)
}

impl Field {
    /// The end of the scale of times.
    fn top(&self) -> f64 {
        let largest = self.points.iter().map(|(_, both)| both.library.max(both.other)).fold(0.0, f64::max);
        round_up(largest)
    }

    /// Where a number of entries stands from the left; the scale is logarithmic.
    fn x(&self, entries: u64) -> f64 {
        let (first, last) = (self.points[0].0 as f64, self.points[self.points.len() - 1].0 as f64);
        WIDTH * (entries as f64 / first).ln() / (last / first).ln()
    }

    /// Where a time stands from above.
    fn y(&self, time: f64) -> f64 {
        HEIGHT * (1.0 - time / self.top())
    }

    /// A line through the times of one side, with its name in the corner.
    fn line(&self, svg: &mut String, side: usize) {
        let of = |both: &Both| [both.library, both.other][side];
        let colour = COLOURS[side];
        let place = |(entries, both): &(u64, Both)| format!("{:.1},{:.1}", self.x(*entries), self.y(of(both)));
        let points: Vec<String> = self.points.iter().map(place).collect();
        let _ = writeln!(
            svg,
            r#"<polyline fill="none" stroke="{colour}" stroke-width="2" points="{}"/>"#,
            points.join(" ")
        );
        for (entries, both) in &self.points {
            let (x, y) = (self.x(*entries), self.y(of(both)));
            let _ = writeln!(svg, r#"<circle cx="{x:.1}" cy="{y:.1}" r="3" fill="{colour}"/>"#);
        }
        let name = ["library", self.other][side];
        let y = 14 + 16 * side;
        let _ = writeln!(svg, r#"<text x="8" y="{y}" fill="{colour}">{name}</text>"#);
    }

    /// The frame with its title and its scales.
    fn frame(&self, svg: &mut String) {
        let _ = writeln!(svg, r##"<rect width="{WIDTH}" height="{HEIGHT}" fill="none" stroke="#888"/>"##);
        let _ = writeln!(svg, r#"<text x="0" y="-12" font-weight="bold">{}</text>"#, self.title);
        for quarter in 0..=4 {
            let time = self.top() * f64::from(quarter) / 4.0;
            let y = self.y(time);
            let _ = writeln!(svg, r##"<line x1="0" x2="{WIDTH}" y1="{y:.1}" y2="{y:.1}" stroke="#ddd"/>"##);
            let _ = writeln!(svg, r#"<text x="-6" y="{:.1}" text-anchor="end">{time}</text>"#, y + 4.0);
        }
        for (entries, _) in self.points.iter().step_by(2) {
            let x = self.x(*entries);
            let _ = writeln!(svg, r#"<text x="{x:.1}" y="{}" text-anchor="middle">{entries}</text>"#, HEIGHT + 16.0);
        }
    }
}

/// The whole plot.
pub fn svg(fields: &[Field]) -> String {
    let (width, height) = (STEP * fields.len() as f64, HEIGHT + 80.0);
    let mut svg = format!(
        "<svg xmlns=\"http://www.w3.org/2000/svg\" viewBox=\"0 0 {width} {height}\" font-family=\"sans-serif\" \
         font-size=\"11\">\n<rect width=\"{width}\" height=\"{height}\" fill=\"#fff\"/>\n"
    );
    for (nth, field) in fields.iter().enumerate() {
        let _ = writeln!(svg, r#"<g transform="translate({},34)">"#, STEP * nth as f64 + 50.0);
        field.frame(&mut svg);
        field.line(&mut svg, 1);
        field.line(&mut svg, 0);
        svg.push_str("</g>\n");
    }
    let _ = writeln!(
        svg,
        r#"<text x="50" y="{}">entries in a pool of as many slots, least times</text></svg>"#,
        height - 12.0
    );
    svg
}
