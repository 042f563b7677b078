//! The plot of growth: instructions by contacts, both axes logarithmic.

use crate::page::{thousands, Grown};

const WIDTH: f64 = 760.0;
const HEIGHT: f64 = 460.0;
/// The edges of the field inside the axes.
const LEFT: f64 = 110.0;
const RIGHT: f64 = 730.0;
const TOP: f64 = 60.0;
const BOTTOM: f64 = 390.0;
/// From the edges to the first point, which has its number on the left, and
/// to the last.
const BEFORE: f64 = 66.0;
const BEHIND: f64 = 30.0;

/// The axes: from which power to which.
struct Axes {
    /// Of two, in contacts.
    across: (f64, f64),
    /// Of ten, in instructions.
    up: (f64, f64),
}

impl Axes {
    fn around(grown: &[Grown]) -> Self {
        let least = |powers: &[f64]| powers.iter().copied().fold(f64::INFINITY, f64::min);
        let most = |powers: &[f64]| powers.iter().copied().fold(f64::NEG_INFINITY, f64::max);
        let contacts: Vec<f64> = grown.iter().map(|g| (g.contacts as f64).log2()).collect();
        let counts: Vec<f64> = grown
            .iter()
            .map(|g| (g.counted.all as f64).log10())
            .collect();
        Self {
            across: (least(&contacts), most(&contacts)),
            up: (least(&counts).floor(), most(&counts).ceil()),
        }
    }

    fn x(&self, contacts: f64) -> f64 {
        let (first, last) = self.across;
        LEFT + BEFORE
            + (contacts.log2() - first) / (last - first) * (RIGHT - BEHIND - LEFT - BEFORE)
    }

    fn y(&self, instructions: f64) -> f64 {
        let (first, last) = self.up;
        BOTTOM - (instructions.log10() - first) / (last - first) * (BOTTOM - TOP)
    }
}

/// The plot as SVG.
pub fn svg(grown: &[Grown]) -> String {
    let axes = Axes::around(grown);
    let parts = [
        frame(),
        lines_across(&axes),
        lines_up(&axes, grown),
        curve(&axes, grown),
        "</svg>\n".into(),
    ];
    parts.concat()
}

/// The paper, the title and the names of the axes.
fn frame() -> String {
    let (middle, centre) = ((LEFT + RIGHT) / 2.0, (TOP + BOTTOM) / 2.0);
    format!(
        r##"<svg xmlns="http://www.w3.org/2000/svg" viewBox="0 0 {WIDTH} {HEIGHT}" font-family="sans-serif" font-size="13" fill="#222">
<rect width="{WIDTH}" height="{HEIGHT}" fill="#fff"/>
<text x="{middle}" y="30" text-anchor="middle" font-size="16">Instructions of a call of oivarnum_route as the plan grows</text>
<text x="{middle}" y="{}" text-anchor="middle">contacts of the plan, and as many ranges</text>
<text x="24" y="{centre}" text-anchor="middle" transform="rotate(-90 24 {centre})">instructions of a call</text>
"##,
        BOTTOM + 48.0
    )
}

/// A line for each power of ten, with its number.
fn lines_across(axes: &Axes) -> String {
    let powers = axes.up.0 as u32..=axes.up.1 as u32;
    let line = |power| {
        let count = 10u64.pow(power);
        let y = axes.y(count as f64);
        format!(
            r##"<path d="M{LEFT} {y:.1}H{RIGHT}" stroke="#ccc"/>
<text x="{}" y="{:.1}" text-anchor="end">{}</text>
"##,
            LEFT - 8.0,
            y + 4.5,
            thousands(count)
        )
    };
    powers.map(line).collect()
}

/// A line for each size of plan, with its number, and the two axes.
fn lines_up(axes: &Axes, grown: &[Grown]) -> String {
    let line = |grown: &Grown| {
        let x = axes.x(grown.contacts as f64);
        format!(
            r##"<path d="M{x:.1} {TOP}V{BOTTOM}" stroke="#eee"/>
<text x="{x:.1}" y="{}" text-anchor="middle">{}</text>
"##,
            BOTTOM + 20.0,
            grown.contacts
        )
    };
    let lines: String = grown.iter().map(line).collect();
    format!("{lines}<path d=\"M{LEFT} {TOP}V{BOTTOM}H{RIGHT}\" fill=\"none\" stroke=\"#222\"/>\n")
}

/// The line of instructions, with each point's number.
fn curve(axes: &Axes, grown: &[Grown]) -> String {
    let at = |grown: &Grown| {
        let (contacts, instructions) = (grown.contacts as f64, grown.counted.all as f64);
        (axes.x(contacts), axes.y(instructions))
    };
    let points: Vec<String> = grown
        .iter()
        .map(|grown| format!("{:.1},{:.1}", at(grown).0, at(grown).1))
        .collect();
    let marks = grown.iter().map(|grown| {
        let (x, y) = at(grown);
        let count = thousands(grown.counted.all);
        format!(
            r##"<circle cx="{x:.1}" cy="{y:.1}" r="4" fill="#0b5fa5"/>
<text x="{:.1}" y="{:.1}" text-anchor="end" font-size="12">{count}</text>
"##,
            x - 6.0,
            y - 7.0
        )
    });
    format!(
        r##"<polyline points="{}" fill="none" stroke="#0b5fa5" stroke-width="2"/>
{}"##,
        points.join(" "),
        marks.collect::<String>()
    )
}

#[cfg(test)]
mod tests {
    use super::*;
    use crate::counts::Counted;

    #[test]
    fn points_are_where_the_axes_say() {
        let grown = [(8, 1000), (512, 1_000_000)].map(|(contacts, all)| Grown {
            contacts,
            counted: Counted { all, memset: 0 },
        });
        let axes = Axes::around(&grown);
        assert_eq!((axes.y(1000.0), axes.y(1_000_000.0)), (BOTTOM, TOP));
        assert_eq!(axes.x(8.0), LEFT + BEFORE);
        assert_eq!(axes.x(512.0), RIGHT - BEHIND);
        assert!(svg(&grown).contains("1,000,000"));
    }
}
