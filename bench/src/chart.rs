//! Draws a bar chart of the ratios: the library's time relative to the plain program's, at the
//! largest size.
use crate::rows::Row;
use std::fmt::Write;

const LINE: usize = 18;

const LEFT: usize = 330;

/// Width of the ratio 1, in pixels.
const WHOLE: f64 = 320.0;

/// Maximum ratio of a bar.
const MOST: f64 = 1.5;

pub fn svg(rows: &[Row]) -> String {
    let height = LINE * (rows.len() + 3);
    let width = LEFT + (WHOLE * MOST) as usize + 60;
    let mut text = String::new();
    writeln!(
        text,
        "<svg xmlns=\"http://www.w3.org/2000/svg\" width=\"{width}\" height=\"{height}\" \
         font-family=\"sans-serif\" font-size=\"12\">\n\
         <rect width=\"{width}\" height=\"{height}\" fill=\"white\"/>\n\
         <text x=\"8\" y=\"{LINE}\">Time by the plain program's, at the largest size of each row \
         (less is better; the line is 1)</text>",
    )
    .unwrap();
    for (place, row) in rows.iter().enumerate() {
        let ratio = row.ratios()[2];
        let y = LINE * (place + 2);
        let bar = ratio.clamp(0.0, MOST) * WHOLE;
        let color = if ratio <= 0.8 { "#2a7f62" } else { "#c1662f" };
        let name = format!("{}: {}", row.group, row.name);
        writeln!(
            text,
            "<text x=\"{}\" y=\"{}\" text-anchor=\"end\">{name}</text>\n\
             <rect x=\"{LEFT}\" y=\"{}\" width=\"{bar:.0}\" height=\"12\" fill=\"{color}\"/>\n\
             <text x=\"{:.0}\" y=\"{}\">{ratio:.2}</text>",
            LEFT - 8,
            y + 11,
            y + 1,
            LEFT as f64 + bar + 6.0,
            y + 11,
        )
        .unwrap();
    }
    let one = LEFT + WHOLE as usize;
    writeln!(
        text,
        "<line x1=\"{one}\" x2=\"{one}\" y1=\"{}\" y2=\"{}\" stroke=\"black\"/>\n</svg>",
        LINE + 8,
        height - LINE / 2,
    )
    .unwrap();
    text
}
