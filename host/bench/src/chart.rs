//! Bars, as text and as a drawing.

use std::fmt;

/// Bars of one unit under a heading.
pub struct Group {
    pub title: String,
    pub unit: &'static str,
    pub bars: Vec<(String, f64)>,
}

impl Group {
    fn greatest(&self) -> f64 {
        self.bars.iter().map(|(_, value)| *value).fold(f64::MIN_POSITIVE, f64::max)
    }
}

impl fmt::Display for Group {
    fn fmt(&self, f: &mut fmt::Formatter) -> fmt::Result {
        writeln!(f, "{}", self.title)?;
        for (name, value) in &self.bars {
            let bar = "#".repeat((40.0 * value / self.greatest()).round() as usize);
            writeln!(f, "  {name:32} {value:>9.0} {:8} {bar}", self.unit)?;
        }
        Ok(())
    }
}

const ROW: usize = 22;
const NAMES: usize = 250;
const LONGEST: f64 = 330.0;
const WIDTH: usize = 720;

/// All groups, one below the other.
pub fn svg(caption: &str, groups: &[Group]) -> String {
    let rows: usize = groups.iter().map(|g| g.bars.len() + 2).sum();
    let height = ROW * (rows + 1) + 10;
    let mut text = format!(
        "<svg xmlns=\"http://www.w3.org/2000/svg\" width=\"{WIDTH}\" height=\"{height}\" \
         font-family=\"sans-serif\" font-size=\"13\">\n\
         <rect width=\"{WIDTH}\" height=\"{height}\" fill=\"#fff\"/>\n"
    );
    let mut y = ROW;
    for group in groups {
        text += &format!("<text x=\"10\" y=\"{y}\" font-weight=\"bold\">{}</text>\n", group.title);
        for (name, value) in &group.bars {
            y += ROW;
            text += &bar(y, name, *value, group);
        }
        y += 2 * ROW;
    }
    text + &format!("<text x=\"10\" y=\"{y}\" fill=\"#666\">{caption}</text>\n</svg>\n")
}

fn bar(y: usize, name: &str, value: f64, group: &Group) -> String {
    let length = (LONGEST * value / group.greatest()).max(1.0);
    let colour = match name {
        _ if name.contains("Rust") || name.contains("reference") => "#9aa7b5",
        _ if name.ends_with("before") => "#86b1cf",
        _ => "#2f6f9f",
    };
    format!(
        "<text x=\"20\" y=\"{y}\">{name}</text>\
         <rect x=\"{NAMES}\" y=\"{}\" width=\"{length:.0}\" height=\"14\" fill=\"{colour}\"/>\
         <text x=\"{:.0}\" y=\"{y}\">{value:.0} {}</text>\n",
        y - 12,
        NAMES as f64 + length + 6.0,
        group.unit
    )
}
