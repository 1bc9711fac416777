//! Panels with axes, in two columns.

pub const PANEL: (f64, f64) = (460.0, 290.0);
pub const MARGIN: f64 = 56.0;
pub const PLOT: (f64, f64) = (PANEL.0 - MARGIN - 20.0, PANEL.1 - 100.0);

pub fn text(x: f64, y: f64, anchor: &str, size: u32, said: &str) -> String {
    format!("<text x=\"{x:.1}\" y=\"{y:.1}\" text-anchor=\"{anchor}\" font-size=\"{size}\">{said}</text>\n")
}

pub fn stroke(x1: f64, y1: f64, x2: f64, y2: f64, colour: &str) -> String {
    format!("<line x1=\"{x1:.1}\" y1=\"{y1:.1}\" x2=\"{x2:.1}\" y2=\"{y2:.1}\" stroke=\"{colour}\"/>\n")
}

/// How a curve is drawn.
#[derive(Clone, Copy)]
pub struct Line {
    pub colour: &'static str,
    pub dashes: &'static str,
}

impl Line {
    /// A piece of it, for a legend.
    pub fn sample(&self, x: f64, y: f64) -> String {
        let Line { colour, dashes } = self;
        format!(
            "<line x1=\"{x}\" y1=\"{y}\" x2=\"{}\" y2=\"{y}\" stroke=\"{colour}\" stroke-width=\"2.2\" stroke-dasharray=\"{dashes}\"/>\n",
            x + 44.0
        )
    }
}

/// Places of one panel by a number from `first` to `last` and a share.
pub struct Axes {
    pub first: f64,
    pub last: f64,
}

impl Axes {
    pub fn x(&self, number: f64) -> f64 {
        MARGIN + (number - self.first) / (self.last - self.first) * PLOT.0
    }

    pub fn y(&self, share: f64) -> f64 {
        50.0 + (1.0 - share) * PLOT.1
    }

    /// The frame, with marks at each fifth of the shares and at each `step` of the numbers.
    pub fn frame(&self, step: usize) -> String {
        let mut svg = String::new();
        for fifth in 0..=5 {
            let y = self.y(fifth as f64 / 5.0);
            svg += &stroke(MARGIN, y, MARGIN + PLOT.0, y, if fifth == 0 { "#333333" } else { "#e3e3e3" });
            svg += &text(MARGIN - 8.0, y + 4.0, "end", 12, &format!("{} %", 20 * fifth));
        }
        for number in (self.first as usize..=self.last as usize).step_by(step) {
            let x = self.x(number as f64);
            svg += &stroke(x, self.y(0.0), x, self.y(0.0) + 5.0, "#333333");
            svg += &text(x, self.y(0.0) + 19.0, "middle", 12, &number.to_string());
        }
        svg
    }

    /// A line of text under the axis.
    pub fn under(&self, line: usize, said: &str) -> String {
        text(MARGIN + PLOT.0 / 2.0, self.y(0.0) + 19.0 * (line + 1) as f64, "middle", 12, said)
    }

    /// Through numbers and shares.
    pub fn curve(&self, points: &[(f64, f64)], line: Line) -> String {
        let places: Vec<String> =
            points.iter().map(|(number, share)| format!("{:.1},{:.1}", self.x(*number), self.y(*share))).collect();
        let Line { colour, dashes } = line;
        let line = format!("fill=\"none\" stroke=\"{colour}\" stroke-width=\"2.2\" stroke-dasharray=\"{dashes}\"");
        format!("<polyline points=\"{}\" {line}/>\n", places.join(" "))
    }
}

/// The cells in two columns, each so high; the whole is cut to a height.
pub fn canvas(cells: &[String], cell_height: f64, height: f64) -> String {
    let width = 2.0 * PANEL.0;
    let mut svg = format!(
        "<svg xmlns=\"http://www.w3.org/2000/svg\" viewBox=\"0 0 {width} {height}\" width=\"{width}\" height=\"{height}\" \
         font-family=\"sans-serif\" fill=\"#222222\">\n<rect width=\"{width}\" height=\"{height}\" fill=\"#ffffff\"/>\n"
    );
    for (i, cell) in cells.iter().enumerate() {
        let (x, y) = ((i % 2) as f64 * PANEL.0, (i / 2) as f64 * cell_height);
        svg += &format!("<g transform=\"translate({x} {y})\">\n{cell}</g>\n");
    }
    svg + "</svg>\n"
}
