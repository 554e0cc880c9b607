//! Cost against the image's size as plain SVG: a panel for each kind of image, a line for each side, both axes by powers.

use std::fmt::Write;

use super::figures::Figure;
use super::SIDES;

const COLUMNS: usize = 3;
const WIDTH: f64 = 300.0;
const HEIGHT: f64 = 230.0;
/// Around the panels, and around the axes of each.
const TOP: f64 = 56.0;
const LEFT: f64 = 54.0;
const RIGHT: f64 = 14.0;
const ABOVE: f64 = 26.0;
const BELOW: f64 = 40.0;

const SIDE: [(&str, &str); SIDES] =
    [("library", "#b2182b"), ("Rust with building", "#2166ac"), ("Rust without", "#1b7837")];

const KILOBYTES: [f64; 4] = [1.0, 4.0, 16.0, 64.0];

/// Where costs and sizes stand in a panel.
struct Axes {
    least: i32,
    most: i32,
}

impl Axes {
    /// The powers of ten around all costs.
    fn of(figures: &[&Figure]) -> Self {
        let powers = figures.iter().flat_map(|figure| figure.cost).map(|cost| cost.max(1e-3).log10());
        let (least, most) =
            powers.fold((f64::MAX, f64::MIN), |(least, most), power| (least.min(power), most.max(power)));
        Axes { least: least.floor() as i32, most: most.ceil() as i32 }
    }

    fn across(&self, kilobytes: f64) -> f64 {
        let (least, most) = (0.6f64.ln(), 80f64.ln());
        LEFT + (WIDTH - LEFT - RIGHT) * (kilobytes.ln() - least) / (most - least)
    }

    fn down(&self, cost: f64) -> f64 {
        let share = (cost.max(1e-3).log10() - f64::from(self.least)) / f64::from(self.most - self.least);
        HEIGHT - BELOW - (HEIGHT - ABOVE - BELOW) * share
    }
}

/// A panel for each kind of image that one call was asked about.
pub fn plot(unit: &str, call: &str, title: &str, figures: &[Figure]) -> Result<String, String> {
    let figures: Vec<&Figure> = figures.iter().filter(|figure| figure.call == call).collect();
    if figures.is_empty() {
        return Err(format!("there are no figures of {call}"));
    }
    let mut kinds: Vec<&str> = vec![];
    for figure in &figures {
        if !kinds.contains(&figure.kind.as_str()) {
            kinds.push(&figure.kind);
        }
    }
    let (axes, rows) = (Axes::of(&figures), kinds.len().div_ceil(COLUMNS));
    let (width, height) = (WIDTH * kinds.len().min(COLUMNS) as f64, TOP + HEIGHT * rows as f64);
    let mut svg = format!(
        "<svg xmlns=\"http://www.w3.org/2000/svg\" width=\"{width}\" height=\"{height}\" \
         viewBox=\"0 0 {width} {height}\" font-family=\"sans-serif\" font-size=\"11\">\n\
         <rect width=\"{width}\" height=\"{height}\" fill=\"white\"/>\n\
         <text x=\"{LEFT}\" y=\"20\" font-size=\"14\">{title}: {unit} a call against the image's size</text>\n"
    );
    for (place, (label, colour)) in SIDE.iter().enumerate() {
        let x = LEFT + 170.0 * place as f64;
        let _ = writeln!(
            svg,
            "<path d=\"M{x} 38h28\" stroke=\"{colour}\" stroke-width=\"2\"/>{}",
            mark(place, x + 14.0, 38.0)
        );
        let _ = writeln!(svg, "<text x=\"{}\" y=\"42\">{label}</text>", x + 34.0);
    }
    for (place, kind) in kinds.iter().enumerate() {
        let (x, y) = (WIDTH * (place % COLUMNS) as f64, TOP + HEIGHT * (place / COLUMNS) as f64);
        let of: Vec<&Figure> = figures.iter().filter(|figure| figure.kind == **kind).copied().collect();
        let _ = writeln!(svg, "<g transform=\"translate({x} {y})\">\n{}</g>", panel(&axes, unit, kind, &of));
    }
    Ok(svg + "</svg>\n")
}

fn panel(axes: &Axes, unit: &str, kind: &str, figures: &[&Figure]) -> String {
    let (bottom, end) = (HEIGHT - BELOW, WIDTH - RIGHT);
    let mut svg = format!("<text x=\"{LEFT}\" y=\"18\" font-weight=\"bold\">{kind}</text>\n");
    for power in axes.least..=axes.most {
        let y = axes.down(10f64.powi(power));
        let _ = writeln!(svg, "<path d=\"M{LEFT} {y:.1}H{end}\" stroke=\"#ddd\"/>");
        let _ = writeln!(
            svg,
            "<text x=\"{}\" y=\"{:.1}\" text-anchor=\"end\">{}</text>",
            LEFT - 5.0,
            y + 4.0,
            power_of_ten(power)
        );
    }
    for kilobytes in KILOBYTES {
        let x = axes.across(kilobytes);
        let _ = writeln!(svg, "<path d=\"M{x:.1} {ABOVE}V{bottom}\" stroke=\"#ddd\"/>");
        let _ = writeln!(svg, "<text x=\"{x:.1}\" y=\"{}\" text-anchor=\"middle\">{kilobytes}</text>", bottom + 14.0);
    }
    let _ = writeln!(svg, "<path d=\"M{LEFT} {ABOVE}V{bottom}H{end}\" fill=\"none\" stroke=\"#444\"/>");
    let (middle, centre) = ((LEFT + end) / 2.0, (ABOVE + bottom) / 2.0);
    let _ = writeln!(svg, "<text x=\"{middle}\" y=\"{}\" text-anchor=\"middle\">image, KB</text>", bottom + 29.0);
    let _ =
        writeln!(svg, "<text transform=\"translate(13 {centre}) rotate(-90)\" text-anchor=\"middle\">{unit}</text>");
    for (side, (_, colour)) in SIDE.iter().enumerate() {
        let at: Vec<(f64, f64)> = figures
            .iter()
            .map(|figure| (axes.across(figure.bytes as f64 / 1_024.0), axes.down(figure.cost[side])))
            .collect();
        let points: Vec<String> = at.iter().map(|(x, y)| format!("{x:.1},{y:.1}")).collect();
        let _ = writeln!(
            svg,
            "<polyline points=\"{}\" fill=\"none\" stroke=\"{colour}\" stroke-width=\"2\"/>",
            points.join(" ")
        );
        for (x, y) in at {
            let _ = writeln!(svg, "{}", mark(side, x, y));
        }
    }
    svg
}

/// A circle, a square or a triangle.
fn mark(side: usize, x: f64, y: f64) -> String {
    let colour = SIDE[side].1;
    match side {
        0 => format!("<circle cx=\"{x:.1}\" cy=\"{y:.1}\" r=\"3.5\" fill=\"{colour}\"/>"),
        1 => format!("<rect x=\"{:.1}\" y=\"{:.1}\" width=\"6\" height=\"6\" fill=\"{colour}\"/>", x - 3.0, y - 3.0),
        _ => format!("<path d=\"M{x:.1} {:.1}l4 7h-8z\" fill=\"{colour}\"/>", y - 4.0),
    }
}

fn power_of_ten(power: i32) -> String {
    let unit = ["", "k", "M", "G", "T"].get((power.max(0) / 3) as usize).copied().unwrap_or("?");
    match power {
        ..0 => format!("{}", 10f64.powi(power)),
        _ => format!("{}{unit}", 10i32.pow(power as u32 % 3)),
    }
}

#[cfg(test)]
mod tests {
    use super::*;

    #[test]
    fn every_point_stands_in_its_panel() {
        let figure = |bytes, cost| Figure { call: "P".into(), kind: "typical".into(), bytes, cost };
        let figures = [figure(1_000, [30.0, 60.0, 4.0]), figure(65_536, [2e6, 3e6, 4e5])];
        let svg = plot("instructions", "P", "p", &figures).expect("a plot");
        assert_eq!((svg.matches("<polyline").count(), svg.matches("<g ").count()), (SIDES, 1));
        let axes = Axes::of(&figures.iter().collect::<Vec<_>>());
        for figure in &figures {
            assert!((LEFT..WIDTH - RIGHT).contains(&axes.across(figure.bytes as f64 / 1_024.0)));
            assert!(figure.cost.iter().all(|cost| (ABOVE..=HEIGHT - BELOW).contains(&axes.down(*cost))));
        }
        assert!(plot("instructions", "S", "s", &figures).is_err());
    }
}
