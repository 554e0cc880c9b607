//! What was measured: as tables, and as lines of a file that the plot is made of.

use std::fmt::Write;

use super::{Group, SIDES};

const HEAD: &str = "call,kind,bytes,library,Rust with building,Rust without";

/// A call's cost on images of one kind and size, by side.
pub struct Figure {
    pub call: String,
    pub kind: String,
    pub bytes: usize,
    pub cost: [f64; SIDES],
}

impl Figure {
    pub(super) fn new(group: &Group, cost: [f64; SIDES]) -> Self {
        Figure { call: format!("{:?}", group.call), kind: group.kind.into(), bytes: group.bytes(), cost }
    }
}

/// A table for each call and kind.
pub fn tables(unit: &str, figures: &[Figure]) -> String {
    let mut text = String::new();
    let mut title = String::new();
    for figure in figures {
        let next = format!("{}, {}: {unit} a call", figure.call, figure.kind);
        if next != title {
            title = next;
            let _ = writeln!(text, "{title}");
            let _ = writeln!(text, " bytes     library  Rust with building    of it  Rust without     of it    a byte");
        }
        let [library, with, without] = figure.cost;
        let cost = |cost: f64| if cost < 1_000.0 { format!("{cost:.2}") } else { format!("{cost:.0}") };
        let _ = writeln!(
            text,
            "{:6}{:>12}{:>20}{:9.2}{:>14}{:10.2}{:10.3}",
            figure.bytes,
            cost(library),
            cost(with),
            library / with,
            cost(without),
            library / without,
            library / figure.bytes as f64
        );
    }
    text
}

/// The unit in the first line, the columns in the second.
pub fn to_csv(unit: &str, figures: &[Figure]) -> String {
    let mut text = format!("{unit}\n{HEAD}\n");
    for Figure { call, kind, bytes, cost: [library, with, without] } in figures {
        let _ = writeln!(text, "{call},{},{bytes},{library:.2},{with:.2},{without:.2}", kind.replace(',', ""));
    }
    text
}

pub fn from_csv(text: &str) -> Result<(String, Vec<Figure>), String> {
    let mut lines = text.lines();
    let unit = lines.next().ok_or("no figures")?.to_string();
    if lines.next() != Some(HEAD) {
        return Err("no figures: the second line is not their columns".into());
    }
    let figure = |line: &str| -> Option<Figure> {
        let cells: Vec<&str> = line.split(',').collect();
        let [call, kind, bytes, cost @ ..] = cells.as_slice() else { return None };
        let cost: Vec<f64> = cost.iter().map(|cell| cell.parse().ok()).collect::<Option<_>>()?;
        let (call, kind) = (call.to_string(), kind.to_string());
        Some(Figure { call, kind, bytes: bytes.parse().ok()?, cost: cost.try_into().ok()? })
    };
    let figures = lines.map(|line| figure(line).ok_or(format!("no figure: {line}"))).collect::<Result<_, _>>()?;
    Ok((unit, figures))
}

#[cfg(test)]
mod tests {
    use super::*;

    #[test]
    fn figures_are_read_as_written() {
        let figure = Figure { call: "P".into(), kind: "1,024 names".into(), bytes: 997, cost: [1.5, 2.25, 0.5] };
        let (unit, read) = from_csv(&to_csv("µs", &[figure])).expect("figures");
        assert_eq!((unit.as_str(), read.len(), read[0].kind.as_str()), ("µs", 1, "1024 names"));
        assert_eq!((read[0].bytes, read[0].cost), (997, [1.5, 2.25, 0.5]));
        assert!(from_csv("µs\ncall\n").is_err() && from_csv(&format!("µs\n{HEAD}\nP,k,1,2,3\n")).is_err());
    }
}
