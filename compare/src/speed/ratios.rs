//! The library's cost over the Rust's, as Markdown: by time and, in brackets, by instructions.

use std::fmt::Write;

use super::figures::Figure;
use super::TYPICAL;

/// The largest size of each column, in kilobytes.
const COLUMNS: [usize; 4] = [1, 4, 16, 64];

/// Tables of typical images for each call, then one of the other kinds.
pub fn ratios(times: &[Figure], counts: &[Figure]) -> Result<String, String> {
    let mut text = String::new();
    for (call, name) in [("ProjectImpl", "project_impl"), ("ExpectedSignatures", "expected_signatures")] {
        let _ = writeln!(text, "`{name}` on typical images:\n");
        let _ = writeln!(
            text,
            "| bytes | of the Rust with building | of the Rust without | instructions a byte |"
        );
        let _ = writeln!(text, "|---|---|---|---|");
        for time in times.iter().filter(|figure| figure.call == call && figure.kind == TYPICAL) {
            let count = beside(time, counts)?;
            let _ = writeln!(
                text,
                "| {} | {} | {} | {:.0} |",
                time.bytes,
                both(time, count, 1),
                both(time, count, 2),
                count.cost[0] / count.bytes as f64
            );
        }
        text.push('\n');
    }
    for (side, name) in [(1, "with building"), (2, "without")] {
        let _ = writeln!(text, "`project_impl` on the worst images, of the Rust {name}:\n");
        let _ = writeln!(text, "| kind | 1 KB | 4 KB | 16 KB | 64 KB |\n|---|---|---|---|---|");
        let worst: Vec<&Figure> = times.iter().filter(|figure| figure.kind != TYPICAL).collect();
        for kind in worst.chunk_by(|left, right| left.kind == right.kind) {
            let mut cells = vec![];
            for kilobytes in COLUMNS {
                let fits = |figure: &&&Figure| (kilobytes * 256..=kilobytes * 1_024).contains(&figure.bytes);
                cells.push(match kind.iter().rfind(fits) {
                    Some(time) => both(time, beside(time, counts)?, side),
                    None => "none".into(),
                });
            }
            let _ = writeln!(text, "| {} | {} |", kind[0].kind, cells.join(" | "));
        }
        text.push('\n');
    }
    Ok(text)
}

fn beside<'a>(time: &Figure, counts: &'a [Figure]) -> Result<&'a Figure, String> {
    let same = |count: &&Figure| (&count.call, &count.kind, count.bytes) == (&time.call, &time.kind, time.bytes);
    counts.iter().find(same).ok_or(format!("no count of {} of {} bytes", time.kind, time.bytes))
}

fn both(time: &Figure, count: &Figure, side: usize) -> String {
    let ratio = |figure: &Figure| {
        let ratio = figure.cost[0] / figure.cost[side];
        if ratio < 100.0 {
            format!("{ratio:.2}")
        } else {
            format!("{ratio:.0}")
        }
    };
    format!("{} ({})", ratio(time), ratio(count))
}

#[cfg(test)]
mod tests {
    use super::*;

    #[test]
    fn a_time_stands_beside_its_count() {
        let figure = |kind: &str, bytes, library| Figure {
            call: "ProjectImpl".into(),
            kind: kind.into(),
            bytes,
            cost: [library, 2.0, 1.0],
        };
        let times = [figure(TYPICAL, 1_000, 1.0), figure("fields", 4_000, 6.0)];
        let counts = [figure("fields", 4_000, 5.0), figure(TYPICAL, 1_000, 3.0)];
        let text = ratios(&times, &counts).expect("ratios");
        assert!(text.contains("| 1000 | 0.50 (1.50) | 1.00 (3.00) |"), "{text}");
        assert!(text.contains("| fields | none | 3.00 (2.50) | none | none |"), "{text}");
        assert!(ratios(&times, &counts[..1]).is_err());
    }
}
