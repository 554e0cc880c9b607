//! The labels of stored cases: labels.txt stands beside the file of cases and has one for each, in the same order.

use std::path::Path;

/// The stored cases, where no other file is named.
pub const STORED: &str = concat!(env!("CARGO_MANIFEST_DIR"), "/../vectors/cases.bin");

/// The labels beside a file of so many cases.
pub fn beside(cases: &str, count: usize) -> Result<Vec<String>, String> {
    let path = Path::new(cases).with_file_name("labels.txt");
    let text = std::fs::read_to_string(&path).map_err(|error| format!("cannot read {}: {error}", path.display()))?;
    let labels: Vec<String> = text.lines().map(str::to_string).collect();
    match labels.len() == count {
        true => Ok(labels),
        false => Err(format!("{} has {} labels for {count} cases", path.display(), labels.len())),
    }
}

/// The places of the labels that are as a pattern says; none is an error that tells how to find one.
pub fn find(pattern: &str, labels: &[String]) -> Result<Vec<usize>, String> {
    let like = |place: &usize| matches(pattern.as_bytes(), labels[*place].as_bytes());
    let places: Vec<usize> = (0..labels.len()).filter(like).collect();
    match places.is_empty() {
        true => Err(format!(
            "no stored case has the label {pattern}; `compare/run labels` lists them, `compare/run labels '*PART*'` \
             those with a part"
        )),
        false => Ok(places),
    }
}

/// Each `*` of a pattern stands for any characters, or none.
fn matches(pattern: &[u8], label: &[u8]) -> bool {
    match (pattern, label) {
        ([], []) => true,
        ([b'*', rest @ ..], _) => (0..=label.len()).any(|skipped| matches(rest, &label[skipped..])),
        ([one, rest @ ..], [other, left @ ..]) => one == other && matches(rest, left),
        _ => false,
    }
}

#[cfg(test)]
mod tests {
    use super::*;
    use crate::cases;

    fn stored() -> Vec<String> {
        let cases = cases::from_bytes(&std::fs::read(STORED).unwrap()).ok().unwrap();
        beside(STORED, cases.len()).unwrap()
    }

    #[test]
    fn a_star_stands_for_any_characters() {
        let labels = ["visits-1024", "visits-1024-detail-575", "visits-1025", "row-past"].map(str::to_string);
        let find = |pattern: &str| find(pattern, &labels).unwrap_or_default();
        assert_eq!(find("visits-1024"), [0]);
        assert_eq!(find("visits-*"), [0, 1, 2]);
        assert_eq!(find("*-past"), [3]);
        assert_eq!(find("*-detail-*"), [1]);
        assert_eq!(find("visits-1024*"), [0, 1]);
        assert_eq!(find("*"), [0, 1, 2, 3]);
        for none in ["", "visits", "visits-102", "isits-1024", "*-detail", "visits-1024-*-1024", "row_past"] {
            assert!(find(none).is_empty(), "{none}");
        }
    }

    #[test]
    fn a_label_that_is_not_there_tells_how_to_list_them() {
        assert!(find("no-such-label", &stored()).is_err_and(|said| said.contains("compare/run labels")));
    }

    #[test]
    fn another_count_of_labels_is_refused() {
        assert!(beside(STORED, stored().len() + 1).is_err());
    }

    /// The last column of the table of differences by design names inputs by their labels.
    #[test]
    fn the_inputs_of_the_differences_are_stored() {
        let text = std::fs::read_to_string(concat!(env!("CARGO_MANIFEST_DIR"), "/../docs/DIFFERENCES.md")).unwrap();
        let (_, design) = text.split_once("\n## Differences by design\n").unwrap();
        let (design, _) = design.split_once("\n## ").unwrap();
        let (labels, mut named) = (stored(), 0);
        for row in design.lines().filter_map(|line| line.strip_suffix(" |")) {
            let (_, inputs) = row.rsplit_once(" | ").unwrap();
            for label in inputs.split('`').skip(1).step_by(2) {
                find(label, &labels).unwrap();
                named += 1;
            }
        }
        assert!(named >= 20);
    }
}
