//! Instructions, counted by callgrind in a child process that asks each side once about each image.

use std::fs;
use std::path::{Path, PathBuf};
use std::process::{Command, Stdio};

use super::figures::Figure;
use super::{buffers, callgrind, named, SIDES};
use crate::second::Call;

/// The hidden subcommand.
pub const SUBCOMMAND: &str = "count-here";

/// What callgrind says of a part is in a line that starts so.
const LABEL: &str = "desc: Trigger: Client Request: ";
const TOTAL: &str = "totals: ";

/// Instructions a call, of the groups that a word names: a seed, or `PASSED`.
pub fn counts(word: &str, calls: &[Call]) -> Result<Vec<Figure>, String> {
    let program = std::env::current_exe().map_err(|error| error.to_string())?;
    let folder = fresh_folder(&program)?;
    let status = Command::new("valgrind")
        .args(["--tool=callgrind", "--instr-atstart=no", "--dump-line=no"])
        .arg(format!("--callgrind-out-file={}", folder.join("part").display()))
        .arg(&program)
        .args([SUBCOMMAND, word])
        .stderr(Stdio::null())
        .status()
        .map_err(|error| format!("cannot start valgrind: {error}"))?;
    if !status.success() {
        return Err(format!("valgrind ends with {status}"));
    }
    let groups = named(word, calls)?;
    let mut parts = vec![None; SIDES * groups.len()];
    for entry in fs::read_dir(&folder).map_err(|error| error.to_string())? {
        let text = entry.and_then(|entry| fs::read_to_string(entry.path())).map_err(|error| error.to_string())?;
        let line = |start: &str| text.lines().find_map(|line| line.strip_prefix(start)?.trim().parse::<usize>().ok());
        if let (Some(label), Some(total)) = (line(LABEL), line(TOTAL)) {
            *parts.get_mut(label).ok_or(format!("callgrind tells of a part {label}"))? = Some(total);
        }
    }
    let parts: Vec<usize> = parts.into_iter().collect::<Option<_>>().ok_or("callgrind did not count every part")?;
    let figure = |(group, parts): (_, &[usize])| {
        let group: &super::Group = group;
        Figure::new(group, std::array::from_fn(|side| parts[side] as f64 / group.asked.len() as f64))
    };
    Ok(groups.iter().zip(parts.chunks(SIDES)).map(figure).collect())
}

/// An empty folder beside the program.
fn fresh_folder(program: &Path) -> Result<PathBuf, String> {
    let folder = program.with_file_name("callgrind");
    let _ = fs::remove_dir_all(&folder);
    fs::create_dir(&folder).map_err(|error| format!("cannot make {}: {error}", folder.display()))?;
    Ok(folder)
}

/// The child: a part for each side of each group, asked once before so that nothing is done for the first time.
pub fn count_here(word: &str, calls: &[Call]) -> Result<(), String> {
    let (mut output, mut detail) = buffers();
    for (place, group) in named(word, calls)?.iter().enumerate() {
        for side in 0..SIDES {
            group.ask(side, &mut output, &mut detail);
            callgrind::counted(SIDES * place + side, || group.ask(side, &mut output, &mut detail));
        }
    }
    Ok(())
}
