//! One call of the library, instruction by instruction, as valgrind's tool lackey tells it. Callgrind loses track of
//! calls on Arm, so the calls are followed here.

use std::collections::HashMap;
use std::fs::{self, File};
use std::io::{BufRead, BufReader};
use std::path::Path;
use std::process::{Command, Stdio};

use super::{buffers, Asked};
use crate::child::letter;
use crate::library;
use crate::second::Call;

/// The hidden subcommand.
pub const SUBCOMMAND: &str = "ask-here";

/// What the library calls outside of this program, by the order in which the child prints the addresses.
const OUTSIDE: [&str; 2] = ["memcpy", "memset"];

/// The child: prints where the library's function, memcpy and memset are, and asks once.
pub fn ask_here(call: Call, row: &str, path: &str) -> Result<(), String> {
    let image = fs::read(path).map_err(|error| error.to_string())?;
    let row = row.parse().map_err(|_| "a row is a number")?;
    let (mut output, mut detail) = buffers();
    for address in library::addresses(call) {
        println!("{address:x}");
    }
    library::number(call, &image, row, &mut output, &mut detail);
    Ok(())
}

/// What an instruction does to the order of instructions.
enum Jump {
    Call,
    Return,
    Other,
}

/// This program's code: what jumps, and where functions start.
pub struct Code {
    jumps: HashMap<u64, Jump>,
    starts: HashMap<u64, String>,
}

impl Code {
    pub fn of(program: &Path) -> Result<Self, String> {
        let listing = run(Command::new("objdump").args(["-d", "--no-show-raw-insn"]).arg(program))?;
        let (mut jumps, mut starts) = (HashMap::new(), HashMap::new());
        for line in listing.lines() {
            if let Some((address, name)) = line.strip_suffix(">:").and_then(|line| line.split_once(" <")) {
                starts.insert(hexadecimal(address)?, name.to_string());
            } else if let Some((address, what)) = line.split_once(":\t") {
                let jump = match what.split_whitespace().next() {
                    Some("bl" | "blr" | "call") => Jump::Call,
                    Some("ret") => Jump::Return,
                    _ => Jump::Other,
                };
                jumps.insert(hexadecimal(address.trim())?, jump);
            }
        }
        Ok(Code { jumps, starts })
    }

    fn start_of(&self, name: &str) -> Result<u64, String> {
        let named = self.starts.iter().find(|(_, other)| *other == name);
        named.map(|(start, _)| *start).ok_or(format!("the program has no function {name}"))
    }
}

pub fn run(command: &mut Command) -> Result<String, String> {
    let output = command.output().map_err(|error| format!("cannot start {:?}: {error}", command.get_program()))?;
    Ok(String::from_utf8_lossy(&output.stdout).into_owned())
}

fn hexadecimal(text: &str) -> Result<u64, String> {
    u64::from_str_radix(text, 16).map_err(|_| format!("no address: {text}"))
}

/// How often each instruction was done in each place of the calls' tree.
#[derive(Default)]
pub struct Trace {
    pub nodes: Vec<Node>,
    pub counts: HashMap<(usize, u64), u64>,
}

/// A call: from which node and which instruction, and of what where it is outside of this program.
pub struct Node {
    pub parent: usize,
    pub site: u64,
    pub outside: Option<&'static str>,
    children: HashMap<(u64, u64), usize>,
}

impl Trace {
    pub fn new() -> Self {
        let root = Node { parent: 0, site: 0, outside: None, children: HashMap::new() };
        Trace { nodes: vec![root], counts: HashMap::new() }
    }

    /// Adds a call about an image.
    pub fn add(&mut self, code: &Code, program: &Path, call: Call, asked: &Asked) -> Result<(), String> {
        let (image, log) = (program.with_file_name("trace.image"), program.with_file_name("trace.log"));
        fs::write(&image, &asked.image).map_err(|error| error.to_string())?;
        let mut command = Command::new("valgrind");
        command.args(["--tool=lackey", "--trace-mem=yes", "--sim-hints=fallback-llsc"]);
        command.arg(format!("--log-file={}", log.display())).arg(program).args([SUBCOMMAND, letter(call)]);
        let addresses = run(command.arg(asked.row.to_string()).arg(&image).stderr(Stdio::null()))?;
        let addresses: Vec<u64> = addresses.lines().map(hexadecimal).collect::<Result<_, _>>()?;
        let [entry, outside @ ..] = addresses.as_slice() else { return Err("the child process said nothing".into()) };
        let name = if call == Call::ProjectImpl { "fruscalitu_project_impl" } else { "fruscalitu_expected_signatures" };
        let base = entry - code.start_of(name)?;
        self.follow(code, base, *entry, outside, &log)?;
        let _ = fs::remove_file(&log);
        Ok(())
    }

    fn follow(&mut self, code: &Code, base: u64, entry: u64, outside: &[u64], log: &Path) -> Result<(), String> {
        let log = File::open(log).map_err(|error| format!("cannot read {}: {error}", log.display()))?;
        // Nodes that wait for a return, with the address to return to.
        let mut waiting: Vec<(usize, u64)> = vec![];
        let (mut node, mut before) = (0, None);
        let (mut log, mut line) = (BufReader::with_capacity(1 << 20, log), String::new());
        while log.read_line(&mut line).map_err(|error| error.to_string())? > 0 {
            // Only instructions are of interest: an address and a length.
            let told = line.strip_prefix("I  ").and_then(|line| line.trim_end().split_once(','));
            let read = told.map(|(address, length)| (hexadecimal(address), length.parse::<u64>()));
            line.clear();
            let (address, length) = match read {
                Some((Ok(address), Ok(length))) => (address, length),
                _ => continue,
            };
            let place = address.wrapping_sub(base);
            let inside = code.jumps.contains_key(&place);
            match before {
                None if address != entry => continue,
                None => {}
                // Back from outside, or a return: to whoever waits for it.
                Some((was, _)) if returns(code, was, inside) => {
                    while waiting.last().is_some_and(|(_, back)| *back != place) {
                        waiting.pop();
                    }
                    match waiting.pop() {
                        Some((back, _)) => node = back,
                        None => return Ok(()),
                    }
                }
                Some((Some(from), after)) => {
                    let calls = matches!(code.jumps[&from], Jump::Call);
                    if calls {
                        waiting.push((node, after));
                    }
                    // A jump to another function's start is a call that returns for its caller.
                    let other = code.starts.contains_key(&place) && place != after;
                    if calls || !inside || other {
                        let name = OUTSIDE.iter().zip(outside).find(|(_, at)| **at == address);
                        node = self.child(
                            node,
                            from,
                            place,
                            name.map_or((!inside).then_some("outside"), |it| Some(*it.0)),
                        );
                    }
                }
                Some(_) => {}
            }
            *self.counts.entry((node, if inside { place } else { 0 })).or_default() += 1;
            before = Some((inside.then_some(place), place + length));
        }
        Err("the call did not end".into())
    }

    fn child(&mut self, node: usize, site: u64, start: u64, outside: Option<&'static str>) -> usize {
        let new = self.nodes.len();
        let child = *self.nodes[node].children.entry((site, start)).or_insert(new);
        if child == new {
            self.nodes.push(Node { parent: node, site, outside, children: HashMap::new() });
        }
        child
    }
}

fn returns(code: &Code, was: Option<u64>, inside: bool) -> bool {
    match was {
        Some(place) => matches!(code.jumps[&place], Jump::Return),
        None => inside,
    }
}
