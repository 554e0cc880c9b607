//! The original Rust and the proved library beside a second reading of document 01, over seeded images.

mod asked;
mod buffers;
mod case;
mod cases;
mod child;
mod gen;
mod judge;
mod labels;
mod library;
mod options;
mod readable;
mod sample;
mod second;
mod sentence;
mod speed;
#[cfg(any(feature = "library", test))]
mod stack;
mod table;
mod text;
mod texts;
mod worst;

use std::io::{ErrorKind, Write};
use std::path::Path;
use std::process::ExitCode;
use std::rc::Rc;
use std::time::Instant;

use case::Case;
use judge::Judge;
use options::Options;
use readable::Verdicts;
use second::Call;
use table::Table;
use texts::Texts;

const USAGE: &str = "\
usage: compare/run SUBCOMMAND [OPTION ..]
  run     [--seed S] [--cases N]   every edge, then N cases from seed S, through both sides; prints a table
  readable [--seed S] [--cases N]  every edge, then images from seed S, N in all: the library's verdict beside two
                                   readings; a table, and times
  texts                            every text of 1 to 3 bytes, and those of 4 at the ends of UTF-8's ranges: the library's
                                   verdict and the second reading's beside Rust's from_utf8
  library [--seed S] [--cases N]   every edge, then images from seed S, N cases in all at every boundary of both
                                   buffers: the library beside the Rust and the second reading; prints a table
  speed   [--seed S] [--rounds N] [--to FILE]
                                   times of the library's calls beside the Rust's, with and without building its
                                   schema; prints tables, and writes the figures
  count   [--seed S] [--to FILE]   the same in instructions, by callgrind
  count   --rows 1                 instructions for a row that a qualified look-up passes over, by what the row is
  profile [--seed S] [--functions 1]
                                   where the library's instructions go, by crate and by function, in per cent
  ratios  --from FILE --beside FILE
                                   figures of speed beside those of count, as ratios
  plot    --from FILE --to FILE    figures of speed or count as SVG
  cyclic  [--seed S] [--cases N]   N cases that never end, each in a child process of the Rust
  text    [--seed S] [--cases N] [--max-image BYTES] [--large N]
                                   N cases as lines of text, balanced over numbers; the last of them large
  text    --from FILE              the same for stored cases
  vectors [--seed S] --to FOLDER   writes the stored cases there: cases.bin, and a label for each in labels.txt
  check   --from FILE              asks both sides about the stored cases
  show    LABEL [--from FILE]      prints the stored cases of a label, where a * stands for any characters
  show    --case N [--from FILE]   prints one stored case by its place
  labels  [PATTERN] [--from FILE]  the stored cases' places, calls and labels; FILE has its labels.txt beside it
  ask     --image FILE [--row N] [--as projone|sigone]
                                   both calls on an image, for its lowest implementation where no row is given; or
                                   just the lines that a program prints
  build, test                      only builds or tests";

const WITHOUT_LIBRARY: &str = "this build is without the library; compare/run builds it";

/// Why a run ends without success.
enum Failure {
    /// The sides differ: exit 1.
    Differs(String),
    /// Bad options, files or surroundings: exit 2.
    Bad(String),
}

impl From<String> for Failure {
    fn from(message: String) -> Self {
        Failure::Bad(message)
    }
}

fn main() -> ExitCode {
    let words: Vec<String> = std::env::args().skip(1).collect();
    match command(&words) {
        Ok(()) => ExitCode::SUCCESS,
        Err(Failure::Differs(message)) => {
            eprintln!("compare: {message}");
            ExitCode::from(1)
        }
        Err(Failure::Bad(message)) => {
            eprintln!("compare: {message}");
            ExitCode::from(2)
        }
    }
}

fn command(words: &[String]) -> Result<(), Failure> {
    let Some((name, rest)) = words.split_first() else {
        return Err(Failure::Bad(USAGE.into()));
    };
    let options = |known: &[&str]| Options::parse(rest, known);
    match name.as_str() {
        "run" => run(&options(&["seed", "cases"])?),
        "readable" => readable(&options(&["seed", "cases"])?),
        "texts" => options(&[]).map_err(Failure::Bad).and_then(|_| texts()),
        "library" => beside(&options(&["seed", "cases"])?),
        "speed" => speed(&options(&["seed", "rounds", "to"])?),
        "count" => count(&options(&["seed", "to", "rows"])?),
        "profile" => profile(&options(&["seed", "functions"])?),
        "ratios" => ratios(&options(&["from", "beside"])?),
        "plot" => plot(&options(&["from", "to"])?),
        "cyclic" => cyclic(&options(&["seed", "cases"])?),
        "text" => lines(&options(&["seed", "cases", "max-image", "large", "from"])?),
        "vectors" => vectors(&options(&["seed", "to"])?),
        "check" => check(&options(&["from"])?),
        "show" => show(Options::behind(rest, &["from", "case"])?),
        "labels" => list(Options::behind(rest, &["from"])?),
        "ask" => ask(&options(&["image", "row", "as"])?),
        speed::COUNT_HERE if rest.len() == 1 => count_here(&rest[0]),
        speed::ASK_HERE if rest.len() == 3 => Ok(speed::ask_here(child::call(&rest[0]), &rest[1], &rest[2])?),
        child::SUBCOMMAND if rest.len() == 2 => Ok(child::answer(&rest[0], &rest[1])?),
        _ => Err(Failure::Bad(format!("no such subcommand: {name}\n{USAGE}"))),
    }
}

fn run(options: &Options) -> Result<(), Failure> {
    let (seed, count) = (options.number("seed", 1)?, options.number("cases", 100_000)?);
    judged(Judge::default(), seed, count, gen::edge_cases().chain(gen::Cases::with_families(seed)))
}

/// Judges so many cases; a table.
fn judged(mut judge: Judge, seed: u64, count: usize, cases: impl Iterator<Item = Case>) -> Result<(), Failure> {
    let (mut table, begun) = (Table::default(), Instant::now());
    for case in cases.take(count) {
        table.add(&case, judge.judge(&case));
    }
    let seconds = begun.elapsed().as_secs_f64();
    println!("seed {seed}, {count} cases, {:.0} a second\n{table}", count as f64 / seconds);
    if table.agrees() {
        Ok(())
    } else {
        Err(Failure::Differs("the sides differ".into()))
    }
}

/// The library's calls, in a build that has the library.
fn calls() -> Result<Vec<Call>, String> {
    let calls = [Call::ProjectImpl, Call::ExpectedSignatures].into_iter();
    let has: Vec<Call> = calls.filter(|call| library::ANSWERS[*call as usize].is_some()).collect();
    match has.is_empty() {
        true => Err(WITHOUT_LIBRARY.into()),
        false => Ok(has),
    }
}

fn beside(options: &Options) -> Result<(), Failure> {
    let (seed, count) = (options.number("seed", 1)?, options.number("cases", 100_000)?);
    judged(Judge::with(library::ANSWERS), seed, count, gen::boundary_cases(seed, &calls()?))
}

fn speed(options: &Options) -> Result<(), Failure> {
    let (seed, rounds) = (options.number("seed", 1)?, options.number("rounds", 31)?);
    println!("medians of {rounds} rounds");
    figures("µs", speed::times(seed, rounds, &calls()?), options)
}

fn count(options: &Options) -> Result<(), Failure> {
    if options.number("rows", 0)? > 0 {
        return say(&speed::passed(&speed::counts(speed::PASSED, &calls()?)?));
    }
    let seed: u64 = options.number("seed", 1)?;
    figures("instructions", speed::counts(&seed.to_string(), &calls()?)?, options)
}

fn count_here(word: &str) -> Result<(), Failure> {
    Ok(speed::count_here(word, &calls()?)?)
}

/// Prints figures as tables, and writes them where they are asked for.
fn figures(unit: &str, figures: Vec<speed::Figure>, options: &Options) -> Result<(), Failure> {
    print!("{}", speed::tables(unit, &figures));
    match options.text("to") {
        Some(path) => write(Path::new(path), speed::to_csv(unit, &figures).as_bytes()),
        None => Ok(()),
    }
}

fn profile(options: &Options) -> Result<(), Failure> {
    calls()?;
    let folder = std::env::var("FRUSCALITU_LIBRARY").map_err(|_| WITHOUT_LIBRARY.to_string())?;
    let (seed, text) = (options.number("seed", 1)?, Path::new(&folder).join("module.text"));
    print!("{}", speed::profile(seed, &text, options.number("functions", 0)? > 0)?);
    Ok(())
}

fn ratios(options: &Options) -> Result<(), Failure> {
    let ((_, times), (_, counts)) = (read_figures(options, "from")?, read_figures(options, "beside")?);
    print!("{}", speed::ratios(&times, &counts)?);
    Ok(())
}

fn plot(options: &Options) -> Result<(), Failure> {
    let to = options.text("to").ok_or("plot wants --to FILE".to_string())?;
    let (unit, figures) = read_figures(options, "from")?;
    write(Path::new(to), speed::plot(&unit, "ProjectImpl", "project_impl", &figures)?.as_bytes())
}

fn read_figures(options: &Options, name: &str) -> Result<(String, Vec<speed::Figure>), String> {
    let path = options.text(name).ok_or(format!("--{name} FILE is missing"))?;
    let text = std::fs::read_to_string(path).map_err(|error| format!("cannot read {path}: {error}"))?;
    speed::from_csv(&text).map_err(|why| format!("{path}: {why}"))
}

fn write(path: &Path, bytes: &[u8]) -> Result<(), Failure> {
    std::fs::write(path, bytes).map_err(|error| Failure::Bad(format!("cannot write {}: {error}", path.display())))
}

fn readable(options: &Options) -> Result<(), Failure> {
    let library = library::READABLE.ok_or(WITHOUT_LIBRARY.to_string())?;
    let (seed, count) = (options.number("seed", 1)?, options.number("cases", 100_000)?);
    let mut verdicts = Verdicts::new(library);
    verdicts.judge(seed, count);
    print!("seed {seed}\n{verdicts}{}", worst::times(library));
    if verdicts.agree() {
        Ok(())
    } else {
        Err(Failure::Differs("the verdicts differ".into()))
    }
}

fn texts() -> Result<(), Failure> {
    let mut texts = Texts::new(library::READABLE.ok_or(WITHOUT_LIBRARY.to_string())?);
    texts.judge();
    print!("{texts}");
    if texts.agree() {
        Ok(())
    } else {
        Err(Failure::Differs("the sides differ on a text".into()))
    }
}

fn cyclic(options: &Options) -> Result<(), Failure> {
    let (seed, count) = (options.number("seed", 1)?, options.number("cases", 48)?);
    let mut judge = Judge::default();
    for (place, case) in gen::cyclic_cases(seed).take(count).enumerate() {
        let number = judge.judge(&case).map_err(Failure::Differs)?.whole.answer.number;
        let status = child::ask(&case)?;
        println!("{place}: the second reading says {number}, the Rust ends with {status}");
        if number != 8 || status.success() {
            return Err(Failure::Differs(format!("a cyclic case that ends: {}", text::question(&case))));
        }
    }
    println!("{count} cyclic cases: 8 each, and the Rust died in each");
    Ok(())
}

fn lines(options: &Options) -> Result<(), Failure> {
    let sample = match options.text("from") {
        Some(path) => {
            (0..).zip(read_cases(path)?).map(|(place, (case, whole))| (format!("v{place}"), case, whole)).collect()
        }
        None => {
            let (seed, count) = (options.number("seed", 1)?, options.number("cases", 1_000)?);
            let (most, large) = (options.number("max-image", 1_500)?, options.number("large", 0)?);
            sample::balanced(seed, count, most, large).map_err(Failure::Differs)?
        }
    };
    for (label, case, whole) in &sample {
        println!("{}", text::line(label, case, whole));
    }
    Ok(())
}

fn vectors(options: &Options) -> Result<(), Failure> {
    let folder = options.text("to").ok_or("vectors wants --to FOLDER".to_string())?;
    let sample = sample::vectors(options.number("seed", 1)?).map_err(Failure::Differs)?;
    let labels: String = sample.iter().map(|(label, _, _)| format!("{label}\n")).collect();
    let cases: Vec<_> = sample.into_iter().map(|(_, case, whole)| (case, whole)).collect();
    let bytes = cases::to_bytes(&cases);
    for (name, bytes) in [("cases.bin", bytes.as_slice()), ("labels.txt", labels.as_bytes())] {
        write(&Path::new(folder).join(name), bytes)?;
    }
    println!("{} cases, {} bytes", cases.len(), bytes.len());
    Ok(())
}

fn check(options: &Options) -> Result<(), Failure> {
    let path = options.text("from").ok_or("check wants --from FILE".to_string())?;
    let (mut judge, mut table) = (Judge::default(), Table::default());
    for (place, (case, stored)) in read_cases(path)?.into_iter().enumerate() {
        let judged = judge.judge(&case).and_then(|judged| match judged.whole == stored {
            true => Ok(judged),
            false => Err(format!("stored case {place} has another answer")),
        });
        table.add(&case, judged);
    }
    print!("{table}");
    if table.agrees() {
        Ok(())
    } else {
        Err(Failure::Differs("stored cases differ".into()))
    }
}

fn show((label, options): (Option<&str>, Options)) -> Result<(), Failure> {
    let path = options.text("from").unwrap_or(labels::STORED);
    let cases = read_cases(path)?;
    let text = match (label, options.text("case")) {
        (Some(label), None) => {
            let labels = labels::beside(path, cases.len())?;
            let one = |place: usize| {
                let (case, whole) = &cases[place];
                format!("case {place}, {}\n{}", labels[place], text::readable(case, whole))
            };
            labels::find(label, &labels)?.into_iter().map(one).collect::<Vec<String>>().join("\n")
        }
        (None, Some(_)) => {
            let place: usize = options.number("case", 0)?;
            let (case, whole) = cases.get(place).ok_or(format!("there are {} cases, from 0", cases.len()))?;
            text::readable(case, whole)
        }
        _ => return Err(Failure::Bad("show wants a label or --case N; `compare/run labels` lists the labels".into())),
    };
    say(&text)
}

fn list((pattern, options): (Option<&str>, Options)) -> Result<(), Failure> {
    let path = options.text("from").unwrap_or(labels::STORED);
    let cases = read_cases(path)?;
    let labels = labels::beside(path, cases.len())?;
    let places = labels::find(pattern.unwrap_or("*"), &labels)?.into_iter();
    say(&places.map(|at| format!("{at} {} {}\n", child::letter(cases[at].0.call), labels[at])).collect::<String>())
}

fn ask(options: &Options) -> Result<(), Failure> {
    let path = options.text("image").ok_or("ask wants --image FILE".to_string())?;
    let image: Rc<[u8]> = std::fs::read(path).map_err(|error| format!("cannot read {path}: {error}"))?.into();
    let row = options.text("row").map(|_| options.number("row", 0)).transpose()?;
    let program = options.text("as");
    let calls = [Call::ProjectImpl, Call::ExpectedSignatures].into_iter();
    let calls: Vec<Call> = calls.filter(|call| program.is_none_or(|name| name == asked::program(*call))).collect();
    if calls.is_empty() {
        return Err(Failure::Bad("--as wants projone or sigone".into()));
    }
    let (mut judge, mut text) = (Judge::default(), String::new());
    if program.is_none() {
        text.push_str(&text::image(&image));
    }
    for call in calls {
        let case = asked::case(call, &image, row);
        let judged = judge.judge(&case).map_err(Failure::Differs)?;
        text.push_str(&match program {
            Some(_) => asked::lines(&judged.whole),
            None => {
                let (asked, answered) = (text::asked(&case), text::answered(&case, &judged.whole));
                format!("\n{asked}{answered}judged {}\n", judged.by.words())
            }
        });
    }
    say(&text)
}

/// Prints; a reader that goes away early has had enough.
fn say(text: &str) -> Result<(), Failure> {
    match std::io::stdout().write_all(text.as_bytes()) {
        Err(error) if error.kind() != ErrorKind::BrokenPipe => {
            Err(Failure::Bad(format!("cannot write to standard output: {error}")))
        }
        _ => Ok(()),
    }
}

fn read_cases(path: &str) -> Result<Vec<(case::Case, case::Whole)>, String> {
    let bytes = std::fs::read(path).map_err(|error| format!("cannot read {path}: {error}"))?;
    cases::from_bytes(&bytes).map_err(|why| format!("{path} is no file of cases: {why}"))
}
