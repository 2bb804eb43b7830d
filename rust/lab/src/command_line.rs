//! The arguments, and what is done for them.

use crate::capture::{Capture, Driver, Ring, Start, LENGTH};
use crate::lines::{self, quoted};
use crate::output::{Output, Stop};
use crate::script::MEMORY_LIMIT;
use crate::trbs::Kind;
use crate::{help, lesson, picture, run, show};
use std::ffi::{OsStr, OsString};
use std::fs::File;
use std::io::{self, BufRead, BufReader};
use std::path::Path;

/// Does what the arguments ask.
pub fn main(arguments: &[OsString], out: &mut Output<'_>) -> Result<(), Stop> {
    let Some((name, rest)) = arguments.split_first() else {
        return Ok(out.line(help::WHOLE)?);
    };
    match name.to_str() {
        Some("lesson") => lesson_of(rest, out),
        Some("show") => show_of(rest, out),
        Some("run") => run_of(rest, out),
        Some("picture") => picture_of(rest, out),
        Some("--help" | "-h" | "help") => Ok(out.line(help::WHOLE)?),
        _ => Err(misuse(
            format!("no command is called {}", shown(name)),
            "lomvigast --help",
        )),
    }
}

fn misuse(fault: impl std::fmt::Display, help: &str) -> Stop {
    Stop::Misuse(format!("{fault} (see `{help}`)"))
}

fn shown(word: &OsStr) -> String {
    quoted(&word.to_string_lossy())
}

/// Arguments sorted: flags, options with their values, and the rest.
#[derive(Default)]
struct Given<'a> {
    flags: Vec<&'static str>,
    values: Vec<(&'static str, &'a OsStr)>,
    rest: Vec<&'a OsStr>,
}

impl<'a> Given<'a> {
    fn new(
        arguments: &'a [OsString],
        flags: &[&'static str],
        options: &[&'static str],
    ) -> Result<Self, String> {
        let known =
            |list: &[&'static str], word: &OsStr| list.iter().copied().find(|&known| word == known);
        let mut given = Self::default();
        let mut words = arguments.iter().map(OsString::as_os_str);
        while let Some(word) = words.next() {
            if let Some(flag) = known(flags, word).or(known(&["--help", "-h"], word)) {
                given.flags.push(flag);
            } else if let Some(option) = known(options, word) {
                let value = words.next().ok_or(format!("{option} needs a value"))?;
                given.values.push((option, value));
            } else if word.len() > 1 && word.as_encoded_bytes().starts_with(b"-") {
                return Err(format!("{} is not known", shown(word)));
            } else {
                given.rest.push(word);
            }
        }
        Ok(given)
    }

    fn has(&self, flag: &str) -> bool {
        self.flags.contains(&flag)
    }

    fn help(&self) -> bool {
        self.has("--help") || self.has("-h")
    }

    fn all<'b>(&'b self, option: &'b str) -> impl Iterator<Item = &'a OsStr> + 'b {
        let values = self.values.iter();
        values
            .filter(move |(name, _)| *name == option)
            .map(|(_, value)| *value)
    }

    /// The value of an option that may be given once.
    fn one(&self, option: &str) -> Result<Option<&'a OsStr>, String> {
        let mut all = self.all(option);
        match (all.next(), all.next()) {
            (value, None) => Ok(value),
            _ => Err(format!("{option} is given twice")),
        }
    }

    fn number<T: TryFrom<u64>>(&self, option: &str) -> Result<Option<T>, String> {
        let value = self.one(option)?;
        value
            .map(|value| lines::number(option, &value.to_string_lossy()))
            .transpose()
    }

    /// The one argument that is neither flag nor option, if it is there.
    fn argument(&self) -> Result<Option<&'a OsStr>, String> {
        match self.rest[..] {
            [] => Ok(None),
            [argument] => Ok(Some(argument)),
            [_, second, ..] => Err(format!("{} is one argument too many", shown(second))),
        }
    }
}

fn lesson_of(arguments: &[OsString], out: &mut Output<'_>) -> Result<(), Stop> {
    const HELP: &str = "lomvigast lesson --help";
    let given = Given::new(arguments, &[], &[]).map_err(|fault| misuse(fault, HELP))?;
    if given.help() {
        return Ok(out.line(help::LESSON)?);
    }
    let which = given.argument().map_err(|fault| misuse(fault, HELP))?;
    let numbers = match which.map(|word| word.to_str()) {
        None => 1..=3,
        Some(Some("1")) => 1..=1,
        Some(Some("2")) => 2..=2,
        Some(Some("3")) => 3..=3,
        Some(_) => return Err(misuse("the lessons are 1, 2 and 3", HELP)),
    };
    for number in numbers {
        lesson::tell(number, out)?;
    }
    Ok(())
}

fn run_of(arguments: &[OsString], out: &mut Output<'_>) -> Result<(), Stop> {
    const HELP: &str = "lomvigast run --help";
    let given = Given::new(arguments, &["--json"], &[]).map_err(|fault| misuse(fault, HELP))?;
    if given.help() {
        return Ok(out.line(help::run())?);
    }
    let file = given.argument().map_err(|fault| misuse(fault, HELP))?;
    run::run(&mut *script(file)?, given.has("--json"), out)
}

fn picture_of(arguments: &[OsString], out: &mut Output<'_>) -> Result<(), Stop> {
    const HELP: &str = "lomvigast picture --help";
    let given = Given::new(arguments, &["--svg"], &[]).map_err(|fault| misuse(fault, HELP))?;
    if given.help() {
        return Ok(out.line(help::PICTURE)?);
    }
    let file = given.argument().map_err(|fault| misuse(fault, HELP))?;
    picture::picture(&mut *script(file)?, given.has("--svg"), out)
}

/// A script's file, or standard input.
fn script(file: Option<&OsStr>) -> Result<Box<dyn BufRead>, Stop> {
    match file {
        Some(file) if file != "-" => match File::open(file) {
            Ok(open) => Ok(Box::new(BufReader::new(open))),
            Err(error) => {
                let file = Path::new(file).display();
                Err(Stop::Misuse(format!("{file} cannot be read: {error}")))
            }
        },
        _ => Ok(Box::new(io::stdin().lock())),
    }
}

fn show_of(arguments: &[OsString], out: &mut Output<'_>) -> Result<(), Stop> {
    const HELP: &str = "lomvigast show --help";
    let options = [
        "--length",
        "--memory",
        "--base",
        "--table",
        "--entries",
        "--dequeue",
        "--ring",
        "--most",
    ];
    let given =
        Given::new(arguments, &["--json"], &options).map_err(|fault| misuse(fault, HELP))?;
    if given.help() {
        return Ok(out.line(help::SHOW)?);
    }
    let wanted = wanted(&given).map_err(|fault| misuse(fault, HELP))?;
    let most = given
        .number("--most")
        .map_err(|fault| misuse(fault, HELP))?;
    let capture = match wanted {
        Wanted::Folder(folder, length) => Capture::of_folder(folder, length)?,
        Wanted::Image(image, base, rings) => Capture::of_image(image, base, rings)?,
    };
    show::show(
        &capture,
        given.has("--json"),
        most.unwrap_or(show::MOST),
        out,
    )
}

/// Which capture is to be shown.
enum Wanted<'a> {
    Folder(&'a Path, usize),
    Image(&'a Path, u64, Vec<Ring>),
}

fn wanted<'a>(given: &Given<'a>) -> Result<Wanted<'a>, String> {
    let (folder, image) = (given.argument()?, given.one("--memory")?);
    let only = |options: &[&str], with: &str| {
        let other = given.values.iter().find(|(name, _)| options.contains(name));
        other.map_or(Ok(()), |(name, _)| Err(format!("{name} goes with {with}")))
    };
    match (folder, image) {
        (Some(folder), None) => {
            only(
                &["--base", "--table", "--entries", "--dequeue", "--ring"],
                "--memory FILE",
            )?;
            let length = given.number("--length")?.unwrap_or(LENGTH);
            if length > MEMORY_LIMIT {
                return Err(format!(
                    "--length is {length}, above the limit of {MEMORY_LIMIT}"
                ));
            }
            Ok(Wanted::Folder(Path::new(folder), length))
        }
        (None, Some(image)) => {
            only(&["--length"], "DIR")?;
            let base = given.number("--base")?.unwrap_or(0);
            Ok(Wanted::Image(Path::new(image), base, rings(given)?))
        }
        _ => Err("name a folder DIR, or --memory FILE".to_owned()),
    }
}

fn rings(given: &Given<'_>) -> Result<Vec<Ring>, String> {
    let mut rings = Vec::new();
    for value in given.all("--ring") {
        let value = value.to_string_lossy();
        let (place, cycle) = place_and_cycle("--ring", &value)?;
        let name = value.split(',').next().unwrap_or_default();
        let start = Start::Linked(place, cycle);
        rings.push(named(Kind::Any, name, start, None));
    }
    let driver = dequeue(given)?;
    match (given.number("--table")?, given.number("--entries")?) {
        (None, None) if driver.is_some() => {
            return Err("--dequeue goes with --table and --entries".to_owned())
        }
        (None, None) => {}
        (Some(table), Some(entries)) => {
            let start = Start::Table(table, entries);
            rings.push(named(Kind::Event, "events", start, driver));
        }
        _ => return Err("--table and --entries go together".to_owned()),
    }
    if rings.is_empty() {
        return Err(
            "say where a ring begins: --ring ADDRESS, or --table ADDRESS --entries N".into(),
        );
    }
    Ok(rings)
}

/// Where the driver stands on the event ring.
fn dequeue(given: &Given<'_>) -> Result<Option<Driver>, String> {
    let Some(value) = given.one("--dequeue")? else {
        return Ok(None);
    };
    match place_and_cycle("--dequeue", &value.to_string_lossy())? {
        (dequeue, Some(cycle)) => Ok(Some(Driver {
            dequeue,
            enqueue: None,
            cycle,
        })),
        _ => Err("--dequeue needs the driver's cycle state behind the address, ,0 or ,1".into()),
    }
}

/// An address, and behind a comma the cycle state there.
fn place_and_cycle(option: &str, value: &str) -> Result<(u64, Option<bool>), String> {
    let (place, cycle) = match value.rsplit_once(',') {
        None => (value, None),
        Some((place, cycle)) => (place, Some(cycle)),
    };
    let what = format!("the cycle state of {option}");
    let cycle = cycle.map(|cycle| lines::bit(&what, cycle)).transpose()?;
    Ok((lines::number(option, place)?, cycle))
}

fn named(kind: Kind, name: &str, start: Start, driver: Option<Driver>) -> Ring {
    Ring {
        kind,
        name: name.to_owned(),
        start,
        driver,
    }
}
