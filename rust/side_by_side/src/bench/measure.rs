//! Counting instructions, and taking time.

use super::inputs::ROUND;
use super::line::Line;
use super::SUBJECTS;
use std::error::Error;
use std::process::Command;
use std::time::Instant;
use std::{env, io};

/// What was measured for a line: a number for each subject that has it.
pub type Row = [Option<f64>; SUBJECTS.len()];

/// Which subjects have a line.
pub type Has = [bool; SUBJECTS.len()];

/// The instructions of a call, by callgrind; none where there is no valgrind.
pub fn instructions(has: &[Has]) -> Result<Option<Vec<Row>>, Box<dyn Error>> {
    match Command::new("valgrind").arg("--version").output() {
        Err(error) if error.kind() == io::ErrorKind::NotFound => return Ok(None),
        other => other?,
    };
    let row = |(line, has): (usize, &Has)| {
        let mut row = [None; SUBJECTS.len()];
        for subject in (0..row.len()).filter(|&subject| has[subject]) {
            row[subject] = Some(instructions_of_a_call(subject, line)?);
        }
        Ok(row)
    };
    has.iter()
        .enumerate()
        .map(row)
        .collect::<Result<_, _>>()
        .map(Some)
}

/// What one run has more than another that makes fewer calls: neither the start nor the making of the inputs is in it.
fn instructions_of_a_call(subject: usize, line: usize) -> Result<f64, Box<dyn Error>> {
    const FEW: u64 = 20;
    const MANY: u64 = 120;
    let more = collected(subject, line, MANY)? - collected(subject, line, FEW)?;
    Ok(more as f64 / ((MANY - FEW) * ROUND as u64) as f64)
}

/// All instructions of a run.
fn collected(subject: usize, line: usize, rounds: u64) -> Result<u64, Box<dyn Error>> {
    let run = Command::new("valgrind")
        .args(["--tool=callgrind", "--callgrind-out-file=/dev/null"])
        .arg(env::current_exe()?)
        .args(["bench", "--one"])
        .args([subject as u64, line as u64, rounds].map(|n| n.to_string()))
        .output()?;
    let said = String::from_utf8_lossy(&run.stderr);
    let count = said
        .lines()
        .find_map(|line| line.split_once("Collected : "));
    match count {
        Some((_, count)) if run.status.success() => Ok(count.trim().parse()?),
        _ => Err(format!("valgrind ended with {}: {said}", run.status).into()),
    }
}

/// The nanoseconds of a call: the best of several runs, the subjects taking turns.
pub fn nanoseconds(has: &[Has]) -> Vec<Row> {
    const TURNS: usize = 40;
    let row = |((line, _), has): (&(Line, u32), &Has)| {
        let mut row = [None; SUBJECTS.len()];
        for turn in 0..TURNS * row.len() {
            let subject = turn % row.len();
            if has[subject] {
                let time = nanoseconds_of_a_call(subject, *line);
                let best = row[subject].map_or(time, |best| time.min(best));
                row[subject] = Some(best);
            }
        }
        row
    };
    Line::ALL.iter().zip(has).map(row).collect()
}

fn nanoseconds_of_a_call(subject: usize, line: Line) -> f64 {
    const ROUNDS: u64 = 1000;
    let start = Instant::now();
    (SUBJECTS[subject].run)(line, ROUNDS);
    start.elapsed().as_nanos() as f64 / (ROUNDS * ROUND as u64) as f64
}
