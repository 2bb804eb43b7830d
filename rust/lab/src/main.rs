use lab::command_line;
use lab::output::{colour_wanted, Output, Stop};
use std::ffi::OsString;
use std::fs::File;
use std::io::{self, BufWriter, ErrorKind, Write};
use std::os::fd::AsFd;
use std::process::ExitCode;
use std::sync::atomic::{AtomicBool, Ordering};

const UNWRITTEN: u8 = 1;
const MISUSE: u8 = 2;

/// Whether standard output was closed when the program began. It is looked at before `main`: there Rust's library has put
/// /dev/null in its place, and all that is written would be lost without a word.
static CLOSED: AtomicBool = AtomicBool::new(false);

#[used]
#[link_section = ".init_array"]
static BEFORE_MAIN: extern "C" fn() = look_at_standard_output;

extern "C" fn look_at_standard_output() {
    const NO_SUCH_DESCRIPTOR: i32 = 9;
    let copy = io::stdout().as_fd().try_clone_to_owned();
    let closed = copy.is_err_and(|error| error.raw_os_error() == Some(NO_SUCH_DESCRIPTOR));
    CLOSED.store(closed, Ordering::Relaxed);
}

fn main() -> ExitCode {
    let arguments: Vec<OsString> = std::env::args_os().skip(1).collect();
    match written(&arguments) {
        Ok(()) => ExitCode::SUCCESS,
        Err(Stop::Output(error)) => {
            // Whoever reads a pipe and leaves has read enough, and wants no word of it.
            if error.kind() != ErrorKind::BrokenPipe {
                complain(&format!("the answer cannot be written: {error}"));
            }
            ExitCode::from(UNWRITTEN)
        }
        Err(Stop::Misuse(fault)) => {
            complain(&fault);
            ExitCode::from(MISUSE)
        }
    }
}

/// Does what the arguments ask, and writes all of it.
fn written(arguments: &[OsString]) -> Result<(), Stop> {
    if CLOSED.load(Ordering::Relaxed) {
        return Err(Stop::Output(io::Error::other("standard output is closed")));
    }
    // Not by the library's own, which takes a descriptor that cannot be written to for one that took all.
    let standard = io::stdout().as_fd().try_clone_to_owned()?;
    let mut standard = BufWriter::new(File::from(standard));
    let done = command_line::main(arguments, &mut Output::new(&mut standard, colour_wanted()));
    // What was answered before a line that cannot be read is written all the same.
    let flushed = standard.flush().map_err(Stop::Output);
    done.and(flushed)
}

fn complain(what: &str) {
    // If even this cannot be written, the exit status says it.
    let _ = writeln!(io::stderr(), "lomvigast: {what}");
}
