//! What `--help` says.

use crate::script::{FORMS, MEMORY_LIMIT, PEEK_LIMIT};

pub const WHOLE: &str = "\
lomvigast: looks at USB 3 (xHCI) rings through a proved core.

It never lets \"gave up looking\" pass for \"nothing there\".

  lomvigast lesson [1|2|3]     what students get wrong, on the core: a guest that cannot be
                               trusted, books that part, a late reader
  lomvigast show DIR           a capture: each ring TRB by TRB, and which answer ended it
  lomvigast run [FILE]         a script: one command a line, one answer line each
  lomvigast picture [FILE]     the same script as a page for a class room, step by step
  ./lomvigast pack DIR         in the repository: this lab as one file, for other machines
  lomvigast COMMAND --help     more on each

Exit status: 0 for every answer, refusals among them; 2 if the input or the arguments cannot
be read; 1 if the answers cannot be written. Colour on a terminal only, and not if NO_COLOR is set.
docs/LAB.md has every command of a script with an example.";

pub const LESSON: &str = "\
lomvigast lesson [1|2|3]

What was done, what came back and how to read it; then a line for each: answer, number, meaning.

  1  a guest that cannot be trusted: links in a circle, 256 links and one more, tables that lead
     out of memory
  2  books that part: each entry of docs/DIFFERENCES.md
  3  a late reader: a ring filled, refused with 7, drained, lapped, and a false report

Without a number: all three. The lines after > are a script, as `lomvigast run` takes it; of a long
row of one kind the middle is left out.";

pub const SHOW: &str = "\
lomvigast show [--json] [--most N] [--length BYTES] DIR
lomvigast show [--json] [--most N] --memory FILE [--base ADDRESS] [--ring ADDRESS[,CYCLE]]..
               [--table ADDRESS --entries N [--dequeue ADDRESS,CYCLE]]

Shows each ring of a capture: a line for each TRB, in the words of Linux's own decoder, and last
which of the answers ended the ring and why. UNKNOWN and NOT LOOKED AT are never \"nothing new\".

DIR has trbs.txt and rings.txt, as captures/small has. A ring is read from the driver's dequeue
place; what lies before it is its history. TRBs are done, or pending.
  --length BYTES      guest memory from address 0; if left out, 134217728 (128 MiB)

FILE is a raw image of guest memory. What it does not hold is UNKNOWN.
  --base ADDRESS      the guest address of its first byte, 0 if left out; an image may have up to
                      1 GiB, and end at 2^64 at most
  --ring ADDRESS      a command or transfer ring's first TRB, with ,0 or ,1 after it the cycle
                      state there (if left out, both are followed); once for each ring
  --table ADDRESS     the event ring's segment table,
  --entries N         and how many entries it has
  --dequeue ADDRESS,CYCLE
                      where the driver stands on it, and its cycle state

  --most N            lists N TRBs at most, of all rings together; if left out, 16384
  --json              one object a line: for each TRB, and at the end of each ring";

pub const PICTURE: &str = "\
lomvigast picture [--svg] [FILE]

Does a script, as `lomvigast run` does, and writes one page in HTML with a step for each command:
every event ring with its segments as rows of slots, their cycle bits, what is free, accepted,
taken and reported, and where ring, readers and the last report stand. Buttons and the arrow keys
go forward and back. The page needs nothing from a network. Slots and steps that are left out are
told where they are missing.

  --svg     writes the pictures after the last command alone, as one SVG

FILE is the script; without it, or with -, it is read from standard input.

  lomvigast picture lesson.txt > lesson.html";

/// The help of `run`, with the form of each command.
pub fn run() -> String {
    let width = FORMS.iter().map(|(form, _)| form.len()).max().unwrap_or(0);
    let rows: Vec<String> = FORMS
        .iter()
        .map(|(form, what)| format!("  {form:width$}  {what}"))
        .collect();
    format!(
        "\
lomvigast run [--json] [FILE]

Does a script: one command a line, one answer line each. FILE is the script; without it, or with -,
it is read from standard input. A line that cannot be read stops it with the line's number and the
reason, exit status 2, and nothing of that line done.

{}

Numbers are decimal, or hex after 0x. Bits (CYCLE) are 0 or 1. HEX is bytes of two hex digits each,
blanks between them or not. NAME is of your choosing. # begins a comment.
TRB     sixteen bytes in hex, or: at ADDRESS
EVENT   transfer pointer=.. length=.. code=.. flag=.. endpoint=.. slot=..
        command pointer=.. parameter=.. code=.. slot=..
        port=..
        (fields left out are 0, but code is 1, Success)
FIELDS  ready=.. table=.. entries=.. index=.. place=.. remaining=.. cycle=..
Limits: memory {MEMORY_LIMIT} bytes (1 GiB), peek {PEEK_LIMIT} bytes, a line 1 MiB.

  --json    one object a line in place of each answer line",
        rows.join("\n")
    )
}
