//! Lesson 2: each entry of docs/DIFFERENCES.md on the core. What xHCI and the original say is read from that page.

use super::{guest, Scene};

const PAGE: &str = include_str!("../../../../docs/DIFFERENCES.md");

/// A row of the page's tables.
pub struct Row<'a> {
    pub entry: &'a str,
    pub input: &'a str,
    pub xhci: &'a str,
    pub original: &'a str,
    pub here: &'a str,
}

/// The rows of all tables, without their heads.
pub fn rows() -> Vec<Row<'static>> {
    let row = |line: &'static str| {
        let cells: Vec<&str> = line.split('|').map(str::trim).collect();
        match cells[..] {
            ["", entry, input, xhci, original, here, _, ""] => Some(Row {
                entry,
                input,
                xhci,
                original,
                here,
            }),
            _ => None,
        }
    };
    let head = |row: &Row<'_>| row.entry == "Entry" || row.entry.starts_with("---");
    PAGE.lines()
        .filter_map(row)
        .filter(|row| !head(row))
        .collect()
}

/// A scene for each row that has one below, in the page's order.
pub fn scenes() -> Vec<Scene> {
    let scene = |row: Row<'static>| {
        let (_, script, meaning) = entries().find(|(entry, ..)| *entry == row.entry)?;
        Some(Scene {
            title: row.entry.to_owned(),
            done: row.input.to_owned(),
            script,
            read: format!(
                "xHCI: {}. The original: {}. Here: {}.",
                row.xhci, row.original, row.here
            ),
            meaning,
        })
    };
    rows().into_iter().filter_map(scene).collect()
}

/// Entry, its smallest input as a script, and what our answer means.
fn entries() -> impl Iterator<Item = (&'static str, String, &'static str)> {
    let written = ENTRIES
        .iter()
        .map(|(entry, script, meaning)| (*entry, (*script).to_owned(), *meaning));
    let last = (
        "Notes of a Link that is not followed",
        guest::chain(256, &guest::link(0x1011)),
        "gave up; the note of cleared bits is of the links followed",
    );
    written.chain([last])
}

const ENTRIES: &[(&str, &str, &str)] = &[
    (
        "Stream id of Set TR Dequeue Pointer",
        "parse_command 00000000 00000000 00000100 00400000",
        "the stream id stands where xHCI has it: 1",
    ),
    (
        "Stream context type of the same",
        "parse_command 02000000 00000000 00000000 00400000",
        "the context type is a number from 0 to 7: 1",
    ),
    (
        "Length of a Transfer Event of 2^24 or more",
        "event_bytes 1 transfer length=0x1000000",
        "not written, where a length of 0 would have been a wrong reading",
    ),
    (
        "Command pointer with low bits set in a Command Completion",
        "event_bytes 1 command pointer=1",
        "not written; a number in place of a panic",
    ),
    (
        "Parameter of 2^24 or more in a Command Completion",
        "event_bytes 1 command parameter=0x1000000",
        "not written; a number in place of a panic",
    ),
    (
        "Endpoint id of a Transfer Event above 31",
        "event_bytes 1 transfer endpoint=32",
        "written as it is, with a bit that xHCI reserves",
    ),
    (
        "Type 6 in the transfer parser",
        "parse_transfer 00000000 00000000 00000000 00180000",
        "a Link is for the link-following reader, not for this parser",
    ),
    (
        "Type 6 in the command parser",
        "parse_command 00000000 00000000 00000000 00180000",
        "a Link is for the link-following reader, on a command ring too",
    ),
    (
        "Types 24 and 25 in the command parser",
        "parse_command 00000000 00000000 00000000 00600000\n\
         parse_command 00000000 00000000 00000000 00640000",
        "no row, and not called optional as 18 to 21 are",
    ),
    (
        "Isoch, Force Header, and the slot type of Enable Slot",
        "parse_transfer ff000000 00000000 00000000 00140000\n\
         parse_command ff000000 00000000 00000000 00580000\n\
         parse_command 00000000 00000000 00000000 00240100",
        "known by the type; none of the fields is read",
    ),
    (
        "TD size, interrupter target, Stop's suspend bit and Link's chain bit",
        "parse_transfer 00000000 00000000 00000200 00040000\n\
         parse_transfer 00000000 00000000 00004000 00040000\n\
         parse_command 00000000 00000000 00000000 003c8000\n\
         parse_link 00000000 00000000 00000000 10180000",
        "read as if each of these bits were 0",
    ),
    (
        "Other events",
        "parse_event 00000000 00000000 00000001 008c0000",
        "the decoder reads what the core writes, and nothing else",
    ),
    (
        "Size of an event segment",
        "memory 0x100\npoke 0x0 4000000000000000 01000000\nring events new\nring events configure 0x0 1",
        "a segment of one slot is taken",
    ),
    (
        "Width of that size",
        "memory 0x100\npoke 0x0 4000000000000000 01000100\nring events new\nring events configure 0x0 1",
        "the size is 65537, above 4096",
    ),
    (
        "A second configure",
        "memory 0x100\n\
         poke 0x0 4000000000000000 01000000 00000000\n\
         poke 0x10 8000000000000000 01000000 00000000\n\
         ring events new\n\
         ring events configure 0x0 2\n\
         ring events add 0x40 port=1\n\
         ring events configure 0x0 2",
        "the ring is at entry 0 again, and so is its index",
    ),
    (
        "A full ring",
        "memory 0x100\n\
         poke 0x0 4000000000000000 02000000\n\
         ring events new\n\
         ring events configure 0x0 1\n\
         ring events add 0x50 port=1",
        "full; a number in place of a panic",
    ),
    (
        "Event Ring Full Error",
        "memory 0x100\n\
         poke 0x0 4000000000000000 02000000\n\
         ring events new\n\
         ring events configure 0x0 1\n\
         ring events add 0x50 port=1\n\
         read_trb 0x40",
        "the slot is as it was: whoever adds knows that the ring is full, and the driver is not told",
    ),
    (
        "A segment of size 0",
        "memory 0x100\npoke 0x0 4000000000000000 00000000\nring events new\nring events configure 0x0 1",
        "refused at once, where the original goes wrong at the first event",
    ),
    (
        "A slot that covers the next entry",
        "memory 0x200\n\
         poke 0x40 4000000000000000 02000000 00000000\n\
         poke 0x50 0001000000000000 01000000 00000000\n\
         ring events new\n\
         ring events configure 0x40 2\n\
         ring events add 0x40 port=1\n\
         ring events add 0x40 transfer pointer=0x180 length=5 code=0",
        "the ring goes on at 0x100, where the entry said before the write",
    ),
    (
        "Giving up on links",
        "memory 0x10\n\
         write_trb 0x0 00000000 00000000 00000000 01180000\n\
         linked reader new 0x0 1\n\
         linked reader next_trb",
        "an answer of its own: gave up is not nothing new",
    ),
    (
        "Unaligned or empty table",
        "memory 0x100\nring events new\nring events configure 0x20 1\nring events configure 0x0 0",
        "numbers (2, then 3) in place of a panic",
    ),
    (
        "A table of more than 16 entries",
        "memory 0x200\npoke 0x0 4001000000000000 01000000\nring events new\nring events configure 0x0 17",
        "a table has 1 to 16 entries here",
    ),
    (
        "A segment that is not aligned, too long or not all in memory",
        "memory 0x200\n\
         poke 0x0 1001000000000000 01000000\n\
         ring events new\n\
         ring events configure 0x0 1\n\
         poke 0x0 0001000000000000 01100000\n\
         ring events configure 0x0 1\n\
         poke 0x0 c001000000000000 05000000\n\
         ring events configure 0x0 1",
        "a segment begins at a multiple of 64, has 1 to 4096 slots and is all in memory",
    ),
    (
        "A reported place that is no multiple of 16",
        "memory 0x200\n\
         poke 0x0 0001000000000000 02000000\n\
         ring events new\n\
         ring events configure 0x0 1\n\
         ring events add 0x118 port=1",
        "a report that can be no slot is not taken for \"not full\"",
    ),
    (
        "A ring that was not configured",
        "memory 0x200\nring events new\nring events add 0x0 port=1",
        "nothing is written, where the original writes to address 0",
    ),
    (
        "A stale TRB over memory's end",
        "memory 13\nlinked reader new 0x0 1\nlinked reader next_trb",
        "a TRB that is not all in memory is not called stale",
    ),
];

#[cfg(test)]
mod tests {
    use super::*;

    #[test]
    fn each_row_of_the_page_has_a_scene_and_each_scene_a_row() {
        let rows: Vec<&str> = rows().iter().map(|row| row.entry).collect();
        let told: Vec<&str> = entries().map(|(entry, ..)| entry).collect();
        assert_eq!(told, rows);
        let bars = PAGE.lines().filter(|line| line.starts_with('|')).count();
        // Two tables with two lines of head each.
        assert_eq!(rows.len(), bars - 4);
    }
}
