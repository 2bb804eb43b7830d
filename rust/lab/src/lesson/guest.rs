//! Lesson 1: nothing that a guest writes is to be believed.

use super::Scene;

/// The sixteen bytes of a fresh Link.
pub fn link(target: usize) -> String {
    format!("{:016x}0000000001180000", (target as u64).swap_bytes())
}

/// A No Op command.
const NO_OP: &str = "000000000000000000000000015c0000";

/// So many fresh Links from address 0 on, each to the next, and a TRB behind the last one. The reader asks.
pub fn chain(links: usize, last: &str) -> String {
    let trbs = (1..=links).map(|n| link(16 * n)).chain([last.to_owned()]);
    let lines = (0..).zip(trbs);
    let written: String = lines
        .map(|(n, trb)| format!("write_trb {:#x} {trb}\n", 16 * n))
        .collect();
    format!("memory 0x2000\n{written}linked reader new 0x0 1\nlinked reader next_trb")
}

/// A Link that leads to itself, with this byte 12. The reader asks.
fn itself(byte_12: &str) -> String {
    format!(
        "memory 0x10\nwrite_trb 0x0 000000000000000000000000{byte_12}180000\nlinked reader new 0x0 1\nlinked reader next_trb"
    )
}

pub fn scenes() -> Vec<Scene> {
    [circles(), chains(), outside()]
        .into_iter()
        .flatten()
        .collect()
}

fn circles() -> Vec<Scene> {
    vec![
        Scene::new(
            "Links in a circle",
            "The guest wrote one Link (type 6), fresh, that leads to itself. A reader with cycle state 1 asks for the next TRB.",
            &itself("01"),
            "The core followed 256 links, saw that one more fresh Link stands there, and stopped. It does not know what is on this ring. \
             Nobody may read that as an idle ring: usbvfiod answers None here, as it does for a ring without work, and whatever waits behind stays unseen.",
            "the links have no end that was seen; whether work waits is not known",
        ),
        Scene::new(
            "The same circle with toggle",
            "The same Link with its toggle bit set, 03 in place of 01 in byte 12.",
            &itself("03"),
            "Following it once flips the cycle state to 0. The Link has cycle bit 1, so now it is stale: there truly is nothing new. \
             One bit parts the two answers.",
            "an empty ring; the reader went round once and waits",
        ),
    ]
}

fn chains() -> Vec<Scene> {
    vec![
        Scene::new(
            "Exactly 256 links",
            "256 Links, each to the next, and behind the last one a No Op command (type 23).",
            &chain(256, NO_OP),
            "256 is what is followed at most, and 256 were enough. The place is on the TRB.",
            "a TRB, found at the limit",
        ),
        Scene::new(
            "One link more",
            "The same with 257 Links.",
            &chain(257, NO_OP),
            "The No Op command stands one link further on. The core says how many links it followed and where the next one stands, and that it gave up. \
             The 257th is not counted: it was seen and not followed.",
            "a TRB is there and was not reached: giving up is not finding nothing",
        ),
    ]
}

fn outside() -> Vec<Scene> {
    let link = link(0x1000);
    vec![
        Scene::new(
            "A link that leads out of memory",
            "A Link that leads to 0x1000 in a guest that has 16 bytes.",
            &format!("memory 0x10\nwrite_trb 0x0 {link}\nlinked reader new 0x0 1\nlinked reader next_trb\nlinked reader show\nlinked reader next_trb"),
            "No byte outside the lent memory is touched. The reader is where it was, with the state that it had (`show`), so asking again gives the same answer.",
            "the guest points outside its memory; nothing has moved",
        ),
        Scene::new(
            "A table that leads out of memory",
            "A guest of 256 bytes says that its segment table begins at 0xc0 and has 5 entries of 16 bytes: its end would be at 0x110.",
            "memory 0x100\nring events new\nring events configure 0xc0 5",
            "The whole table must be inside memory, also the entries that nobody has used yet.",
            "the table ends outside memory; the ring is still not configured",
        ),
        Scene::new(
            "A segment that leads out of memory",
            "The table is at 0x0 with one entry: a segment at 0xc0 of 5 slots, whose end would be at 0x110.",
            "memory 0x100\npoke 0x0 c000000000000000 05\nring events new\nring events configure 0x0 1",
            "The table can be read, and what stands in it is not allowed. That is 5 and not 1: the fault is in an entry. \
             A base that is no multiple of 64 and a size of 0 or above 4096 are 5 too.",
            "an entry of the table is wrong; the ring is still not configured",
        ),
    ]
}
