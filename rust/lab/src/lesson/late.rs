//! Lesson 3: a reader that comes late loses nothing. Each scene goes on where the one before stopped.

use super::Scene;

pub fn scenes() -> Vec<Scene> {
    [filled(), drained(), vec![misled()]]
        .into_iter()
        .flatten()
        .collect()
}

fn filled() -> Vec<Scene> {
    vec![
        Scene::new(
            "A ring filled",
            "A table at 0x0 with two segments of two slots: 0x40, 0x50 and 0x80, 0x90. Ring and reader are configured on it. \
             Three events come; the driver's last report is still the first slot, 0x40.",
            "memory 0x100\n\
             poke 0x0 4000000000000000 02000000 00000000\n\
             poke 0x10 8000000000000000 02000000 00000000\n\
             ring events new\n\
             ring events configure 0x0 2\n\
             reader driver new\n\
             reader driver configure 0x0 2\n\
             ring events add 0x40 port=1\n\
             ring events add 0x40 port=2\n\
             ring events add 0x40 port=3",
            "Three of four slots are used, each with cycle bit 1. The ring went on from 0x50 to 0x80, the next segment; the cycle does not flip there.",
            "three events stand in the ring, none is taken",
        ),
        Scene::new(
            "One event too many",
            "A fourth event, with the same report.",
            "ring events add 0x40 port=4",
            "The slot after the present one (0x90) would be 0x40, which was not reported as taken. One slot always stays free, as otherwise full and empty \
             would look the same. Nothing was written and the ring has not moved: the caller keeps its event and tries again. usbvfiod panics here.",
            "full: keep the event and add it again later; nothing is lost",
        ),
        Scene::new(
            "Taken is not reported",
            "The late driver takes one event, but reports nothing; the fourth event is tried again.",
            "reader driver take\nring events add 0x40 port=4",
            "The ring cannot see what was taken. It believes the report alone, and that is still 0x40.",
            "still full: only a report makes room",
        ),
    ]
}

fn drained() -> Vec<Scene> {
    vec![
        Scene::new(
            "Drained",
            "The driver takes all that is left.",
            "reader driver take\nreader driver take\nreader driver take",
            "Ports 1, 2 and 3 were taken once each and in order. The slot at 0x90 is stale (cycle bit 0 where 1 is expected), so every accepted event was taken: \
             here \"none\" does mean that nothing is there. Port 4 was never accepted: it still waits outside the ring, with the caller.",
            "every accepted event was taken; the refused one still waits outside",
        ),
        Scene::new(
            "Reported",
            "The driver reports its place, 0x90; the fourth event is tried again.",
            "ring events add 0x90 port=4",
            "Now there is room. The event stands at 0x90, the last slot, and the ring enters entry 0 again: its cycle is 0 from now on.",
            "the event that was refused is in, and the ring begins its second pass",
        ),
        Scene::new(
            "Lapped",
            "A fifth event is written over the first one at 0x40. The driver takes what is there.",
            "ring events add 0x90 port=5\nreader driver take\nreader driver take\nreader driver take",
            "Ports 4 and 5 came, in order. At 0x50 port 2 still stands in memory, with cycle bit 1; the driver is on its second pass and expects 0. \
             So the cycle bit, and not what the bytes look like, says that it is old. Nothing was lost, doubled or moved.",
            "drained again; an old event is not taken twice",
        ),
    ]
}

fn misled() -> Scene {
    Scene::new(
        "A false report",
        "Ports 6, 7 and 8 come, which is all that fits; nothing is taken. Then the guest reports 0x90, where its reader has not come to yet, \
         and ports 9 and 10 come. The driver takes, twice.",
        "ring events add 0x50 port=6\nring events add 0x50 port=7\nring events add 0x50 port=8\n\
         ring events add 0x90 port=9\nring events add 0x90 port=10\nreader driver take\nreader driver take",
        "Port 10 was written over port 6, which nobody had taken, with the other cycle bit; so the slot looks stale and the reader stops before it. \
         Five events were accepted since the last take, and the reader finds none. The ring believes a report, as it cannot see the reader; the lab sees both, \
         and warns. A report must be a place where the reader stands or stood.",
        "not all was taken: after a false report events are lost",
    )
}
