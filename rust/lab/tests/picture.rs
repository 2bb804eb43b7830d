//! The page and the SVG of a script.

use lab::lesson::lesson;
use lab::output::{Output, Stop};
use lab::picture::picture;

fn drawn(script: &str, only_svg: bool) -> Result<String, Stop> {
    let mut page = Vec::new();
    picture(
        &mut script.as_bytes(),
        only_svg,
        &mut Output::plain(&mut page),
    )?;
    Ok(String::from_utf8(page).expect("text"))
}

/// Lesson 3's script, whose scenes go on one after another, up to the false report.
fn late_reader() -> String {
    let scenes = lesson(3).scenes;
    let scenes = scenes
        .into_iter()
        .take_while(|scene| scene.title != "A false report");
    let scripts: Vec<String> = scenes.map(|scene| scene.script).collect();
    scripts.join("\n")
}

#[test]
fn a_page_has_a_step_for_each_command_and_needs_no_network() {
    let script = late_reader();
    let page = drawn(&script, false).expect("a page");
    assert_eq!(page.matches("<section>").count(), script.lines().count());
    assert_eq!(page.matches("<li ").count(), script.lines().count());
    let names = page.matches("xmlns=\"http://www.w3.org/2000/svg\"").count();
    assert_eq!(
        page.matches("//www").count(),
        names,
        "an address that is no name"
    );
    for word in ["src=", "href=", "url(", "@import", "fetch("] {
        assert!(!page.contains(word), "{word}");
    }
}

#[test]
fn the_last_picture_says_where_all_stand() {
    // After lesson 3: ports 4 and 5 taken, at 0x90 and 0x40; 0x50 and 0x80 were reported; the last report was 0x90.
    let svg = drawn(&late_reader(), true).expect("a picture");
    for part in [
        "<title id=\"s0r0t\">Event ring events</title>",
        "Ring at 0x50, cycle 0; reader driver at 0x50, cycle 0; last report 0x90. Slots: 0 free, 0 accepted, 2 taken, 2 reported.</desc>",
        "<title>0x40: taken, cycle bit 0</title>",
        "<title>0x50: reported, cycle bit 1</title>",
        "<title>0x80: reported, cycle bit 1</title>",
        "<title>0x90: taken, cycle bit 1</title>",
    ] {
        assert!(svg.contains(part), "{part}\nis not in\n{svg}");
    }
    for mark in ["\u{25bc} ring", "\u{25b2} driver", "\u{25c6} report"] {
        assert_eq!(svg.matches(mark).count(), 1, "{mark}");
    }
    assert_eq!(svg.matches("<svg").count(), svg.matches("</svg>").count());
}

#[test]
fn the_svg_alone_is_the_picture_of_the_last_step() {
    let script = late_reader();
    let page = drawn(&script, false).expect("a page");
    let (_, last) = page.rsplit_once("<section>").expect("a step");
    let (start, end) = (last.find("<svg").unwrap(), last.find("</svg>").unwrap());
    // The names inside a picture have the number of its step, from 0.
    let step = format!("s{}r0", script.lines().count() - 1);
    let ring = last[start..end].replace(&step, "s0r0");
    let svg = drawn(&script, true).expect("a picture");
    assert!(svg.contains(&ring), "{ring}\nis not in\n{svg}");
    // Of a longer script too there is one, inside the whole. The ring stands at 0x50 with cycle 0, where the event goes.
    let long = format!(
        "{script}\n{}ring events add 0x50 port=7",
        "read8 0\n".repeat(1000)
    );
    let svg = drawn(&long, true).expect("a picture");
    assert_eq!(svg.matches("<svg").count(), 2);
    assert!(svg.contains("<title>0x50: accepted, cycle bit 0</title>"));
}

#[test]
fn what_a_user_wrote_is_text_and_not_markup() {
    let page = drawn("memory 4 # <script>alert(\"&\")</script>", false).expect("a page");
    assert!(page.contains("# &lt;script&gt;alert(&quot;&amp;&quot;)&lt;/script&gt;"));
    assert_eq!(page.matches("<script>").count(), 1);
}

#[test]
fn pages_of_odd_kinds() {
    assert!(drawn("", false)
        .expect("a page")
        .contains("The script has no command."));
    assert!(drawn("", true)
        .expect("a picture")
        .contains("There is no event ring."));
    assert!(drawn("ring a new", true)
        .expect("a picture")
        .contains("Not configured."));
}

/// The last step of a page and its entry in the list.
fn last_step(page: &str) -> (&str, &str) {
    let (entries, steps) = page.split_once("</ol>").expect("a list");
    let (_, entry) = entries.rsplit_once("<li ").expect("an entry");
    let (_, step) = steps.rsplit_once("<section>").expect("a step");
    (entry, step.split_once("</section>").expect("an end").0)
}

/// So many commands, each after a comment: the first stands on line 2, the last on the line of twice its number.
fn commented(commands: usize) -> String {
    "# a comment\nmemory 4\n".repeat(commands)
}

#[test]
fn a_page_of_more_than_500_steps_is_cut_and_says_so() {
    let whole = drawn(&commented(500), false).expect("a page");
    assert_eq!(whole.matches("<section>").count(), 500);
    assert!(!whole.contains("CUT") && !whole.contains("answer unknown"));
    for (commands, lines) in [
        (501, "line 1002 was done and is not drawn"),
        (502, "lines 1002 to 1004 were done and are not drawn"),
        (730, "lines 1002 to 1460 were done and are not drawn"),
    ] {
        let page = drawn(&(commented(commands) + "# the end\n"), false).expect("a page");
        assert_eq!(page.matches("<section>").count(), 501);
        assert_eq!(page.matches("<li ").count(), 501);
        let words = format!("CUT: a page has at most 500 steps; {lines}");
        let (entry, step) = last_step(&page);
        assert!(entry.contains(&format!("value=\"1002\"><button>{words}</button>")));
        assert!(step.contains(&format!("<p class=\"answer unknown\">{words}</p>")));
        // Whether there is a ring is not said here.
        assert!(!step.contains("No event ring"));
    }
}

#[test]
fn what_stands_behind_the_cut_is_done_all_the_same() {
    let stop = drawn(&(commented(600) + "nonsense"), false).expect_err("no command");
    assert!(matches!(stop, Stop::Misuse(fault) if fault.starts_with("line 1201: ")));
    // A picture of the end alone is never cut so.
    let svg = drawn(&(commented(600) + &ring_of(4)), true).expect("a picture");
    assert!(svg.contains("Slots: 4 free") && !svg.contains("CUT"));
}

#[test]
fn a_page_of_more_than_64_mib_is_cut_and_says_so() {
    // Sixteen times the same segment, so that a picture has 512 slots.
    let entries = (0..16).map(|n| format!("poke {} 0010000000000000 0010\n", 16 * n));
    let start = format!("memory 0x20000\n{}", entries.collect::<String>());
    let ring = "ring r from_state ready=1 entries=16 place=0x1000 remaining=4096\n";
    let script = start + ring + &"ring r state\n".repeat(480);
    // Memory, 16 entries, the ring, and then 480 commands.
    let last = 1 + 16 + 1 + 480;
    let page = drawn(&script, false).expect("a page");
    assert!(page.len() <= (64 << 20) + (1 << 20), "{}", page.len());
    let steps = page.matches("<section>").count();
    assert!(steps > 100, "{steps} steps: cut too early");
    // The steps are the lines from 1 on, and then the one that says where they end.
    let words = format!(
        "CUT: a page has at most 64 MiB; lines {steps} to {last} were done and are not drawn"
    );
    let (entry, step) = last_step(&page);
    assert!(entry.contains(&words), "{entry}");
    assert!(step.contains(&words), "{step}");
}

/// Rings r00, r01 and so on, so many of them.
fn rings(number: usize) -> String {
    (0..number).map(|n| format!("ring r{n:02} new\n")).collect()
}

#[test]
fn of_very_many_rings_64_are_drawn_and_the_others_are_told_of() {
    let svg = drawn(&rings(64), true).expect("a picture");
    assert_eq!(
        svg.matches(">Event ring r").count(),
        2 * 64,
        "title and head"
    );
    assert!(!svg.contains("CUT"));
    let svg = drawn(&rings(65), true).expect("a picture");
    assert!(svg.contains(">CUT: 1 of 65 event rings not drawn</title>"));
    assert!(svg.contains(">Not drawn: r64.<"));
    let svg = drawn(&rings(70), true).expect("a picture");
    assert_eq!(
        svg.matches(">Event ring r").count(),
        2 * 64,
        "title and head"
    );
    assert!(svg.contains(">Event ring r63<") && !svg.contains(">Event ring r64<"));
    for part in [
        "<title id=\"s0r64t\">CUT: 6 of 70 event rings not drawn</title>",
        "<desc id=\"s0r64d\">Not drawn: r64 to r69, in the order of names. A picture has at most 64 rings and 64 MiB.</desc>",
    ] {
        assert!(svg.contains(part), "{part}\nis not in\n{svg}");
    }
    // A step of a page says it too, from the 65th ring on.
    let page = drawn(&rings(70), false).expect("a page");
    assert_eq!(page.matches(" event rings not drawn</title>").count(), 6);
}

#[test]
fn of_very_large_rings_64_mib_are_drawn_and_the_others_are_told_of() {
    // Sixteen times the same segment with readers on 512 slots: 8192 slots a ring with marks.
    let entries = (0..16).map(|n| format!("poke {} 0010000000000000 0010\n", 16 * n));
    let mut script = format!("memory 0x20000\n{}", entries.collect::<String>());
    for n in 0..512 {
        let place = place(n);
        script += &format!("reader d{n} from_state ready=1 entries=16 place={place}\n");
    }
    for n in 0..40 {
        script += &format!("ring r{n} from_state ready=1 entries=16 place=0x1000\n");
    }
    let svg = drawn(&script, true).expect("a picture");
    assert!(svg.len() <= (64 << 20) + (1 << 20), "{}", svg.len());
    let rings = svg.matches("<title id=").count() - 1;
    assert!((1..40).contains(&rings), "{rings} rings");
    let told = format!(">CUT: {} of 40 event rings not drawn</title>", 40 - rings);
    assert!(svg.contains(&told), "{told}");
}

/// A ring `r` on a table at 0 with one segment, at 0x1000 and of so many slots.
fn ring_of(slots: u16) -> String {
    let [low, high] = slots.to_le_bytes();
    format!(
        "memory 0x20000\npoke 0 0010000000000000 {low:02x}{high:02x}\nring r new\nring r configure 0 1\n"
    )
}

/// The place of a slot of that segment.
fn place(number: u64) -> u64 {
    0x1000 + 16 * number
}

/// A reader that stands on a slot of that segment.
fn reader_at(name: &str, number: u64) -> String {
    let (place, remaining) = (place(number), 4096 - number);
    format!("reader {name} from_state ready=1 entries=1 place={place} remaining={remaining}\n")
}

/// What the cells of all slots and gaps are called, in the order in which they are drawn.
fn cells(svg: &str) -> Vec<&str> {
    let after = svg.split("<title>").skip(1);
    after
        .map(|part| part.split_once("</title>").expect("an end").0)
        .collect()
}

/// How many slots are free, accepted, taken and reported: those drawn, and those that the gaps tell of.
fn told(svg: &str) -> ([usize; 4], [usize; 4]) {
    let words = ["free", "accepted", "taken", "reported"];
    let drawn = |word| {
        let slot = format!(": {word}, cycle bit ");
        let slots = cells(svg).into_iter();
        slots.filter(|cell| cell.contains(&slot)).count()
    };
    let left_out = |word| {
        let gaps = cells(svg).into_iter();
        let gaps = gaps.filter_map(|cell| cell.split_once(" not drawn: "));
        let told = gaps.flat_map(|(_, told)| told.split([',', '(']));
        let told = told.filter_map(|part| part.trim().strip_suffix(word));
        told.map(|number| number.trim().parse::<usize>().expect("a number"))
            .sum()
    };
    (words.map(drawn), words.map(left_out))
}

/// All that is drawn of a slot, with the marks at it.
fn at_slot(svg: &str, number: u64) -> &str {
    let title = format!("<title>{:#x}: ", place(number));
    let (_, after) = svg.split_once(&title).expect("a slot that is drawn");
    after.split("<g>").next().expect("a part")
}

const RING: &str = "\u{25bc} ring";
const REPORT: &str = "\u{25c6} report";

#[test]
fn seven_of_64_wait_and_all_seven_are_seen() {
    let add = "ring r add 0x1000 port=1\n".repeat(39);
    let take = "reader d take\n".repeat(32);
    let reader = "reader d new\nreader d configure 0 1\n";
    let svg = drawn(&(ring_of(64) + reader + &add + &take), true).expect("a picture");
    // The report stands on slot 0, the reader on 32 and the ring on 39. The 29 others of 32 are the nearest: up to 7 away
    // from a mark 27 more (1 to 7, 25 to 31, 33 to 38, 40 to 46), then 8 and 24.
    let mut all: Vec<String> = (0..64)
        .map(|n| match n {
            0..=31 => format!("{:#x}: taken, cycle bit 1", place(n)),
            32..=38 => format!("{:#x}: accepted, cycle bit 1", place(n)),
            _ => format!("{:#x}: free, cycle bit 0", place(n)),
        })
        .collect();
    // Slot 9 is at 0x1090, 23 at 0x1170, 47 at 0x12f0 and 63 at 0x13f0.
    let gap = "\u{2026} 17 not drawn: 17 free (from 0x12f0 to 0x13f0)";
    all.splice(47..64, [gap.to_owned()]);
    let gap = "\u{2026} 15 not drawn: 15 taken (from 0x1090 to 0x1170)";
    all.splice(9..24, [gap.to_owned()]);
    assert_eq!(cells(&svg), all);
    // Together they are the segment.
    assert_eq!(told(&svg), ([8, 7, 17, 0], [17, 0, 15, 0]));
    assert!(svg.contains("Slots: 25 free, 7 accepted, 32 taken, 0 reported.</desc>"));
    assert!(svg.contains(">32 of 64 drawn<"));
    for (number, mark) in [(0, REPORT), (32, "\u{25b2} d<"), (39, RING)] {
        assert!(at_slot(&svg, number).contains(mark), "{mark}");
        assert_eq!(svg.matches(mark).count(), 1, "{mark}");
    }
    // On the cells themselves: how many, and of what.
    for text in [">\u{2026} 15<", ">T 15<", ">\u{2026} 17<", ">F 17<"] {
        assert_eq!(svg.matches(text).count(), 1, "{text}");
    }
    assert_eq!(svg.matches("stroke-dasharray").count(), 3, "and the legend");
}

#[test]
fn a_gap_of_more_than_one_use() {
    // The reader takes 17 and is gone. The report on 0 and the ring on 39 have ten slots around them each: 1 to 10, 29 to
    // 49. Left out are 11 to 28, of which 11 to 16 were taken, and 50 to 63.
    let add = "ring r add 0x1000 port=1\n".repeat(39);
    let take = "reader d take\n".repeat(17);
    let reader = "reader d new\nreader d configure 0 1\n";
    let script = ring_of(64) + reader + &add + &take + "reader d reset";
    let svg = drawn(&script, true).expect("a picture");
    let gap = "<title>\u{2026} 18 not drawn: 12 accepted, 6 taken (from 0x10b0 to 0x11c0)</title>";
    assert!(svg.contains(gap), "{gap}\nis not in\n{svg}");
    assert!(svg.contains(">A 12<") && svg.contains(">T 6<"));
    // Slots 0 to 10 taken, 29 to 38 accepted, 39 to 49 free.
    assert_eq!(told(&svg), ([11, 10, 11, 0], [14, 12, 6, 0]));
}

#[test]
fn marks_far_apart_in_a_long_segment() {
    // An event is put on slot 3000, with 400 reported; a reader stands on 1000.
    let ring = "ring r from_state ready=1 entries=1 place=0xcb80 remaining=1096 cycle=1\n";
    let add = "ring r add 0x2900 port=1\n";
    let script = ring_of(4096) + ring + add + &reader_at("d", 1000);
    let svg = drawn(&script, true).expect("a picture");
    // Slot 0, and 28 around the marks: four on either side of each, and a fifth at those on 400 and 1000.
    assert_eq!(told(&svg), ([31, 1, 0, 0], [4064, 0, 0, 0]));
    for (number, mark) in [(400, REPORT), (1000, "\u{25b2} d<"), (3001, RING)] {
        assert!(at_slot(&svg, number).contains(mark), "{mark}");
    }
    let cells = cells(&svg);
    let gaps = cells.iter().filter(|cell| cell.contains("not drawn"));
    // From 1 to 394, 406 to 994, 1006 to 2996, 3006 to 4095.
    let numbers = [(1, 394), (406, 994), (1006, 2996), (3006, 4095)];
    let told = numbers.map(|(from, to)| {
        let (count, from, to) = (to - from + 1, place(from), place(to));
        format!("\u{2026} {count} not drawn: {count} free (from {from:#x} to {to:#x})")
    });
    assert!(gaps.eq(told.iter()), "{cells:?}");
    assert!(svg.contains(">32 of 4096 drawn<"));
}

#[test]
fn each_of_many_readers_is_seen() {
    // Ring and report stand on slot 0, forty readers on 100, 200 and so on, and one more on 100.
    let readers = (1..=40).map(|n| reader_at(&format!("r{n}"), 100 * n));
    let script = ring_of(4096) + &readers.collect::<String>() + &reader_at("more", 100);
    let svg = drawn(&script, true).expect("a picture");
    assert!(at_slot(&svg, 0).contains(RING) && at_slot(&svg, 0).contains(REPORT));
    assert!(at_slot(&svg, 100).contains("\u{25b2} 2 readers"));
    for n in 2..=40 {
        let mark = format!("\u{25b2} r{n}<");
        assert!(at_slot(&svg, 100 * n).contains(&mark), "{mark}");
    }
    // No slot beside them; 99 between two of them, and 95 after 4000.
    assert_eq!(told(&svg), ([41, 0, 0, 0], [4055, 0, 0, 0]));
    assert_eq!(svg.matches(">\u{2026} 99<").count(), 40);
    assert_eq!(svg.matches(">\u{2026} 95<").count(), 1);
    assert!(svg.contains(">41 of 4096 drawn<"));
}

#[test]
fn a_segment_of_32_slots_is_drawn_whole_and_one_of_33_is_not() {
    let svg = drawn(&ring_of(32), true).expect("a picture");
    assert_eq!(told(&svg), ([32, 0, 0, 0], [0; 4]));
    assert!(!svg.contains(" drawn") && !svg.contains("dash"), "{svg}");
    let svg = drawn(&ring_of(33), true).expect("a picture");
    assert_eq!(told(&svg), ([32, 0, 0, 0], [1, 0, 0, 0]));
    // Slot 32 is at 0x1200, behind all others.
    let gap = "\u{2026} 1 not drawn: 1 free (from 0x1200 to 0x1200)";
    assert_eq!(cells(&svg).last(), Some(&gap));
    assert!(svg.contains(">33 slots<") && svg.contains(">32 of 33 drawn<"));
}

#[test]
fn a_mark_that_has_no_slot_is_told_of() {
    // The segment ends before 0x1040, and 0x1008 is inside a slot.
    let reader = "reader d from_state ready=1 entries=1 place=0x1008\n";
    let script = ring_of(4) + reader + "ring r add 0x1040 port=1";
    let svg = drawn(&script, true).expect("a picture");
    let words = "Ring at 0x1010, cycle 1; reader d at 0x1008 (no slot of this table), cycle 0; \
         last report 0x1040 (no slot of this table).";
    assert!(svg.contains(words), "{words}\nis not in\n{svg}");
    assert!(svg.contains(RING) && !svg.contains(REPORT) && !svg.contains("\u{25b2}"));
}

/// Memory that ends at 2^64, and in it a segment that ends there too: 0x40 slots, of which 32 are drawn.
#[test]
fn a_segment_that_ends_at_the_last_address() {
    let script = "memory 0x800 at 0xfffffffffffff800\n\
        poke 0xfffffffffffff800 00fcffffffffffff 40\n\
        ring r from_state ready=1 table=0xfffffffffffff800 entries=1 place=0xfffffffffffffff0 remaining=1\n\
        ring r add 0xfffffffffffffff0 port=1";
    let svg = drawn(script, true).expect("a picture");
    assert_eq!(told(&svg), ([31, 1, 0, 0], [32, 0, 0, 0]));
    let last = "0xfffffffffffffff0: accepted, cycle bit 0";
    assert_eq!(cells(&svg).last(), Some(&last));
    // Under the slot stands the end of its address.
    assert!(svg.contains(">\u{2026}ffffffff0<"));
}

#[test]
fn the_words_are_whole_where_slots_are_left_out() {
    let svg = drawn(&ring_of(4096), true).expect("a picture");
    assert!(svg.contains("Slots: 4096 free, 0 accepted, 0 taken, 0 reported.</desc>"));
    assert!(svg.contains(">4096 slots<") && svg.contains(">32 of 4096 drawn<"));
}
