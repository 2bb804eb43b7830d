//! The last answer of every scene, from document 01 and docs/DIFFERENCES.md.

use lab::lesson::{brief, lesson, play, tell};
use lab::output::Output;
use lab::world::World;

/// Briefly, and in full, the last answer of each scene.
fn ends(number: u8) -> Vec<(String, String)> {
    let mut world = World::default();
    let end = |scene| {
        let played = play(scene, &mut world).expect("a lesson's script can be read");
        let answer = &played.last().expect("a scene has a script").answer;
        (brief(answer), answer.to_string())
    };
    lesson(number).scenes.iter().map(end).collect()
}

fn check(number: u8, expected: &[(&str, &str)]) {
    let ends = ends(number);
    assert_eq!(ends.len(), expected.len());
    for ((brief, words), (expected, part)) in ends.iter().zip(expected) {
        assert_eq!(brief, expected);
        assert!(words.contains(part), "{words:?} has no {part:?}");
    }
}

#[test]
fn a_guest_that_cannot_be_trusted() {
    check(
        1,
        &[
            ("GAVE UP, links 256", "one more stands at 0x0"),
            ("nothing new, links 1", "cycle state 0"),
            ("TRB, links 256", "TRB at 0x1000"),
            ("GAVE UP, links 256", "one more stands at 0x1000"),
            ("refused 1", ""),
            ("refused 1", ""),
            ("refused 5", ""),
        ],
    );
}

#[test]
fn books_that_part() {
    check(
        2,
        &[
            ("read, type 16", "stream=0x1 "),
            ("read, type 16", "context_type=1 "),
            ("refused 8", ""),
            ("refused 8", ""),
            ("refused 8", ""),
            ("bytes, type 32", "01 80 20 00"),
            ("refused 10", "type 6"),
            ("refused 10", "type 6"),
            ("refused 10", "type 25"),
            ("read, type 9", ""),
            ("read, type 6", "completion=0 cleared=0"),
            ("refused 10", "type 35"),
            ("configured, entry 0", "1 slot left"),
            ("refused 5", ""),
            ("configured, entry 0", "at 0x40 in entry 0"),
            ("refused 7", ""),
            ("done", "TRB at 0x40: 00 00 00 00 00 00 00 00"),
            ("refused 5", ""),
            ("accepted, cycle 1", "now at 0x100"),
            ("GAVE UP, links 256", ""),
            ("refused 3", ""),
            ("refused 3", ""),
            ("refused 5", ""),
            ("refused 6", ""),
            ("refused 4", ""),
            ("refused 1", ""),
            ("GAVE UP, links 256", "one more stands at 0x1000"),
        ],
    );
}

#[test]
fn a_late_reader() {
    check(
        3,
        &[
            ("accepted, cycle 1", "accepted at 0x80"),
            ("refused 7", ""),
            ("refused 7", ""),
            ("none, slot 0x90", ""),
            ("accepted, cycle 1", "now at 0x40 with cycle 0"),
            ("none, slot 0x50", "none: the slot"),
            ("none in doubt, slot 0x50", "taken 5 of 10 events"),
        ],
    );
}

#[test]
fn a_lesson_told_has_every_scene_and_a_summary_line_for_each() {
    for number in 1..=3 {
        let mut told = Vec::new();
        tell(number, &mut Output::plain(&mut told)).expect("a Vec takes all");
        let told = String::from_utf8(told).expect("text");
        let (scenes, summary) = told.split_once(" in a line each").expect("a summary");
        for scene in lesson(number).scenes {
            assert!(scenes.contains(&scene.title));
            assert!(summary.contains(scene.meaning));
        }
        let parts = |head| scenes.matches(head).count();
        let count = lesson(number).scenes.len();
        assert_eq!(
            [
                parts("  Done: "),
                parts("  Came back: "),
                parts("  Read it: ")
            ],
            [count; 3]
        );
        assert!(!told.contains('\x1b'), "colour where none was asked for");
    }
}
