//! A report that is not the reader's own place: the lab warns at the add, and "none" is never said plainly after it.

use lab::output::Output;
use lab::run::{each, run};
use lab::world::Answer;

/// Two segments of two slots: 0x40, 0x50 and 0x80, 0x90. Ring r and reader d.
const START: &str = "memory 0x100\npoke 0 4000000000000000 02\npoke 16 8000000000000000 02\n\
    ring r new\nring r configure 0 2\nreader d new\nreader d configure 0 2\n";

fn answers(script: &str) -> Vec<Answer> {
    let mut answers = Vec::new();
    each(&mut script.as_bytes(), &mut |step| {
        answers.push(step.answer.clone());
        Ok(())
    })
    .map(drop)
    .expect("the script can be read");
    answers
}

fn warns(answer: &Answer) -> bool {
    let warns = answer.warning().is_some();
    assert_eq!(answer.to_string().contains("WARNING"), warns);
    warns
}

/// Four events accepted, the last one after a false report, one more that is written over the first: then "none", twice.
#[test]
fn none_after_a_false_report_says_nothing() {
    let adds = "ring r add 0x40 port=1\nring r add 0x40 port=2\nring r add 0x40 port=3\n\
        ring r add 0x80 port=4\nring r add 0x80 port=5\n";
    let takes = "reader d take\nreader d take\n";
    let told = answers(&format!("{START}{adds}{takes}"));
    let told = &told[told.len() - 7..];
    let warned: Vec<bool> = told.iter().map(warns).collect();
    assert_eq!(warned, [false, false, false, true, true, true, true]);
    assert!(told[5..]
        .iter()
        .all(|answer| answer.brief().0 == "none in doubt"));
    let words = told[6].to_string();
    assert!(
        words.starts_with("none in doubt: the slot at 0x40 is stale; WARNING: 0x80"),
        "{words}"
    );
    assert!(
        words.ends_with("this reader has taken 0 of 5 events accepted on its table"),
        "{words}"
    );

    // Also where the reader comes after the reports.
    let late = START.replace("reader d new\nreader d configure 0 2\n", "");
    let told = answers(&format!(
        "{late}{adds}reader d new\nreader d configure 0 2\n{takes}"
    ));
    assert!(warns(told.last().expect("an answer")));
}

#[test]
fn json_has_the_warning_in_a_field_of_its_own() {
    let script = format!("{START}ring r add 0x90 port=1\nreader d take\nreader d take\n");
    let mut said = Vec::new();
    run(&mut script.as_bytes(), true, &mut Output::plain(&mut said)).expect("a Vec takes all");
    let said = String::from_utf8(said).expect("text");
    let lines: Vec<&str> = said.lines().rev().take(3).collect();
    let warned = |line: &str| line.contains(r#","warning":"WARNING: 0x90 was reported, where "#);
    assert!(
        lines[0].contains(r#""answer":"none in doubt""#) && warned(lines[0]),
        "{said}"
    );
    assert!(
        lines[1].contains(r#""answer":"taken""#) && !warned(lines[1]),
        "{said}"
    );
    assert!(
        lines[2].contains(r#""answer":"accepted""#) && warned(lines[2]),
        "{said}"
    );
}

/// Of two readers the one that was passed over is named, and its "none" is in doubt; the other's is not.
#[test]
fn of_two_readers_each_has_its_own() {
    let script = format!(
        "{START}reader slow new\nreader slow configure 0 2\nring r add 0x40 port=1\nreader d take\n\
         ring r add 0x50 port=2\nreader d take\nreader d take\nreader slow take\nreader slow take\nreader slow take\n"
    );
    let told = answers(&script);
    let [.., added, _, none, _, _, doubt] = &told[..] else {
        panic!("{told:?}")
    };
    assert!(
        added.to_string().contains("reader slow has not stood"),
        "{added}"
    );
    assert!(matches!(none, Answer::None(0x80)), "{none:?}");
    let Answer::NoneInDoubt(0x80, doubt) = doubt else {
        panic!("{doubt:?}")
    };
    assert_eq!(
        (doubt.report, doubt.accepted, doubt.taken),
        (Some(0x50), 2, 2)
    );
}

const FRESH: &str = "memory 0x100\npoke 0 4000000000000000 02\npoke 16 8000000000000000 02\n";

/// A ring configured anew on zeroed segments begins anew.
#[test]
fn a_ring_that_is_configured_again_on_zeros_is_not_in_doubt() {
    let again = "ring r configure 0 2\nreader d configure 0 2\nreader d take\n";
    let script = format!("{START}ring r add 0x90 port=1\n{FRESH}{again}");
    assert!(matches!(answers(&script).last(), Some(Answer::None(0x40))));
}

/// Whatever makes a reader miss an accepted event, its "none" is in doubt: the lab counts both.
#[test]
fn none_is_plain_only_if_as_many_were_taken_as_accepted() {
    let state = "ready=1 entries=2 place=0x40 remaining=2 cycle=1";
    let adds = "ring r add 0x40 port=1\nring r add 0x40 port=2\nring r add 0x40 port=3\n\
        ring r add 0x80 port=4\nring r add 0x80 port=5\n";
    for meanwhile in [
        String::new(),
        format!("reader d from_state {state}\n"),
        "ring r reset\n".to_owned(),
        "ring r configure 0 2\n".to_owned(),
        "reader d configure 0 2\n".to_owned(),
        "ring r new\nring s new\nring s configure 0 2\n".to_owned(),
    ] {
        let told = answers(&format!("{START}{adds}{meanwhile}reader d take\n"));
        let last = told.last().expect("an answer");
        assert!(
            matches!(last, Answer::NoneInDoubt(0x40, _)),
            "{meanwhile}: {last}"
        );
    }
    // Nobody reported falsely, but the event is gone, or stands where this reader does not look.
    for meanwhile in [
        "poke 0x4c 00\n",
        FRESH,
        "write_trb 0x40 00000000 00000000 00000000 00000000\n",
        "reader d from_state ready=1 entries=2 place=0x50 remaining=1 cycle=1\n",
        "reader d from_state ready=1 entries=2 place=0x40 remaining=2 cycle=0\n",
    ] {
        let told = answers(&format!(
            "{START}ring r add 0x40 port=1\n{meanwhile}reader d take\n"
        ));
        let last = told.last().expect("an answer");
        let Answer::NoneInDoubt(_, doubt) = last else {
            panic!("{meanwhile}: {last}")
        };
        assert_eq!((doubt.accepted, doubt.taken), (1, 0), "{meanwhile}");
    }
    // A ring by its state, and no reader yet.
    let by_state =
        format!("ring r from_state {state}\n{adds}reader e new\nreader e configure 0 2\n");
    let told = answers(&format!("{START}{by_state}reader e take\n"));
    assert!(matches!(told.last(), Some(Answer::NoneInDoubt(0x40, _))));
}

/// Marsaglia's xorshift: the same numbers at every run.
fn next(random: &mut u64) -> u64 {
    *random ^= *random << 13;
    *random ^= *random >> 7;
    *random ^= *random << 17;
    *random
}

/// Beside counters: events accepted, taken and reported. A report is own exactly if it is the place of a number between the
/// last own report and what was taken; and a plain "none" comes only if every accepted event was taken.
#[test]
fn beside_three_counters() {
    const SLOTS: [u64; 4] = [0x40, 0x50, 0x80, 0x90];
    let mut random = 0x9e37_79b9_7f4a_7c15;
    let (mut plain, mut doubtful) = (0, 0);
    for _ in 0..400 {
        let mut script = START.to_owned();
        let honest = next(&mut random).is_multiple_of(2);
        let mut reported = 0x40;
        for _ in 0..40 {
            let any = SLOTS[(next(&mut random) % 4) as usize];
            script += &match (next(&mut random) % 3, honest) {
                (0, _) => "reader d take\n".to_owned(),
                (_, false) if next(&mut random).is_multiple_of(4) => {
                    format!("ring r add {any:#x} port=1\n")
                }
                (1, _) => "reader d state\n".to_owned(),
                _ => format!("ring r add {reported:#x} port=1\n"),
            };
            // The last place that the reader said.
            if let Some(Answer::State(state)) = answers(&script).last() {
                reported = state.place;
            }
        }
        let (mut accepted, mut taken, mut last, mut foreign) = (0_u64, 0, 0, false);
        for answer in answers(&script) {
            match &answer {
                Answer::Accepted(accept) => {
                    let own = (last..=taken).find(|n| SLOTS[n % 4] == accept.report);
                    assert_eq!(warns(&answer), own.is_none(), "{script}");
                    last = own.unwrap_or(last);
                    foreign |= own.is_none();
                    accepted += 1;
                }
                Answer::Taken(..) => taken += 1,
                Answer::None(_) => {
                    assert!(!foreign && accepted == taken as u64, "{script}");
                    plain += 1;
                }
                Answer::NoneInDoubt(_, doubt) => {
                    assert!(foreign, "{script}");
                    let counted = (doubt.accepted, doubt.taken);
                    assert_eq!(counted, (accepted, taken as u64), "{script}");
                    doubtful += 1;
                }
                _ => {}
            }
        }
    }
    assert!(plain > 500 && doubtful > 100, "{plain} {doubtful}");
}
