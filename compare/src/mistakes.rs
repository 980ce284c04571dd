//! Answers of `hand` written out, and the same with one mistake in each: the comparison takes the right
//! one and finds every mistake.

use crate::answers;
use crate::board::{answer::DONE, Board};
use crate::session::opening;
use crate::telling::{check_recorded, check_waits};

/// p0 holds o0 and p1 holds o1; p2 and then p0 stand in the line of o1, and p1 in that of o0. Only p1
/// has recorded a ring.
fn two_rings() -> Board {
    let mut board = opening(2, 3, 2);
    for (process, object, mode) in [(0, 0, 1), (1, 1, 1), (2, 1, 0), (0, 1, 1), (1, 0, 1)] {
        assert_eq!(board.request(process, object, mode), DONE);
        assert_eq!(board.drain(1920).0, DONE);
    }
    board
}

const WAITS: &str = "\
at node 0, in the line of o0
  p1 (exclusive) waits for p0, which holds it
at node 1, in the line of o1
  p2 (shared) waits for p1, which holds it
  p0 (exclusive) waits for p1, which holds it; p2, which stands ahead
only the whole board shows
  a ring exists: p1, p0; recorded by p1
  a ring exists: p2, p1, p0; not recorded, but p1 of it recorded another
";

const RINGS: &str = "  rings recorded: 1
    ring p1, p0
only the whole board shows
  a ring exists: p1, p0; recorded by p1
  a ring exists: p2, p1, p0; not recorded, but p1 of it recorded another
";

fn waits(answer: &str) -> Result<(), String> {
    check_waits(&two_rings(), &answers::waits(answer)?)
}

fn rings(answer: &str) -> Result<(), String> {
    check_recorded(&two_rings(), &answers::rings(answer)?)
}

/// The right answer is taken; with each of these words put for others it is not, for this reason.
fn finds(check: fn(&str) -> Result<(), String>, right: &str, mistakes: &[(&str, &str, &str)]) {
    assert_eq!(check(right), Ok(()));
    for (words, others, reason) in mistakes {
        assert_eq!(right.matches(words).count(), 1, "{words}");
        let wrong = check(&right.replace(words, others)).expect_err(others);
        assert!(wrong.contains(reason), "{others}: {wrong}");
    }
}

#[test]
fn a_wrong_wait_is_found() {
    let reason = "these are not the waits";
    let mistakes = [
        ("at node 0", "at node 1", reason),
        ("line of o0", "line of o1", reason),
        ("p2 (shared)", "p2 (exclusive)", reason),
        ("p0 (exclusive) waits for p1, which holds it; p2", "p0 (exclusive) waits for p2", reason),
        ("; p2, which stands ahead", "", reason),
        ("p1, which holds it; p2, which stands", "p1, p2, which stand", reason),
        (
            "p1 (exclusive) waits for p0, which holds it",
            "p1 (exclusive) waits for p2, which holds it",
            reason,
        ),
        ("which stands ahead", "which stand ahead", "not a form"),
        ("; p2, which stands", "; p0, p2, which stands", "not a form"),
        ("p2 (shared)", "p02 (shared)", "not a form"),
        ("  p1 (exclusive) waits for p0, which holds it\n", "", "a line with nobody"),
        ("only the whole board shows\n", "", "no line says"),
    ];
    finds(waits, WAITS, &mistakes);
}

#[test]
fn a_wrong_ring_is_found() {
    let first = "  a ring exists: p1, p0; recorded by p1\n";
    let second = "  a ring exists: p2, p1, p0; not recorded, but p1 of it recorded another\n";
    let both = format!("{first}{second}");
    let twice = format!("{first}  a ring exists: p0, p1; recorded by p1\n");
    let mistakes = [
        (first, "", "p1, p0 is recorded, but not told"),
        (second, "", "p2 is on a ring, but in none that is told"),
        (&both, "  no ring of waits exists\n", "p1, p0 is recorded, but not told"),
        (&both, "", "nothing is told of rings"),
        (first, &twice, "p0, p1 is told twice"),
        ("exists: p2, p1, p0", "exists: p2, p0, p1", "p2, p0, p1 is no ring of waits"),
        ("exists: p2, p1, p0", "exists: p2", "p2 is no ring of waits"),
        ("exists: p2, p1, p0", "exists: p1, p0, p2", "p1, p0, p2 is no shortest ring"),
        ("recorded by p1", "recorded by p0", "the status of p1, p0 is"),
        ("recorded by p1", "recorded by p0, p1", "the status of p1, p0 is"),
        ("recorded by p1", "not recorded yet", "the status of p1, p0 is"),
        ("but p1 of it", "but p0 of it", "the status of p2, p1, p0 is"),
        ("not recorded, but p1 of it recorded another", "not recorded yet", "the status of p2, p1, p0 is"),
        ("not recorded, but p1 of it recorded another", "recorded by p2", "the status of p2, p1, p0 is"),
        ("not recorded, but p1 of it recorded another", "recorded", "not a form"),
    ];
    finds(waits, WAITS, &mistakes);
}

#[test]
fn a_wrong_record_is_found() {
    let recorded = "    ring p1, p0\n";
    let reason = "these are not the recorded rings";
    let mistakes = [
        ("rings recorded: 1", "rings recorded: 2", "2 rings counted, 1 told"),
        (recorded, "", "1 rings counted, 0 told"),
        (recorded, "    ring p0, p1\n", reason),
        (recorded, "    ring p1, p2\n", reason),
        (recorded, "  ring p1, p0\n", "not a form"),
        ("recorded by p1", "recorded by p0", "the status of p1, p0 is"),
    ];
    finds(rings, RINGS, &mistakes);
}

#[test]
fn a_broken_line_is_put_together() {
    let right = WAITS.replace("; ", ";\n      ");
    assert_eq!(right.lines().count(), WAITS.lines().count() + 3);
    finds(waits, &right, &[(";\n      p2, which", ";\n     p2, which", "not a form")]);
}

#[test]
fn nobody_waits_on_an_opening() {
    let told =
        "  nobody waits: nobody stands in a line\nonly the whole board shows\n  no ring of waits exists\n";
    assert_eq!(check_waits(&opening(1, 2, 1), &answers::waits(told).unwrap()), Ok(()));
    assert!(check_waits(&two_rings(), &answers::waits(told).unwrap()).is_err());
    assert!(waits("only the whole board shows\n  no ring of waits exists\n").is_err());
}

#[test]
fn answers_come_apart() {
    let said = ["open 1 2 1", "waits"].map(String::from);
    let answers = answers::apart("> open 1 2 1\n0 done\n> waits\na\nb\n", &said).unwrap();
    assert_eq!(answers, ["0 done\n", "a\nb\n"]);
    assert_eq!(answers::answer_number(&answers[0]), Ok(0));
    for wrong in
        ["> open 1 2 1\n0 done\n", "0 done\n", "> open 1 2 1\n> rings\n", "> open 1 2 1\n> waits\n> waits\n"]
    {
        assert!(answers::apart(wrong, &said).is_err(), "{wrong}");
    }
}
