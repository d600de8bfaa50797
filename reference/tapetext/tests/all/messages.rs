//! What is said about each sort of bad line.

use tapetext::encode;

/// What is wrong with a text, as it is printed.
fn problems(text: &str) -> Vec<String> {
    let problems = encode(text).expect_err("the text is bad");
    problems.iter().map(ToString::to_string).collect()
}

/// Asserts what is said about a line that stands after a good calendar line.
fn assert_said(line: &str, said: &str) {
    let text = format!("calendar 10 days, all of kind 0\n{line}\nday 1\n");
    assert_eq!(problems(&text), [format!("line 2: {said}")], "{line}");
}

#[test]
fn an_unknown_record() {
    assert_said(
        "switch premise 7",
        "\"switch premise 7\" is no record; expected one of: create, retire, move-in, move-out, \
         standard-switch, self-selected-switch, drop, scheduled, permit, unexecutable, read, \
         cancel, reply, day, date-change, establish, delete, days, raw",
    );
    assert_said(
        "reply maybe premise 7 reference 1",
        "\"reply\" is followed by \"maybe\"; expected one of: accept, reject",
    );
    assert_said(
        "reply",
        "\"reply\" is followed by \"nothing\"; expected one of: accept, reject",
    );
}

#[test]
fn wrong_fields() {
    for (line, wrong) in [
        ("permit", "premise is missing"),
        ("permit premise 7", "reference is missing"),
        ("permit premise 7 reference", "reference has no number"),
        (
            "permit premise 7 reference 1 premise 7",
            "premise is given twice",
        ),
        (
            "permit premise 7 reference 1 day 4",
            "permit has no \"day\"",
        ),
    ] {
        assert_said(
            line,
            &format!("{wrong}; expected \"permit premise N reference N\""),
        );
    }
    assert_said(
        "permit premise 7, reference 1",
        "premise \"7,\" is not a number; expected a whole number from 0 to 18446744073709551615",
    );
    assert_said(
        "standard-switch premise 7 retailer 5",
        "reference is missing; \
         expected \"standard-switch premise N reference N retailer N [day N]\"",
    );
    assert_said(
        "create premise 7 day 0",
        "retailer is missing; expected \"create premise N day N retailer N [window N]\"",
    );
    assert_said("day", "day has 0 words after it; expected \"day N\"");
    assert_said("day 1 2", "day has 2 words after it; expected \"day N\"");
}

#[test]
fn numbers_that_do_not_fit_their_field() {
    for (line, name, most) in [
        ("day 65536", "day 65536", "65535"),
        (
            "retire premise 18446744073709551616",
            "premise 18446744073709551616",
            "18446744073709551615",
        ),
        (
            "permit premise 1 reference 4294967296",
            "reference 4294967296",
            "4294967295",
        ),
        (
            "create premise 1 day 0 retailer 18446744073709551616",
            "retailer 18446744073709551616",
            "18446744073709551615",
        ),
        ("days 1..65536", "day 65536", "65535"),
        (
            "create premise 1 day 0 retailer 1 window 256",
            "window 256",
            "255",
        ),
        (
            "date-change premise 1 reference 1 day 0 counter 4294967296",
            "counter 4294967296",
            "4294967295",
        ),
    ] {
        assert_said(
            line,
            &format!("{name} is too big; expected a whole number from 0 to {most}"),
        );
    }
    for word in ["x", "-1", "+1", "1.5", "0x10"] {
        assert_said(
            &format!("day {word}"),
            &format!("day \"{word}\" is not a number; expected a whole number from 0 to 65535"),
        );
    }
}

#[test]
fn wrong_days() {
    assert_said(
        "days",
        "days has 0 words after it; expected \"days FIRST..LAST\"",
    );
    assert_said(
        "days 9..8",
        "days 9..8 run backwards; expected the earlier day first",
    );
    assert_said(
        "days 3..",
        "day \"\" is not a number; expected a whole number from 0 to 65535",
    );
}

#[test]
fn wrong_raw_records() {
    let bytes = "expected 1 to 24 bytes of two hexadecimal digits each";
    assert_said("raw", &format!("raw has 0 bytes; {bytes}"));
    let long = format!("raw{}", " 00".repeat(25));
    assert_said(&long, &format!("raw has 25 bytes; {bytes}"));
    for pair in ["0", "000", "g0", "+1"] {
        assert_said(
            &format!("raw {pair}"),
            &format!("\"{pair}\" is not a byte; expected two hexadecimal digits, such as 0a"),
        );
    }
    assert_said(
        "raw 01 02",
        "raw has 2 bytes and is not the last record; expected 24 bytes",
    );
}

#[test]
fn a_wrong_calendar() {
    let shapes = "expected \"calendar absent\", \"calendar 0 days\", \
        \"calendar N days, all of kind K\" or \"calendar N days, week of kinds K K K K K K K\"";
    for line in [
        "calendar",
        "calendar 5 days",
        "calendar 5 days, all of kind",
        "calendar 5 days, week of kinds 0 0 0 0 0 1",
        "calendar 5 days, week of kinds 0 0 0 0 0 1 2 2",
    ] {
        let said = format!("line 1: \"{line}\" gives no calendar; {shapes}");
        assert_eq!(problems(&format!("{line}\nholiday 1\n")), [said]);
    }
    assert_eq!(
        problems("calendar 4097 days, all of kind 0"),
        ["line 1: calendar length 4097 is too big; expected a whole number from 0 to 4096"]
    );
    assert_eq!(
        problems("calendar 5 days, all of kind 256"),
        ["line 1: kind 256 is too big; expected a whole number from 0 to 255"]
    );
}

#[test]
fn wrong_changes_of_the_calendar() {
    let expected =
        "expected \"holiday D\", \"holiday D..D\", \"day-kind D K\" or \"day-kind D..D K\"";
    for line in ["holiday", "holiday 1 2", "day-kind 1", "day-kind 1 2 3"] {
        let wrong = format!("\"{line}\" names no days and their kind");
        assert_said(line, &format!("{wrong}; {expected}"));
    }
    assert_said(
        "holiday 10",
        "day 10 is too big; expected a whole number from 0 to 9",
    );
    assert_said(
        "holiday 4..3",
        "days 4..3 run backwards; expected the earlier day first",
    );
    assert_said(
        "day-kind 1 300",
        "kind 300 is too big; expected a whole number from 0 to 255",
    );
    assert_eq!(
        problems("calendar 0 days\nholiday 0\n"),
        ["line 2: the calendar has no days; expected no line that changes one"]
    );
    for calendar in ["", "calendar absent"] {
        let said = "line 2: \"holiday\" without a calendar to change; \
                    expected a line \"calendar N days, ...\" before it";
        assert_eq!(problems(&format!("{calendar}\nholiday 0\n"))[0], said);
    }
}

#[test]
fn a_calendar_out_of_place() {
    assert_said(
        "calendar absent",
        "a second calendar; \
         expected one \"calendar\" line, changed by \"holiday\" and \"day-kind\" lines",
    );
    assert_eq!(
        problems("calendar 10 days, all of kind 0\nday 1\nholiday 3\n"),
        ["line 3: \"holiday\" stands after a record; \
          expected the calendar before the first record (line 2)"]
    );
    assert_eq!(
        problems("day 1\ncalendar absent\n"),
        ["line 2: \"calendar\" stands after a record; \
          expected the calendar before the first record (line 1)"]
    );
}

#[test]
fn no_calendar_at_all() {
    let expected =
        "expected a line \"calendar N days, ...\" or \"calendar absent\" before the records";
    let early =
        |line: usize| format!("line {line}: a record without a calendar before it; {expected}");
    assert_eq!(problems("# no calendar\n\ndays 1..3\nday 4\n"), [early(3)]);
    // a bad line is told by itself, and the record after it is the first
    let said = problems("calender absent\nday 1\nday 2\n");
    assert!(said[0].starts_with("line 1: \"calender absent\" is no record; "));
    assert_eq!(said[1..], [early(2)]);
    for (text, line) in [("", 1), ("# nothing\n", 2)] {
        let ends = format!("line {line}: the text ends without a calendar; {expected}");
        assert_eq!(problems(text), [ends]);
    }
}

#[test]
fn a_byte_order_mark() {
    let mark = "line 1: a byte order mark stands before the text; expected UTF-8 without one";
    assert_eq!(problems("\u{feff}calendar absent\nday 1\n"), [mark]);
    assert_eq!(problems("\u{feff}# a comment\ncalendar absent\n"), [mark]);
    // behind it the lines are read as they stand
    let said = problems("\u{feff}calendar absent\nretire\n");
    assert_eq!(said[0], mark);
    assert!(said[1].starts_with("line 2: premise is missing; "));
    // anywhere else it is a word like another
    let said = problems("calendar absent\n\u{feff}day 1\n");
    assert!(said[0].starts_with("line 2: \"\u{feff}day 1\" is no record; "));
}

#[test]
fn every_bad_line_is_told_in_order() {
    let said = problems("calendar absent\nraw 00\nday x\n\n# fine\nretire\nday 1\n");
    let starts: Vec<&str> = said.iter().map(|line| &line[..7]).collect();
    assert_eq!(starts, ["line 2:", "line 3:", "line 6:"]);
}
