//! What an output says in words: its lines stay, the words are those of the
//! text and of the documents' table.

use tapetext::{encode_lined, explain, Lined};

/// Every printed line with words below it, and the numbers that make them.
const TEXT: &str = "\
# Place 8 is not line 8.
calendar 10 days, all of kind 0

create premise 7 day 0 retailer 0
days 1..5   # five records
move-in premise 7 reference 2 day 9 retailer 101
read day 3 premise 7 reference 2
create premise 9 day 4 retailer 303
";

const PLAYED: &str = "\
1 0 0
2 0 0
3 0 0
4 0 0
5 0 0
6 15 0
7 0 1
n 1 1 9 2 7 0
8 14 0
9 0 0
p 7 0 0
p 9 303 4
t 7 2
";

fn lined(text: &str) -> Lined {
    encode_lined(text).expect("the text is good")
}

/// The words below the only record of a tape that got this answer.
fn said(line: &str, answer: u64) -> String {
    let text = lined(&format!("calendar absent\n{line}\n"));
    let explained = explain(&text, &format!("1 {answer} 0\nt 0 1\n")).unwrap();
    let lines: Vec<&str> = explained.lines().collect();
    assert_eq!(lines.len(), 4, "{explained}");
    lines[1].to_string()
}

#[test]
fn words_stand_below_the_numbers() {
    let explained = explain(&lined(TEXT), PLAYED).unwrap();
    let expected = PLAYED
        .replace(
            "6 15 0\n",
            "6 15 0\nline 5: day mark, day 5: the day is not the one after today\n",
        )
        .replace(
            "8 14 0\n",
            "8 14 0\nline 7: meter read, premise 7, reference 2: \
             its status or kind does not take this record\n",
        )
        .replace("t 7 2\n", "premise 7: no retailer since day 0\nt 7 2\n");
    assert_eq!(explained, expected);
}

/// Without the lines of words the output is what it was.
#[test]
fn the_numbers_stay() {
    let explained = explain(&lined(TEXT), PLAYED).unwrap();
    let is_number = |line: &&str| {
        let first = line.split(' ').next().unwrap();
        matches!(first, "n" | "p" | "t") || first.parse::<u64>().is_ok()
    };
    let numbers: Vec<&str> = explained.lines().filter(is_number).collect();
    assert_eq!(numbers.join("\n") + "\n", PLAYED);
}

#[test]
fn each_row_has_its_words() {
    for (line, answer, words) in [
        (
            "day 1",
            1,
            "day mark, day 1: the notice buffer is under 24,576 bytes",
        ),
        ("day 1", 2, "day mark, day 1: the book is not well kept"),
        (
            "create premise 0 day 4096 retailer 1",
            3,
            "create, premise 0, day 4096, retailer 1: its length is not 24, its kind, detail or a \
             field is out of range, or an unused field is not zero",
        ),
        (
            "create premise 8 day 3 retailer 101 window 6",
            3,
            "create, premise 8, day 3, retailer 101, window 6: its length is not 24, its kind, \
             detail or a field is out of range, or an unused field is not zero",
        ),
        (
            "move-in premise 8 reference 1 day 3 retailer 10000000000000",
            3,
            "move in, premise 8, reference 1, day 3, retailer 10000000000000: its length is not \
             24, its kind, detail or a field is out of range, or an unused field is not zero",
        ),
        (
            "retire premise 8",
            4,
            "retire, premise 8: there is no such premise",
        ),
        (
            "create premise 8 day 3 retailer 101",
            5,
            "create, premise 8: the premise is held",
        ),
        (
            "create premise 8 day 3 retailer 101",
            6,
            "create, premise 8: 64 files are held",
        ),
        (
            "retire premise 8",
            7,
            "retire, premise 8: the premise has an open order",
        ),
        (
            "move-out premise 8 reference 1 day 3 retailer 5",
            8,
            "move out, premise 8, reference 1: the reference is held in the file",
        ),
        (
            "self-selected-switch premise 8 reference 1 day 91 retailer 5",
            9,
            "self-selected switch, premise 8, reference 1, day 91: the requested day is more than \
             90 days after today or more than 270 before it",
        ),
        (
            "standard-switch premise 8 reference 1 retailer 5",
            10,
            "standard switch, premise 8, reference 1: there is no switch date",
        ),
        (
            "move-in premise 8 reference 1 day 3 retailer 5",
            11,
            "move in, premise 8, reference 1: it is not first in",
        ),
        (
            "drop premise 8 reference 1 day 3 retailer 5",
            12,
            "mass transition drop, premise 8, reference 1: the premise has 8 open orders",
        ),
        (
            "drop premise 8 reference 1 day 3 retailer 5",
            26,
            "mass transition drop, premise 8, reference 1, retailer 5: its retailer has 4 or more \
             open orders at the premise",
        ),
        (
            "cancel premise 8 reference 1 retailer 1000000000123",
            13,
            "cancel, premise 8, reference 1, retailer 1000000000123: there is no such reference, \
             or on a cancel the order is another retailer's",
        ),
        (
            "cancel premise 8 reference 1 retailer 5",
            13,
            "cancel, premise 8, reference 1, retailer 5: there is no such reference, or on a \
             cancel the order is another retailer's",
        ),
        (
            "reply accept premise 8 reference 1",
            14,
            "cancel reply, accept, premise 8, reference 1: its status or kind does not take this \
             record",
        ),
        (
            "day 9",
            15,
            "day mark, day 9: the day is not the one after today",
        ),
        (
            "date-change premise 8 reference 1 day 40 counter 3",
            16,
            "date change, premise 8, reference 1, counter 3: its counter is not above the one of \
             the order's last date change",
        ),
        (
            "date-change premise 8 reference 1 day 40 counter 3",
            17,
            "date change, premise 8, reference 1: the order is Scheduled and in window",
        ),
        (
            "delete premise 8 retailer 900",
            18,
            "agreement, delete, premise 8, retailer 900: the agreement is not of the retailer named",
        ),
        (
            "establish premise 8 retailer 900",
            4,
            "agreement, establish, premise 8: there is no such premise",
        ),
        (
            "date-change premise 8 reference 1 day 40 counter 0",
            3,
            "date change, premise 8, reference 1, day 40, counter 0: its length is not 24, its \
             kind, detail or a field is out of range, or an unused field is not zero",
        ),
    ] {
        assert_eq!(said(line, answer), format!("line 2: {words}"));
    }
}

/// A row that is not in the table is told by its number and made no words for.
#[test]
fn a_row_without_words() {
    assert_eq!(
        said("permit premise 8 reference 1", 200),
        "line 2: permit required, premise 8, reference 1: row 200, which has no words here"
    );
}

#[test]
fn what_no_words_can_say_is_shown_by_its_bytes() {
    let malformed = "its length is not 24, its kind, detail or a field is out of range, or an \
                     unused field is not zero";
    assert_eq!(
        said("raw 0b 00", 3),
        format!("line 2: raw 0b 00: {malformed}")
    );
    let day_mark_with_a_tail = format!("raw 0a{} 01", " 00".repeat(22));
    assert_eq!(
        said(&day_mark_with_a_tail, 3),
        format!("line 2: {day_mark_with_a_tail}: {malformed}")
    );
}

#[test]
fn flats_without_a_retailer_stand_before_the_last_line() {
    let empty = lined("calendar absent\n");
    let explained = explain(
        &empty,
        "p 3 0 9\np 4 5 6\np 18446744073709551615 0 0\nt 0 0\n",
    );
    let expected = "p 3 0 9\np 4 5 6\np 18446744073709551615 0 0\n\
                    premise 3: no retailer since day 9\n\
                    premise 18446744073709551615: no retailer since day 0\nt 0 0\n";
    assert_eq!(explained.as_deref(), Ok(expected));
    let all_supplied = explain(&empty, "p 4 5 6\np 5 4294967296 6\nt 0 0\n");
    let expected = "p 4 5 6\np 5 4294967296 6\nno flat is without a retailer\nt 0 0\n";
    assert_eq!(all_supplied.as_deref(), Ok(expected));
}

/// Of a tape that is too long the records past 65,520 bytes are not in the output.
#[test]
fn records_that_are_left_out_are_not_missed() {
    let text = lined("calendar absent\ndays 1..2732\n");
    assert_eq!(text.left_out(), [2, 2]);
    let lines: String = (1..=2_730).map(|place| format!("{place} 15 0\n")).collect();
    let explained = explain(&text, &format!("{lines}t 0 2730\n")).unwrap();
    assert_eq!(explained.matches("line 2: day mark, day ").count(), 2_730);
}

#[test]
fn what_is_not_the_whole_output_of_the_text_is_refused() {
    let not_whole = "it is not whole: its last line is no \"t\" line";
    for (played, wrong) in [
        ("", not_whole),
        ("1 0 0\n", not_whole),
        ("1 0 0\n2 0 0\nt 2 0", not_whole),
        ("1 0 0\nt 1 0\n", "it has 1 records, but the text 2"),
        (
            "1 0 0\n2 0 0\n3 0 0\nt 3 0\n",
            "line 3: record 3 is none of the text's",
        ),
        ("2 0 0\n", "line 1: record 2 comes after 0 of them"),
        (
            "1 0 0\n2 0 0\nt 2 0\nt 2 0\n",
            "line 4: a line stands after the \"t\" line",
        ),
        (
            "1 0 0\nhello\n",
            "line 2: \"hello\" is no line of the tape program",
        ),
        ("1 0 0\n\n", "line 2: \"\" is no line of the tape program"),
        (
            "1 x 0\n",
            "line 1: \"1 x 0\" is no line of the tape program",
        ),
        (
            "p 1 2\n",
            "line 1: \"p 1 2\" is no line of the tape program",
        ),
        (
            "n 1 2 3 4 5 x\n",
            "line 1: \"n 1 2 3 4 5 x\" is no line of the tape program",
        ),
    ] {
        let text = lined("calendar absent\nday 1\nday 2\n");
        assert_eq!(explain(&text, played), Err(wrong.to_string()), "{played}");
    }
}
