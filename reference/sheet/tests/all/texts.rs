//! The text of a sheet.

use sheet::row::{read_rows, Row};
use sheet::text::{decode, encode};

#[test]
fn rows_go_there_and_back() {
    let text = "12 1000 1999\n7 0 18446744073709551615 64 4294967295\n0 9 8\n";
    let bytes = encode(text).expect("three rows");
    assert_eq!(bytes.len(), 3 * 28);
    assert_eq!(decode(&bytes).as_deref(), Ok(text));
    assert_eq!(bytes[..12], [12, 0, 0, 0, 0xe8, 3, 0, 0, 0, 0, 0, 0]);
    let first = Row {
        block: 12,
        first: 1000,
        last: 1999,
        ..Row::default()
    };
    assert_eq!(read_rows(&bytes).expect("three rows")[0], first);
}

#[test]
fn comments_and_empty_lines_count_for_nothing() {
    assert_eq!(encode("\n# nothing\n  1 2 3  # a row\n"), encode("1 2 3"));
    assert_eq!(encode(""), Ok(vec![]));
}

#[test]
fn a_bad_line_is_told_with_its_number() {
    for text in [
        "1 2 3\n1 2",
        "1 2 3\n1 2 3 4",
        "1 2 3\n4294967296 2 3",
        "1 2 3\n1 x 3",
        "1 2 3\n1 -2 3",
    ] {
        let wrong = encode(text).expect_err("no row");
        assert!(wrong.starts_with("line 2: "), "{wrong}");
    }
    let many = "1 2 3\n".repeat(65);
    assert!(encode(&many).expect_err("too many").contains("at most 64"));
}

#[test]
fn bytes_that_are_no_rows_are_refused() {
    assert!(decode(&[0; 27]).is_err());
    assert!(decode(&[0; 28 * 65]).is_err());
    assert!(decode(&[0; 28 * 64]).is_ok());
}
