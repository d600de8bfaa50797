//! The command line.

/// What the command line asks for; `-` as a file is a standard stream.
#[derive(Debug, PartialEq, Eq)]
pub enum Command {
    Help,
    Encode {
        text: String,
        tape: String,
        calendar: Option<String>,
    },
    Decode {
        tape: String,
        calendar: Option<String>,
    },
    Explain {
        text: String,
        played: String,
    },
}

pub const HELP: &str = "\
tapetext: tapes of the stacking book as readable text

  tapetext encode FILE --tape OUT [--calendar OUT]   text to bytes
  tapetext decode --tape IN [--calendar IN]          bytes to text, on standard output
  tapetext explain FILE --played IN                  what the tape program printed, in words
  tapetext --help

A file named - is standard input or output. A text that says \"calendar absent\"
writes no calendar; bytes decoded without --calendar give such a text. Every bad
line is told on standard error with its number; then nothing is written, and the
exit status is 1. A tape of more than 65,520 bytes is written, with a warning: the
tape program leaves the records past them out.

explain repeats the lines that the tape program printed for a text: below each
refused record the line it came from and the row in words, and before the last
line the flats without a retailer. What is not the whole output for the text is
told on standard error, and the exit status is 1.

Example: the text of a tape. Everything after # is a comment.

  # Day 0 is a Monday; day 25 is a holiday.
  calendar 4096 days, week of kinds 0 0 0 0 0 1 2
  holiday 25
  create premise 7 day 0 retailer 101
  standard-switch premise 7 reference 1 retailer 202
  scheduled premise 7 reference 1 day 0
  read premise 7 reference 1 day 0
  day 1

The calendar stands before the records: kind 0 is a Retail Business Day, 1 another
day on which switches start, 2 a Sunday or ERCOT holiday. Its lines:

  calendar absent
  calendar 0 days
  calendar N days, all of kind K
  calendar N days, week of kinds K K K K K K K       day 0 has the first kind
  holiday D              holiday D..D                kind 2
  day-kind D K           day-kind D..D K             K from 0 to 255

The records, their named fields in any order:

  create                 premise N day N retailer N [window N]
                         retailer 0: de-energized; window 0: two business days
  retire                 premise N
  move-in                premise N reference N day N retailer N
  move-out               premise N reference N day N retailer N
  standard-switch        premise N reference N retailer N [day N]
  self-selected-switch   premise N reference N day N retailer N
  drop                   premise N reference N day N retailer N
  scheduled              premise N reference N day N
  permit                 premise N reference N
  unexecutable           premise N reference N
  read                   premise N reference N day N
  cancel                 premise N reference N retailer N
  reply accept           premise N reference N
  reply reject           premise N reference N
  day N                  the day mark
  days N..N              a day mark for each of them
  date-change            premise N reference N day N counter N
  establish              premise N retailer N        a service agreement
  delete                 premise N retailer N        a service agreement
  raw 0a ff ...          24 bytes in hexadecimal; the last record may be shorter
";

/// The command that the arguments say.
pub fn parse(arguments: &[String]) -> Result<Command, String> {
    let mut rest = arguments.iter().map(String::as_str);
    match rest.next() {
        Some("encode") => parse_encode(Parts::collect(rest)?),
        Some("decode") => parse_decode(Parts::collect(rest)?),
        Some("explain") => parse_explain(Parts::collect(rest)?),
        Some("--help" | "-h") => Ok(Command::Help),
        Some(other) => Err(format!("\"{other}\" is not encode, decode or explain")),
        None => Err("none of encode, decode and explain is given".to_string()),
    }
}

fn parse_encode(parts: Parts) -> Result<Command, String> {
    refuse("encode", "--played", parts.played.as_ref())?;
    let text = parts.file.ok_or("encode needs FILE")?;
    let tape = parts.tape.ok_or("encode needs --tape OUT")?;
    keep_apart(&tape, parts.calendar.as_deref())?;
    let outputs = [Some(&tape), parts.calendar.as_ref()];
    if text != "-" && outputs.contains(&Some(&text)) {
        return Err(format!("\"{text}\" would be written over"));
    }
    Ok(Command::Encode {
        text,
        tape,
        calendar: parts.calendar,
    })
}

fn parse_decode(parts: Parts) -> Result<Command, String> {
    refuse("decode", "--played", parts.played.as_ref())?;
    if let Some(file) = parts.file {
        return Err(format!("decode takes no FILE, but got \"{file}\""));
    }
    let tape = parts.tape.ok_or("decode needs --tape IN")?;
    keep_apart(&tape, parts.calendar.as_deref())?;
    Ok(Command::Decode {
        tape,
        calendar: parts.calendar,
    })
}

fn parse_explain(parts: Parts) -> Result<Command, String> {
    refuse("explain", "--tape", parts.tape.as_ref())?;
    refuse("explain", "--calendar", parts.calendar.as_ref())?;
    let text = parts.file.ok_or("explain needs FILE")?;
    let played = parts.played.ok_or("explain needs --played IN")?;
    if text == played {
        return Err(format!("text and output can't both be \"{text}\""));
    }
    Ok(Command::Explain { text, played })
}

/// A command takes no option of another.
fn refuse(command: &str, option: &str, value: Option<&String>) -> Result<(), String> {
    match value {
        Some(_) => Err(format!("{command} takes no {option}")),
        None => Ok(()),
    }
}

fn keep_apart(tape: &str, calendar: Option<&str>) -> Result<(), String> {
    match calendar {
        Some(calendar) if calendar == tape => {
            Err(format!("tape and calendar can't both be \"{tape}\""))
        }
        _ => Ok(()),
    }
}

/// The arguments after the first, each at most once.
#[derive(Default)]
struct Parts {
    file: Option<String>,
    tape: Option<String>,
    calendar: Option<String>,
    played: Option<String>,
}

impl Parts {
    fn collect<'a>(mut arguments: impl Iterator<Item = &'a str>) -> Result<Parts, String> {
        let mut parts = Parts::default();
        while let Some(argument) = arguments.next() {
            let (place, value) = match argument {
                "--tape" => (&mut parts.tape, arguments.next()),
                "--calendar" => (&mut parts.calendar, arguments.next()),
                "--played" => (&mut parts.played, arguments.next()),
                option if option.starts_with("--") => {
                    return Err(format!("there is no option {option}"))
                }
                file => (&mut parts.file, Some(file)),
            };
            let value = value.ok_or_else(|| format!("{argument} needs a file name"))?;
            if place.replace(value.to_string()).is_some() {
                return Err(format!("\"{argument}\" is one too many"));
            }
        }
        Ok(parts)
    }
}

#[cfg(test)]
mod tests {
    use super::*;

    fn parsed(line: &str) -> Result<Command, String> {
        let arguments: Vec<String> = line.split_whitespace().map(str::to_string).collect();
        parse(&arguments)
    }

    #[test]
    fn each_command_is_understood() {
        let encode = parsed("encode t.txt --tape t.bin --calendar calendar.bin");
        assert_eq!(
            encode,
            Ok(Command::Encode {
                text: "t.txt".into(),
                tape: "t.bin".into(),
                calendar: Some("calendar.bin".into()),
            })
        );
        let decode = parsed("decode --tape -");
        assert_eq!(
            decode,
            Ok(Command::Decode {
                tape: "-".into(),
                calendar: None,
            })
        );
        let explain = parsed("explain t.txt --played -");
        assert_eq!(
            explain,
            Ok(Command::Explain {
                text: "t.txt".into(),
                played: "-".into(),
            })
        );
        assert_eq!(parsed("--help"), Ok(Command::Help));
    }

    #[test]
    fn each_wrong_command_line_is_told() {
        for (line, wrong) in [
            ("", "none of encode, decode and explain is given"),
            ("play", "\"play\" is not encode, decode or explain"),
            ("explain --played t", "explain needs FILE"),
            ("explain t.txt", "explain needs --played IN"),
            (
                "explain - --played -",
                "text and output can't both be \"-\"",
            ),
            ("explain t --played u --tape v", "explain takes no --tape"),
            ("explain t --calendar c", "explain takes no --calendar"),
            ("encode t --tape u --played v", "encode takes no --played"),
            ("decode --tape u --played v", "decode takes no --played"),
            ("encode --tape t.bin", "encode needs FILE"),
            ("encode t.txt", "encode needs --tape OUT"),
            ("encode t.txt --tape", "--tape needs a file name"),
            ("encode t.txt u.txt --tape t", "\"u.txt\" is one too many"),
            (
                "encode t.txt --tape a --tape b",
                "\"--tape\" is one too many",
            ),
            ("encode t.txt --tap t.bin", "there is no option --tap"),
            ("decode", "decode needs --tape IN"),
            ("decode t.bin", "decode takes no FILE, but got \"t.bin\""),
            (
                "encode t.txt --tape - --calendar -",
                "tape and calendar can't both be \"-\"",
            ),
            (
                "decode --tape t.bin --calendar t.bin",
                "tape and calendar can't both be \"t.bin\"",
            ),
            ("encode t --tape t", "\"t\" would be written over"),
            (
                "encode t --tape - --calendar t",
                "\"t\" would be written over",
            ),
        ] {
            assert_eq!(parsed(line), Err(wrong.to_string()), "{line}");
        }
    }
}
