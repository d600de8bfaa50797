//! One record in words, each way.

use crate::form::{Field, Fields, Form, FORMS, PREMISE, RECORD_BYTES, REFERENCE};
use crate::line::{number, words};
use crate::problem::Fault;
use crate::raw;

/// The word for several day marks, which are several records of one line.
pub(crate) const DAYS: &str = "days";

/// The bytes of the record that a line's words say.
pub(crate) fn parse(words: &[&str]) -> Result<Vec<u8>, Fault> {
    if words.first() == Some(&raw::RAW) {
        return raw::parse(&words[1..]);
    }
    let form = FORMS
        .iter()
        .find(|form| words.starts_with(form.words))
        .ok_or_else(|| unknown(words))?;
    let rest = &words[form.words.len()..];
    let mut record = vec![0; RECORD_BYTES];
    record[0] = form.kind;
    record[1] = form.detail.unwrap_or(0);
    match form.fields {
        Fields::Bare(field) => put_bare(form, field, rest, &mut record)?,
        Fields::Named { required, optional } => {
            put_named(form, required, optional, rest, &mut record)?;
        }
    }
    Ok(record)
}

/// The line of a record: in words exactly where they give its bytes back.
pub(crate) fn print(record: &[u8]) -> String {
    in_words(record)
        .filter(|line| parse(&words(line)).is_ok_and(|said| said == record))
        .unwrap_or_else(|| raw::print(record))
}

/// A record as one speaks of it: what it is called, which premise and order it
/// names or which day it marks, and those fields that are asked for. What no
/// words can say is shown byte by byte.
pub(crate) fn describe(record: &[u8], asked: &[Field]) -> String {
    let line = print(record);
    let Some(form) = form_of(record).filter(|_| !line.starts_with(raw::RAW)) else {
        return line;
    };
    let (naming, fields): (&[Field], Vec<Field>) = match form.fields {
        Fields::Bare(field) => (&[field], vec![field]),
        Fields::Named { required, optional } => {
            let given = optional.iter().filter(|field| field.get(record) != 0);
            let fields = required.iter().chain(given).copied();
            (&[PREMISE, REFERENCE], fields.collect())
        }
    };
    let mut said = form.name.to_string();
    for field in fields {
        if naming.contains(&field) || asked.contains(&field) {
            said.push_str(&format!(", {} {}", field.name, field.get(record)));
        }
    }
    said
}

/// The form that a record's kind and detail say, if it is of full length.
fn form_of(record: &[u8]) -> Option<&'static Form> {
    FORMS
        .iter()
        .find(|form| record.len() == RECORD_BYTES && form.is_for(record[0], record[1]))
}

/// What the fields of a record say in words, whatever stands in its other bytes.
fn in_words(record: &[u8]) -> Option<String> {
    let form = form_of(record)?;
    let mut said = form.words.join(" ");
    match form.fields {
        Fields::Bare(field) => said.push_str(&format!(" {}", field.get(record))),
        Fields::Named { required, optional } => {
            let given = optional.iter().filter(|field| field.get(record) != 0);
            for field in required.iter().chain(given) {
                said.push_str(&format!(" {} {}", field.name, field.get(record)));
            }
        }
    }
    Some(said)
}

fn put_bare(form: &Form, field: Field, rest: &[&str], record: &mut [u8]) -> Result<(), Fault> {
    let [word] = rest else {
        return Err(Fault::new(
            format!("{} has {} words after it", form.words.join(" "), rest.len()),
            usage(form),
        ));
    };
    field.put(record, number(field.name, word, field.most())?);
    Ok(())
}

fn put_named(
    form: &Form,
    required: &[Field],
    optional: &[Field],
    rest: &[&str],
    record: &mut [u8],
) -> Result<(), Fault> {
    let wrong = |what: String| Fault::new(what, usage(form));
    let mut given: Vec<Field> = Vec::new();
    for pair in rest.chunks(2) {
        let mut known = required.iter().chain(optional);
        let Some(&field) = known.find(|field| field.name == pair[0]) else {
            let what = format!("{} has no \"{}\"", form.words.join(" "), pair[0]);
            return Err(wrong(what));
        };
        if given.contains(&field) {
            return Err(wrong(format!("{} is given twice", field.name)));
        }
        let Some(word) = pair.get(1) else {
            return Err(wrong(format!("{} has no number", field.name)));
        };
        field.put(record, number(field.name, word, field.most())?);
        given.push(field);
    }
    match required.iter().find(|field| !given.contains(field)) {
        Some(missing) => Err(wrong(format!("{} is missing", missing.name))),
        None => Ok(()),
    }
}

/// How a form is written.
fn usage(form: &Form) -> String {
    let words = form.words.join(" ");
    let (bare, required, optional): (_, &[Field], &[Field]) = match form.fields {
        Fields::Bare(_) => (" N", &[], &[]),
        Fields::Named { required, optional } => ("", required, optional),
    };
    let required: String = required.iter().map(|f| format!(" {} N", f.name)).collect();
    let optional: String = optional
        .iter()
        .map(|f| format!(" [{} N]", f.name))
        .collect();
    format!("\"{words}{bare}{required}{optional}\"")
}

fn unknown(words: &[&str]) -> Fault {
    // Where the first word begins a form, it is the second that is wrong.
    let second = FORMS
        .iter()
        .filter(|form| form.words.len() > 1 && words.first() == form.words.first())
        .map(|form| form.words[1]);
    let second: Vec<&str> = second.collect();
    if !second.is_empty() {
        let after = words.get(1).copied().unwrap_or("nothing");
        return Fault::new(
            format!("\"{}\" is followed by \"{after}\"", words[0]),
            one_of(&second),
        );
    }
    let mut known: Vec<&str> = FORMS.iter().map(|form| form.words[0]).collect();
    known.dedup();
    known.extend([DAYS, raw::RAW]);
    Fault::new(
        format!("\"{}\" is no record", words.join(" ")),
        one_of(&known),
    )
}

fn one_of(words: &[&str]) -> String {
    format!("one of: {}", words.join(", "))
}
