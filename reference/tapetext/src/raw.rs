//! Records as they are, byte by byte: the malformed ones.

use crate::form::RECORD_BYTES;
use crate::problem::Fault;

/// The word that stands before the bytes.
pub(crate) const RAW: &str = "raw";

/// The bytes of a raw record; `pairs` are the words after `raw`.
pub(crate) fn parse(pairs: &[&str]) -> Result<Vec<u8>, Fault> {
    if pairs.is_empty() || pairs.len() > RECORD_BYTES {
        return Err(Fault::new(
            format!("raw has {} bytes", pairs.len()),
            format!("1 to {RECORD_BYTES} bytes of two hexadecimal digits each"),
        ));
    }
    pairs.iter().map(|pair| byte(pair)).collect()
}

fn byte(pair: &str) -> Result<u8, Fault> {
    let digits = pair.len() == 2 && pair.bytes().all(|digit| digit.is_ascii_hexdigit());
    u8::from_str_radix(pair, 16)
        .ok()
        .filter(|_| digits)
        .ok_or_else(|| {
            Fault::new(
                format!("\"{pair}\" is not a byte"),
                "two hexadecimal digits, such as 0a",
            )
        })
}

/// The line of a raw record.
pub(crate) fn print(record: &[u8]) -> String {
    let pairs: Vec<String> = record.iter().map(|byte| format!("{byte:02x}")).collect();
    format!("{RAW} {}", pairs.join(" "))
}
