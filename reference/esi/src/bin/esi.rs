//! Looks texts up in a directory of ESI IDs.

#![forbid(unsafe_code)]

use esi::directory::{Directory, DIRECTORY_BYTES, UNSOUND};
use stacking::program::{self, read_up_to};
use std::ffi::OsString;
use std::fs::File;
use std::os::unix::ffi::OsStrExt;
use std::process::ExitCode;

fn main() -> ExitCode {
    program::finish("esi", run(std::env::args_os().skip(1).collect()))
}

fn run(arguments: Vec<OsString>) -> Result<(), String> {
    let Some((path, texts)) = arguments.split_first() else {
        return Err(
            "give a directory of ESI IDs and the texts to look up: esi DIRECTORY TEXT.."
                .to_string(),
        );
    };
    // a byte more than it may have shows that it is too long
    let bytes = File::open(path).and_then(|file| read_up_to(file, DIRECTORY_BYTES + 1));
    let bytes = bytes.map_err(|error| {
        format!(
            "{}: {error}; give a directory that can be read",
            path.to_string_lossy()
        )
    })?;
    if bytes.len() > DIRECTORY_BYTES {
        return Err(format!("the directory has more than {DIRECTORY_BYTES} bytes; give one of at most 2,730 records"));
    }
    let directory = Directory::read(&bytes);
    program::write_out(|out| {
        for text in texts {
            let (answer, premise) = match &directory {
                Ok(directory) => directory.look_up(text.as_bytes()),
                Err(_) => (UNSOUND, 0),
            };
            writeln!(out, "{answer} {premise}")?;
        }
        Ok(())
    })
}
