//! Writes random directories of ESI IDs and texts to look up.

#![forbid(unsafe_code)]

use esi::entry::Entry;
use esi::sample::{entries, sample};
use stacking::program::{self, Arguments};
use stacking::random::Random;
use std::process::ExitCode;

const HELP: &str = "\
randomesi: writes a random directory of ESI IDs, and texts to look up in it

usage: randomesi --seed S --directory-out FILE > TEXTS
       randomesi --seed S --records N --directory-out FILE > TEXTS

Each text ends with a byte 0, so that it can have any other. Of 32 seeds in a
row 8 have a sound directory of 0 to 300 records, and 24 one that breaks one
rule, each of the 8 at the first record, a middle one and the last. With
--records the directory is sound and has so many, and the texts are those of
its records, in another order.
";

fn main() -> ExitCode {
    program::finish("randomesi", run(Arguments::of_program()))
}

fn run(mut arguments: Arguments) -> Result<(), String> {
    if arguments.flag("--help") {
        return program::print(HELP);
    }
    let seed = arguments.needed_number("--seed")?;
    let path = arguments.needed("--directory-out")?;
    let records = arguments.number("--records")?;
    arguments.end()?;
    let (directory, texts) = match records {
        None => {
            let sample = sample(seed);
            (sample.directory, sample.texts)
        }
        Some(count) => sound(seed, count as usize),
    };
    program::write_file(&path, &directory)?;
    program::write_out(|out| {
        for text in texts {
            out.write_all(&text)?;
            out.write_all(&[0])?;
        }
        Ok(())
    })
}

/// A sound directory and the texts of its records, in another order.
fn sound(seed: u64, count: usize) -> (Vec<u8>, Vec<Vec<u8>>) {
    let mut random = Random::new(seed);
    let entries = entries(&mut random, count);
    let mut texts: Vec<Vec<u8>> = entries
        .iter()
        .map(|entry| esi::entry::text_of(&entry.id).into_bytes())
        .collect();
    random.shuffle(&mut texts);
    (entries.iter().flat_map(Entry::bytes).collect(), texts)
}
