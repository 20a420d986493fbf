//! A second firmware-update board and packer, written from the rules alone, to make the expected output of
//! tests.

mod aes;
mod answers;
mod bench;
mod board;
mod cases;
mod ccm;
mod cipher;
mod crc;
mod gcm;
mod hex;
mod listing;
mod packet;
mod random;
mod refusal;

use std::io::{self, BufWriter, Write};
use std::process::ExitCode;

const USAGE: &str =
    "usage: peer bench [--places] < LISTING | peer listing | peer topics | peer cases | peer answers < CASES";

fn main() -> ExitCode {
    let words: Vec<String> = std::env::args().skip(1).collect();
    let words: Vec<&str> = words.iter().map(String::as_str).collect();
    let input = io::stdin().lock();
    let mut output = BufWriter::new(io::stdout().lock());
    let result = match words[..] {
        ["bench"] => bench::run(input, output, false),
        ["bench", "--places"] => bench::run(input, output, true),
        ["listing"] => output.write_all(&listing::write().text).and_then(|()| output.flush()),
        ["topics"] => topics(output),
        ["cases"] => output.write_all(cases::write().as_bytes()).and_then(|()| output.flush()),
        ["answers"] => answers::run(input, output),
        _ => {
            eprintln!("{USAGE}");
            return ExitCode::FAILURE;
        }
    };
    match result {
        Ok(()) => ExitCode::SUCCESS,
        Err(error) => {
            eprintln!("peer: {error}");
            ExitCode::FAILURE
        }
    }
}

/// The first line of each topic of the listing, to find one's way in it.
fn topics(mut output: impl Write) -> io::Result<()> {
    for (line, name) in listing::write().topics {
        writeln!(output, "{line:6} {name}")?;
    }
    output.flush()
}
