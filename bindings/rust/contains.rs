//! Whether a release contains a fix: `contains RELEASE FIX`, two ids, with the records of what they reach on standard input, as for
//! `contains.c`. The status is 0 where it does, 1 where it doesn't, and 2 where that isn't known.

use std::env;
use std::error::Error;
use std::io::{self, Read};
use std::process::ExitCode;

fn main() -> ExitCode {
    match answer() {
        Ok(true) => {
            println!("contains");
            ExitCode::SUCCESS
        }
        Ok(false) => {
            println!("doesn't contain");
            ExitCode::from(1)
        }
        Err(error) => {
            eprintln!("contains: {error}");
            ExitCode::from(2)
        }
    }
}

fn answer() -> Result<bool, Box<dyn Error>> {
    let ids: Vec<String> = env::args().skip(1).collect();
    let [release, fix] = ids.as_slice() else {
        return Err("two ids are needed, of the release and of the fix".into());
    };
    let mut records = Vec::new();
    io::stdin().read_to_end(&mut records)?;
    // Of the ids behind the first those are written that the first reaches: here the fix, or nothing.
    let line = kestrelrack::run(&["contains", release, fix], &records)?;
    Ok(!line.is_empty())
}
