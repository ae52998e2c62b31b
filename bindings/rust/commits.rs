//! The first commits that an id reaches, newest first: `commits ID NUMBER`, with the records of what it reaches on standard input, as for
//! `commits.c`. A line for each has its id, its committer's seconds and the number of its parents. The status is 2 at a fault.

use std::env;
use std::error::Error;
use std::io::{self, Read};
use std::process::ExitCode;

fn main() -> ExitCode {
    match write_commits() {
        Ok(()) => ExitCode::SUCCESS,
        Err(error) => {
            eprintln!("commits: {error}");
            ExitCode::from(2)
        }
    }
}

fn write_commits() -> Result<(), Box<dyn Error>> {
    let words: Vec<String> = env::args().skip(1).collect();
    let [tip, number] = words.as_slice() else {
        return Err("an id and a number are needed".into());
    };
    let mut records = Vec::new();
    io::stdin().read_to_end(&mut records)?;
    // Only as many batches are walked as the commits that are taken need.
    for commit in kestrelrack::commits(&["newest", tip], &records)?.take(number.parse()?) {
        let commit = commit?;
        let id: String = commit.id.iter().map(|byte| format!("{byte:02x}")).collect();
        println!("{id} {} {}", commit.time.unwrap_or(0), commit.parents.len());
    }
    Ok(())
}
