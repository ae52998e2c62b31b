//! The first commits of a repository, newest first: `history [REPOSITORY [NUMBER [REVISION..]]]`. A line for each has its id, its
//! committer's seconds and the number of its parents. Without a number they are ten, and without a revision those that HEAD reaches. The
//! status is 2 at a fault.

use kestrelrack::Repository;
use std::env;
use std::error::Error;
use std::process::ExitCode;

fn main() -> ExitCode {
    match write_commits() {
        Ok(()) => ExitCode::SUCCESS,
        Err(error) => {
            eprintln!("history: {error}");
            ExitCode::from(2)
        }
    }
}

fn write_commits() -> Result<(), Box<dyn Error>> {
    let words: Vec<String> = env::args().skip(1).collect();
    let repository = Repository::open(words.first().map_or(".", String::as_str))?;
    let number: usize = words.get(1).map_or(Ok(10), |number| number.parse())?;
    let mut asked = vec!["newest"];
    asked.extend(words.iter().skip(2).map(String::as_str));
    if asked.len() == 1 {
        asked.push("HEAD");
    }
    // Only as many commits are read as the batch needs.
    for commit in repository.commits_by(&asked, number)?.take(number) {
        let commit = commit?;
        let id: String = commit.id.iter().map(|byte| format!("{byte:02x}")).collect();
        println!("{id} {} {}", commit.time.unwrap_or(0), commit.parents.len());
    }
    Ok(())
}
