//! The caller in Rust of tests/batches: makes the calls that standard input says, and writes what each answered and left in its slices.
//! Where a case asks for it, it also goes over the list by batches of several sizes, which have to be the same. Then it writes the layout
//! of the structs.

use kestrelrack::{Commit, Ending, Error, RawCommit, RawId, commits_by, commits_into};
use std::io::{self, Read, Write};
use std::mem::{offset_of, size_of};

fn main() -> io::Result<()> {
    let mut input = Vec::new();
    io::stdin().read_to_end(&mut input)?;
    let mut output = io::BufWriter::new(io::stdout().lock());
    let mut rest = input.as_slice();
    while !rest.is_empty() {
        let head: Vec<usize> = (0..6).map(|_| take_number(&mut rest)).collect();
        let words = std::str::from_utf8(take(&mut rest, head[0])).expect("words are text");
        let words: Vec<&str> = words.split(' ').collect();
        let records = take(&mut rest, head[1]);
        let id = RawId { bytes: [0xa5; 32] };
        let commit = RawCommit {
            id,
            time: i64::from_ne_bytes([0xa5; 8]),
            parents_at: usize::from_ne_bytes([0xa5; 8]),
            parents: usize::from_ne_bytes([0xa5; 8]),
            generation: 0xa5a5_a5a5,
            id_length: 0xa5a5,
            known: 0xa5a5,
        };
        let (mut commits, mut parents) = (vec![commit; head[3]], vec![id; head[4]]);
        let (length, ending) = commits_into(&words, records, head[2] as u64, &mut commits, &mut parents).expect("words are words");
        let (number, place, id) = match ending {
            Ending::Ended => (0, 0, vec![]),
            Ending::More => (17, 0, vec![]),
            Ending::Room(needed) => (1, needed, vec![]),
            Ending::Failed(Error::Fault { number, place, id }) => (number, place, id),
            Ending::Failed(error) => panic!("{error}"),
        };
        writeln!(output, "{number} {length} {place} {}", hex(&id))?;
        for commit in &commits {
            output.write_all(&commit.id.bytes)?;
            output.write_all(&commit.time.to_ne_bytes())?;
            output.write_all(&commit.parents_at.to_ne_bytes())?;
            output.write_all(&commit.parents.to_ne_bytes())?;
            output.write_all(&commit.generation.to_ne_bytes())?;
            output.write_all(&commit.id_length.to_ne_bytes())?;
            output.write_all(&commit.known.to_ne_bytes())?;
        }
        for id in &parents {
            output.write_all(&id.bytes)?;
        }
        if head[5] != 0 {
            let whole: Vec<Result<Commit, Error>> = commits_by(&words, records, usize::MAX).expect("words are words").collect();
            for first in [0, 1, 2, 7, 1000] {
                let mut list = commits_by(&words, records, first).expect("words are words");
                let those: Vec<Result<Commit, Error>> = list.by_ref().collect();
                assert!(those == whole && list.next().is_none(), "batches that begin with {first} are another list");
            }
            write_list(&mut output, &whole)?;
        }
    }
    for (name, size) in [("id", size_of::<RawId>()), ("commit", size_of::<RawCommit>())] {
        writeln!(output, "{name} {size}")?;
    }
    macro_rules! fields {
        ($($field:ident)*) => { $(writeln!(output, "commit.{} {}", stringify!($field), offset_of!(RawCommit, $field))?;)* };
    }
    fields!(id time parents_at parents generation id_length known);
    Ok(())
}

fn write_list(output: &mut impl Write, list: &[Result<Commit, Error>]) -> io::Result<()> {
    for item in list {
        match item {
            Ok(commit) => {
                let time = commit.time.map_or("-".into(), |time| time.to_string());
                let parents: String = commit.parents.iter().map(|id| format!(" {}", hex(id))).collect();
                writeln!(output, "{} {time}{parents}", hex(&commit.id))?;
            }
            Err(Error::Fault { number, place, id }) => writeln!(output, "fault {number} {place} {}", hex(id))?,
            Err(error) => panic!("{error}"),
        }
    }
    writeln!(output, "end")
}

fn hex(bytes: &[u8]) -> String {
    bytes.iter().map(|byte| format!("{byte:02x}")).collect()
}

fn take<'a>(rest: &mut &'a [u8], length: usize) -> &'a [u8] {
    let (front, behind) = rest.split_at(length);
    *rest = behind;
    front
}

fn take_number(rest: &mut &[u8]) -> usize {
    u64::from_le_bytes(take(rest, 8).try_into().expect("eight bytes")) as usize
}
