//! The caller in Rust of tests/bindings: makes the calls that standard input says, and writes what each answered and left in the room.

use kestrelrack::Error;
use std::io::{self, Read, Write};

fn main() -> io::Result<()> {
    let mut input = Vec::new();
    io::stdin().read_to_end(&mut input)?;
    let mut output = io::BufWriter::new(io::stdout().lock());
    let mut rest = input.as_slice();
    while !rest.is_empty() {
        let words_length = take_number(&mut rest);
        let records_length = take_number(&mut rest);
        let mut room = vec![0xa5; take_number(&mut rest)];
        let _refuses = take_number(&mut rest);
        let words = std::str::from_utf8(take(&mut rest, words_length)).expect("words are text");
        let words: Vec<&str> = words.split(' ').collect();
        let records = take(&mut rest, records_length);
        let (number, length, place, id) = match kestrelrack::run_into(&words, records, &mut room) {
            Ok(length) => (0, length, 0, vec![]),
            Err(Error::Room(length)) => (1, length, 0, vec![]),
            Err(Error::Fault { number, place, id }) => (number, 0, place, id),
            Err(Error::Word) => panic!("a word of a case is none"),
        };
        let id: String = id.iter().map(|byte| format!("{byte:02x}")).collect();
        writeln!(output, "{number} {length} {place} {id}")?;
        output.write_all(&room)?;
    }
    Ok(())
}

fn take<'a>(rest: &mut &'a [u8], length: usize) -> &'a [u8] {
    let (front, behind) = rest.split_at(length);
    *rest = behind;
    front
}

fn take_number(rest: &mut &[u8]) -> usize {
    u64::from_le_bytes(take(rest, 8).try_into().expect("eight bytes")) as usize
}
