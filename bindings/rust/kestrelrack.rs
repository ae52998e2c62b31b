//! Safe Rust over `libkestrelrack.a`. Nothing compares the declarations here with `kestrelrack.h`, except for the tests.
//!
//!     rustc --edition=2024 --crate-type=rlib -L native=dist -l static=kestrelrack dist/kestrelrack.rs
//!     rustc --edition=2024 --extern kestrelrack=libkestrelrack.rlib -L native=dist dist/contains.rs
//!
//! Tables hash ids with keys that anybody knows, so whoever chooses the ids of the records can make a call slow. No answer changes.

use std::collections::HashSet;
use std::ffi::{OsStr, OsString, c_void};
use std::fmt;
use std::fs::{self, File};
use std::io::{self, Read};
use std::iter::FusedIterator;
use std::os::fd::AsRawFd;
use std::os::unix::ffi::{OsStrExt, OsStringExt};
use std::os::unix::fs::MetadataExt;
use std::path::{Path, PathBuf};

/// The numbers of answers, each explained in `kestrelrack.h`. Those from `READ` to `DISAGREES` are never answered.
pub mod number {
    // @NUMBERS@
}

#[repr(C)]
struct Answer {
    number: u32,
    id_length: u32,
    length: usize,
    place: usize,
    id: [u8; 32],
}

/// `struct kestrelrack_id`: the bytes of an id, and zeros behind one of 20 bytes.
#[repr(C)]
#[derive(Clone, Copy, Debug, PartialEq, Eq)]
pub struct RawId {
    pub bytes: [u8; 32],
}

/// `struct kestrelrack_commit`, as `kestrelrack.h` explains it.
#[repr(C)]
#[derive(Clone, Copy, Debug, PartialEq, Eq)]
pub struct RawCommit {
    pub id: RawId,
    pub time: i64,
    pub parents_at: usize,
    pub parents: usize,
    pub generation: u32,
    pub id_length: u16,
    pub known: u16,
}

/// `struct kestrelrack_file`.
#[repr(C)]
struct RawFile {
    name: *const u8,
    name_length: usize,
    bytes: *const u8,
    length: usize,
}

impl RawId {
    /// No id.
    pub const NONE: RawId = RawId { bytes: [0; 32] };
}

impl RawCommit {
    /// No commit.
    pub const NONE: RawCommit = RawCommit {
        id: RawId::NONE,
        time: 0,
        parents_at: 0,
        parents: 0,
        generation: 0,
        id_length: 0,
        known: 0,
    };
}

unsafe extern "C" {
    fn kestrelrack_run(
        words: *const u8,
        words_length: usize,
        records: *const u8,
        records_length: usize,
        room: *mut u8,
        room_length: usize,
    ) -> Answer;
    fn kestrelrack_commits(
        words: *const u8,
        words_length: usize,
        records: *const u8,
        records_length: usize,
        skip: u64,
        commits: *mut RawCommit,
        commits_length: usize,
        parents: *mut RawId,
        parents_length: usize,
    ) -> Answer;
    fn kestrelrack_resolve_in(
        words: *const u8,
        words_length: usize,
        files: *const RawFile,
        files_length: usize,
        room: *mut u8,
        room_length: usize,
    ) -> Answer;
    fn kestrelrack_run_in(
        words: *const u8,
        words_length: usize,
        files: *const RawFile,
        files_length: usize,
        room: *mut u8,
        room_length: usize,
    ) -> Answer;
    fn kestrelrack_commits_in(
        words: *const u8,
        words_length: usize,
        files: *const RawFile,
        files_length: usize,
        skip: u64,
        commits: *mut RawCommit,
        commits_length: usize,
        parents: *mut RawId,
        parents_length: usize,
    ) -> Answer;
    fn kestrelrack_text(number: u32, room: *mut u8, room_length: usize) -> usize;
    // Of the C library.
    fn mmap(at: *mut c_void, length: usize, protection: i32, flags: i32, file: i32, offset: i64) -> *mut c_void;
    fn munmap(at: *mut c_void, length: usize) -> i32;
}

/// Why no lines were written, or no more commits were given.
#[derive(Clone, Debug, PartialEq, Eq)]
pub enum Error {
    /// A word is empty, or holds a space or a newline.
    Word,
    /// The room is too small for so many bytes.
    Room(usize),
    /// A fault of the run: its number, one of [`number`], the number of the word, record, revision or line that it names, or 0, and the id
    /// that it names, or nothing.
    Fault { number: u32, place: usize, id: Vec<u8> },
}

impl Error {
    fn of_fault(answer: &Answer) -> Error {
        Error::Fault {
            number: answer.number,
            place: answer.place,
            id: answer.id[..answer.id_length as usize].to_vec(),
        }
    }
}

fn joined(words: &[&str]) -> Result<String, Error> {
    if words.iter().any(|word| word.is_empty() || word.contains([' ', '\n'])) {
        return Err(Error::Word);
    }
    Ok(words.join(" "))
}

/// Runs a command over records, and puts its lines at the front of the room. How many bytes these are.
///
/// # Errors
/// The room is as it was.
pub fn run_into(words: &[&str], records: &[u8], room: &mut [u8]) -> Result<usize, Error> {
    let words = joined(words)?;
    // SAFETY: each pointer and length are those of one slice, which is borrowed for the call, the room alone for writing.
    let answer = unsafe {
        kestrelrack_run(
            words.as_ptr(),
            words.len(),
            records.as_ptr(),
            records.len(),
            room.as_mut_ptr(),
            room.len(),
        )
    };
    match answer.number {
        number::WELL => Ok(answer.length),
        number::ROOM => Err(Error::Room(answer.length)),
        _ => Err(Error::of_fault(&answer)),
    }
}

/// Runs a command over records, and gives the lines that it writes. Where they are longer than the records, it runs twice.
///
/// # Errors
/// A word that isn't one, or the fault of the run.
pub fn run(words: &[&str], records: &[u8]) -> Result<Vec<u8>, Error> {
    let mut room = vec![0; records.len().max(64)];
    let length = match run_into(words, records, &mut room) {
        Err(Error::Room(length)) => {
            room = vec![0; length];
            run_into(words, records, &mut room)?
        }
        other => other?,
    };
    room.truncate(length);
    Ok(room)
}

/// How a batch ended.
#[derive(Clone, Debug, PartialEq, Eq)]
pub enum Ending {
    /// The list has no more commits.
    Ended,
    /// There is no room for more commits, and there may be more.
    More,
    /// Not one commit fits: the next one needs room for so many parents, or there is no room for a commit.
    Room(usize),
    /// The fault that comes behind these commits.
    Failed(Error),
}

/// Runs a list command over records, and puts its commits from the one number `skip` on at the front of `commits`, and the ids of their
/// parents at the front of `parents`, as many commits as both have room for. How many these are, and why there are no more.
///
/// # Errors
/// A word that isn't one. All else is an [`Ending`].
pub fn commits_into(
    words: &[&str],
    records: &[u8],
    skip: u64,
    commits: &mut [RawCommit],
    parents: &mut [RawId],
) -> Result<(usize, Ending), Error> {
    Ok(batch(&joined(words)?, Source::Records(records), skip, commits, parents))
}

/// Where the objects of a list are.
#[derive(Clone, Copy)]
enum Source<'a> {
    Records(&'a [u8]),
    Repository(&'a Repository),
}

fn batch(words: &str, source: Source<'_>, skip: u64, commits: &mut [RawCommit], parents: &mut [RawId]) -> (usize, Ending) {
    // SAFETY: each pointer and length are those of one slice, which is borrowed for the call, the last two alone for writing. The pointers
    // of the files are those of names and bytes that the repository keeps.
    let answer = match source {
        Source::Records(records) => unsafe {
            kestrelrack_commits(
                words.as_ptr(),
                words.len(),
                records.as_ptr(),
                records.len(),
                skip,
                commits.as_mut_ptr(),
                commits.len(),
                parents.as_mut_ptr(),
                parents.len(),
            )
        },
        Source::Repository(repository) => {
            let files = repository.raw();
            unsafe {
                kestrelrack_commits_in(
                    words.as_ptr(),
                    words.len(),
                    files.as_ptr(),
                    files.len(),
                    skip,
                    commits.as_mut_ptr(),
                    commits.len(),
                    parents.as_mut_ptr(),
                    parents.len(),
                )
            }
        }
    };
    let ending = match answer.number {
        number::WELL => Ending::Ended,
        number::MORE => Ending::More,
        number::ROOM => Ending::Room(answer.place),
        _ => Ending::Failed(Error::of_fault(&answer)),
    };
    (answer.length, ending)
}

/// A commit of a list.
#[derive(Clone, Debug, PartialEq, Eq)]
pub struct Commit {
    /// Its id, 20 or 32 bytes.
    pub id: Vec<u8>,
    /// Those of its parents, as it names them, repeats kept.
    pub parents: Vec<Vec<u8>>,
    /// Its committer's seconds since 1970-01-01 00:00 UTC, where they are known.
    pub time: Option<i64>,
    /// Its generation in a commit-graph, where it is known.
    pub generation: Option<u32>,
}

/// The commits of a list command, one at a time, and behind them the fault of the walk, if there is one.
///
/// They come in batches: of 8,192 commits, then of 32 times as many, and so on. Nothing is kept between two batches: each walks from the
/// start, so few large batches cost least.
pub struct Commits<'a> {
    words: String,
    source: Source<'a>,
    /// The most commits of a batch.
    most: usize,
    batch: Vec<RawCommit>,
    parents: Vec<RawId>,
    at: usize,
    length: usize,
    skip: u64,
    ending: Ending,
}

/// A record of a commit has no fewer bytes: a head, the line of a tree, and newlines.
const LEAST: usize = 98;
/// How many commits the first batch has, how many times as many each has as the one before, and how many the largest has.
const FIRST: usize = 1 << 13;
const GROWTH: usize = 32;
const MOST: usize = 1 << 20;

/// The commits of a list command over records.
///
/// # Errors
/// A word that isn't one.
pub fn commits<'a>(words: &[&str], records: &'a [u8]) -> Result<Commits<'a>, Error> {
    commits_by(words, records, FIRST)
}

/// The same, with so many commits in the first batch, one at least.
///
/// # Errors
/// A word that isn't one.
pub fn commits_by<'a>(words: &[&str], records: &'a [u8], first: usize) -> Result<Commits<'a>, Error> {
    Ok(Commits::of(joined(words)?, Source::Records(records), (records.len() / LEAST + 1).min(MOST), first))
}

impl<'a> Commits<'a> {
    fn of(words: String, source: Source<'a>, most: usize, first: usize) -> Commits<'a> {
        let size = first.clamp(1, most);
        Commits {
            words,
            source,
            most,
            batch: vec![RawCommit::NONE; size],
            parents: vec![RawId::NONE; 2 * size],
            at: 0,
            length: 0,
            skip: 0,
            ending: Ending::More,
        }
    }

    /// Makes the next call.
    fn fill(&mut self) {
        (self.length, self.ending) = batch(&self.words, self.source, self.skip, &mut self.batch, &mut self.parents);
        self.at = 0;
        self.skip += self.length as u64;
    }

    /// Has more room for the next call.
    fn grow(&mut self) {
        let size = self.batch.len().saturating_mul(GROWTH).min(self.most).max(self.batch.len());
        self.batch.resize(size, RawCommit::NONE);
        self.parents.resize(self.parents.len().max(2 * size), RawId::NONE);
    }

    fn commit(&self, raw: &RawCommit) -> Commit {
        let bytes = |id: &RawId| id.bytes[..raw.id_length as usize].to_vec();
        Commit {
            id: bytes(&raw.id),
            parents: self.parents[raw.parents_at..raw.parents_at + raw.parents].iter().map(bytes).collect(),
            time: (raw.known & 1 != 0).then_some(raw.time),
            generation: (raw.known & 2 != 0).then_some(raw.generation),
        }
    }
}

impl Iterator for Commits<'_> {
    type Item = Result<Commit, Error>;

    fn next(&mut self) -> Option<Self::Item> {
        while self.at == self.length {
            match std::mem::replace(&mut self.ending, Ending::Ended) {
                Ending::Ended => return None,
                Ending::Failed(error) => return Some(Err(error)),
                Ending::Room(needed) => {
                    self.parents.resize(needed.max(self.parents.len()), RawId::NONE);
                    self.fill();
                }
                Ending::More => {
                    if self.skip > 0 {
                        self.grow();
                    }
                    self.fill();
                }
            }
        }
        let commit = self.commit(&self.batch[self.at]);
        self.at += 1;
        Some(Ok(commit))
    }
}

impl FusedIterator for Commits<'_> {}

/// The bytes of a file.
enum Held {
    Read(Vec<u8>),
    Mapped { at: *mut c_void, length: usize },
}

impl Held {
    fn bytes(&self) -> (*const u8, usize) {
        match self {
            Held::Read(bytes) => (bytes.as_ptr(), bytes.len()),
            Held::Mapped { at, length } => (at.cast(), *length),
        }
    }
}

impl Drop for Held {
    fn drop(&mut self) {
        if let Held::Mapped { at, length } = self {
            // SAFETY: these are the place and the length of a mapping that nothing else has.
            unsafe { munmap(*at, *length) };
        }
    }
}

/// A repository: a folder that has a `.git` or is one, or the first above it that does. Its files are mapped or read when it is opened: what
/// is written later isn't seen. A mapped file may not be cut short by anybody, or the process ends by SIGBUS; git cuts none.
///
/// The files of alternates and of the folder that a linked worktree belongs to are given too.
pub struct Repository {
    files: Vec<(Vec<u8>, Held)>,
    names: HashSet<Vec<u8>>,
}

// SAFETY: the mappings are only read, and are the repository's own.
unsafe impl Send for Repository {}
// SAFETY: the same.
unsafe impl Sync for Repository {}

/// Files that are as long are mapped, shorter ones are read.
const MAPPED: u64 = 1 << 16;
/// How many folders of objects lead from the first to one that is given, at the most, as in git.
const LEVELS: u32 = 6;

impl Repository {
    /// Opens the repository that a folder is in.
    ///
    /// # Errors
    /// `NotFound` where there is none; a file or a folder can't be read, or there is neither, as a pipe.
    pub fn open(folder: impl AsRef<Path>) -> io::Result<Repository> {
        let git = git_folder(folder.as_ref())?;
        let common = match fs::read(git.join("commondir")) {
            Ok(text) => fs::canonicalize(git.join(first_line(&text)))?,
            Err(_) => git.clone(),
        };
        let mut repository = Repository { files: Vec::new(), names: HashSet::new() };
        repository.add("HEAD".into(), &git.join("HEAD"))?;
        if common != git {
            for name in ["refs/bisect", "refs/rewritten", "refs/worktree"] {
                repository.add_below(name.into(), &git.join(name))?;
            }
            repository.add("worktrees/main-worktree/HEAD".into(), &common.join("HEAD"))?;
            repository.add("worktrees/main-worktree/gitdir".into(), &common.join("HEAD"))?;
        }
        for name in ["config", "packed-refs", "shallow", "info/grafts"] {
            repository.add(name.into(), &common.join(name))?;
        }
        for name in ["refs", "worktrees"] {
            repository.add_below(name.into(), &common.join(name))?;
        }
        repository.add_objects(&common.join("objects"), 0)?;
        Ok(repository)
    }

    /// Adds a file, unless there is one of its name, or none at this path.
    fn add(&mut self, name: OsString, path: &Path) -> io::Result<()> {
        let name = name.into_vec();
        if self.names.contains(&name) {
            return Ok(());
        }
        match fs::metadata(path) {
            Ok(about) if about.is_file() => {}
            // Below worktrees are sockets of git's. Elsewhere a pipe may be in the place of a ref, which mustn't be left out.
            Ok(_) if name.starts_with(b"worktrees/") => return Ok(()),
            Ok(_) => return Err(io::Error::other(format!("{} is no file", path.display()))),
            Err(error) if matches!(error.kind(), io::ErrorKind::NotFound | io::ErrorKind::NotADirectory) => return Ok(()),
            Err(error) => return Err(error),
        }
        let mut file = File::open(path)?;
        let length = file.metadata()?.len();
        let held = if length < MAPPED {
            let mut bytes = Vec::new();
            file.read_to_end(&mut bytes)?;
            Held::Read(bytes)
        } else {
            let length = length as usize;
            // SAFETY: a private mapping of an open file, to be read (1), at a place that the system chooses.
            let at = unsafe { mmap(std::ptr::null_mut(), length, 1, 2, file.as_raw_fd(), 0) };
            if at as isize == -1 {
                return Err(io::Error::last_os_error());
            }
            Held::Mapped { at, length }
        };
        self.names.insert(name.clone());
        self.files.push((name, held));
        Ok(())
    }

    /// Adds a folder and what is below it.
    fn add_below(&mut self, name: OsString, folder: &Path) -> io::Result<()> {
        if folder.is_dir() { self.add_folder(name, folder, &mut HashSet::new()) } else { Ok(()) }
    }

    /// The same, where these folders have been met.
    fn add_folder(&mut self, name: OsString, folder: &Path, met: &mut HashSet<(u64, u64)>) -> io::Result<()> {
        let about = fs::metadata(folder)?;
        if !met.insert((about.dev(), about.ino())) {
            return Err(io::Error::other(format!("{} is met twice, by links", folder.display())));
        }
        let mut own = name.clone().into_vec();
        own.push(b'/');
        if self.names.insert(own.clone()) {
            self.files.push((own, Held::Read(Vec::new())));
        }
        for entry in fs::read_dir(folder)? {
            let path = entry?.path();
            let mut inner = name.clone();
            inner.push("/");
            inner.push(path.file_name().unwrap_or_default());
            if path.is_dir() {
                self.add_folder(inner, &path, met)?;
            } else {
                self.add(inner, &path)?;
            }
        }
        Ok(())
    }

    /// Adds a folder of objects, and those whose objects it borrows.
    fn add_objects(&mut self, folder: &Path, level: u32) -> io::Result<()> {
        // The folders that it names are given here, and not followed by the library.
        self.names.insert(b"objects/info/alternates".to_vec());
        self.add_below("objects".into(), folder)?;
        if level >= LEVELS {
            return Ok(());
        }
        if let Ok(text) = fs::read(folder.join("info/alternates")) {
            for line in text.split(|byte| *byte == b'\n') {
                if !line.is_empty() && !line.starts_with(b"#") {
                    self.add_objects(&folder.join(OsStr::from_bytes(line)), level + 1)?;
                }
            }
        }
        Ok(())
    }

    fn raw(&self) -> Vec<RawFile> {
        let raw = |(name, held): &(Vec<u8>, Held)| {
            let (bytes, length) = held.bytes();
            RawFile { name: name.as_ptr(), name_length: name.len(), bytes, length }
        };
        self.files.iter().map(raw).collect()
    }

    /// Makes a call that puts a text into a room, as large as it needs.
    fn text(
        &self,
        words: &str,
        call: unsafe extern "C" fn(*const u8, usize, *const RawFile, usize, *mut u8, usize) -> Answer,
    ) -> Result<Vec<u8>, Error> {
        let files = self.raw();
        let mut room = vec![0; 1 << 16];
        loop {
            // SAFETY: each pointer and length are those of one slice, which is borrowed for the call, the room alone for writing.
            let answer = unsafe {
                call(words.as_ptr(), words.len(), files.as_ptr(), files.len(), room.as_mut_ptr(), room.len())
            };
            match answer.number {
                number::WELL => {
                    room.truncate(answer.length);
                    return Ok(room);
                }
                number::ROOM => room = vec![0; answer.length],
                _ => return Err(Error::of_fault(&answer)),
            }
        }
    }

    /// The words with ids in place of the revisions, as a text with a newline between two words.
    ///
    /// # Errors
    /// A word that isn't one, or a fault: that of a revision that stands for nothing among them.
    pub fn resolve(&self, words: &[&str]) -> Result<String, Error> {
        let text = self.text(&joined(words)?, kestrelrack_resolve_in)?;
        Ok(String::from_utf8_lossy(&text).into_owned())
    }

    /// Runs a command, whose revisions are as the program takes them, and gives the lines that it writes.
    ///
    /// # Errors
    /// Those of [`resolve`](Repository::resolve), and the fault of the run.
    pub fn run(&self, words: &[&str]) -> Result<Vec<u8>, Error> {
        let resolved = self.resolve(words)?;
        let mut lines = resolved.split('\n');
        if lines.next() != Some("resolve") {
            return self.text(&resolved, kestrelrack_run_in);
        }
        Ok(lines.flat_map(|id| [id, "\n"]).collect::<String>().into_bytes())
    }

    /// The commits of a list command, whose revisions are resolved once.
    ///
    /// # Errors
    /// Those of [`resolve`](Repository::resolve).
    pub fn commits(&self, words: &[&str]) -> Result<Commits<'_>, Error> {
        self.commits_by(words, FIRST)
    }

    /// The same, with so many commits in the first batch, one at least.
    ///
    /// # Errors
    /// Those of [`resolve`](Repository::resolve).
    pub fn commits_by(&self, words: &[&str], first: usize) -> Result<Commits<'_>, Error> {
        Ok(Commits::of(self.resolve(words)?, Source::Repository(self), MOST, first))
    }
}

/// The path that a file of one line says.
fn first_line(text: &[u8]) -> &OsStr {
    OsStr::from_bytes(text.split(|byte| *byte == b'\n').next().unwrap_or_default())
}

/// The folder of the repository that a folder is in, as `.git` or that of a linked worktree.
fn git_folder(folder: &Path) -> io::Result<PathBuf> {
    let start = fs::canonicalize(folder)?;
    for place in start.ancestors() {
        let git = place.join(".git");
        if git.is_file() {
            let text = fs::read(&git)?;
            if let Some(path) = text.strip_prefix(b"gitdir: ") {
                return fs::canonicalize(place.join(first_line(path)));
            }
        }
        for found in [git, place.to_path_buf()] {
            if found.join("HEAD").is_file() && (found.join("objects").is_dir() || found.join("commondir").is_file()) {
                return Ok(found);
            }
        }
    }
    Err(io::Error::new(io::ErrorKind::NotFound, "no repository is here"))
}

impl fmt::Display for Error {
    fn fmt(&self, f: &mut fmt::Formatter<'_>) -> fmt::Result {
        match self {
            Error::Word => f.write_str("empty word, or space in a word"),
            Error::Room(length) => write!(f, "{} for {length} bytes", text_of(number::ROOM)),
            Error::Fault { number, place, id } => {
                f.write_str(&text_of(*number))?;
                if *place != 0 {
                    write!(f, " {place}")?;
                }
                for (i, byte) in id.iter().enumerate() {
                    write!(f, "{}{byte:02x}", if i == 0 { " " } else { "" })?;
                }
                Ok(())
            }
        }
    }
}

impl std::error::Error for Error {}

fn text_of(number: u32) -> String {
    let mut room = [0; 64];
    // SAFETY: the pointer and the length are those of `room`.
    let length = unsafe { kestrelrack_text(number, room.as_mut_ptr(), room.len()) };
    String::from_utf8_lossy(room.get(..length).unwrap_or_default()).into_owned()
}
