"""Kestrelrack's commands over the objects of a Git repository, by `libkestrelrack.so`, which lies in this file's folder.

    lines = kestrelrack.run(["newest", tip], records)
    for commit in kestrelrack.commits(["newest", tip], records):
        print(commit.id.hex(), commit.time, len(commit.parents))

    for commit in kestrelrack.Repository(".").commits(["newest", "main", "^v1.0"]):
        print(commit.id.hex(), commit.time, len(commit.parents))

Tables hash ids with keys that anybody knows, so whoever chooses the ids of the records can make a call slow. No answer changes.
"""

import ctypes
import enum
import mmap
import os
import pathlib
import stat
import struct
import typing


class Number(enum.IntEnum):
    """The numbers of answers, each explained in `kestrelrack.h`. Those from READ to DISAGREES are never answered."""

    # @NUMBERS@


class Answer(ctypes.Structure):
    """`struct kestrelrack_answer` of `kestrelrack.h`."""

    _fields_ = [
        ("number", ctypes.c_uint32),
        ("id_length", ctypes.c_uint32),
        ("length", ctypes.c_size_t),
        ("place", ctypes.c_size_t),
        ("id", ctypes.c_uint8 * 32),
    ]


class RawId(ctypes.Structure):
    """`struct kestrelrack_id`."""

    _fields_ = [("bytes", ctypes.c_uint8 * 32)]


class RawCommit(ctypes.Structure):
    """`struct kestrelrack_commit`."""

    _fields_ = [
        ("id", RawId),
        ("time", ctypes.c_int64),
        ("parents_at", ctypes.c_size_t),
        ("parents", ctypes.c_size_t),
        ("generation", ctypes.c_uint32),
        ("id_length", ctypes.c_uint16),
        ("known", ctypes.c_uint16),
    ]


class RawFile(ctypes.Structure):
    """`struct kestrelrack_file`."""

    _fields_ = [
        ("name", ctypes.c_void_p),
        ("name_length", ctypes.c_size_t),
        ("bytes", ctypes.c_void_p),
        ("length", ctypes.c_size_t),
    ]


class Fault(Exception):
    """Why a run failed. `number` is one of Number. `place` is the number of the word, record, revision or line that the fault names, or 0.
    `id` is the id that it names, as bytes, or empty. For ROOM `length` is the number of bytes that are needed."""

    def __init__(self, answer):
        self.number, self.place, self.length = answer.number, answer.place, answer.length
        self.id = bytes(answer.id[: answer.id_length])
        if self.number in Number._value2member_map_:
            self.number = Number(self.number)
        named = [str(self.place)] * (self.place != 0) + [self.id.hex()] * (self.id != b"")
        super().__init__(" ".join([text_of(self.number), *named]))


class Commit(typing.NamedTuple):
    """A commit of a list: its id and those of its parents, as bytes; its committer's seconds and its generation, if they are known."""

    id: bytes
    parents: typing.Tuple[bytes, ...]
    time: typing.Optional[int]
    generation: typing.Optional[int]


_library = ctypes.CDLL(str(pathlib.Path(__file__).resolve().with_name("libkestrelrack.so")))
_slice = [ctypes.c_void_p, ctypes.c_size_t]
_run, _commits, _text = _library.kestrelrack_run, _library.kestrelrack_commits, _library.kestrelrack_text
_run.argtypes, _run.restype = [*_slice, *_slice, *_slice], Answer
_commits.argtypes, _commits.restype = [*_slice, *_slice, ctypes.c_uint64, *_slice, *_slice], Answer
_text.argtypes, _text.restype = [ctypes.c_uint32, *_slice], ctypes.c_size_t
_run_in, _commits_in, _resolve_in = _library.kestrelrack_run_in, _library.kestrelrack_commits_in, _library.kestrelrack_resolve_in
_run_in.argtypes, _run_in.restype = [*_slice, *_slice, *_slice], Answer
_resolve_in.argtypes, _resolve_in.restype = [*_slice, *_slice, *_slice], Answer
_commits_in.argtypes, _commits_in.restype = [*_slice, *_slice, ctypes.c_uint64, *_slice, *_slice], Answer
_commit = struct.Struct("@32sqNNIHH")
# A record of a commit has no fewer bytes: a head, the line of a tree, and newlines.
_LEAST = 98
# How many commits the first batch has, how many times as many each has as the one before, and how many the largest has. Since each call
# walks from the start, few large batches cost least.
_FIRST, _GROWTH, _MOST = 1 << 13, 32, 1 << 20


def text_of(number):
    """The text of a number of `kestrelrack.h`."""
    room = ctypes.create_string_buffer(64)
    _text(number, room, 63)
    return room.value.decode()


def _joined(words):
    """The words, an iterable of them, as one text."""
    if isinstance(words, (str, bytes)):
        raise TypeError("words are a list of them, not one text")
    words = list(words)
    if any(not word or " " in word or "\n" in word for word in words):
        raise ValueError("empty word, or space in a word")
    return " ".join(words).encode()


def _lent(records):
    """Bytes for a call. They are copied only if they are read-only and aren't `bytes`."""
    if isinstance(records, bytes):
        return records, len(records)
    view = memoryview(records).cast("B")
    if view.readonly or not len(view):
        return bytes(view), len(view)
    return (ctypes.c_char * len(view)).from_buffer(view), len(view)


def run_into(words, records, room):
    """Runs a command over records, which are bytes, and puts its lines at the front of the room, a ctypes array of bytes. Gives the length of
    the lines. At a Fault the room is as it was."""
    text = _joined(words)
    answer = _run(text, len(text), *_lent(records), room, ctypes.sizeof(room))
    if answer.number != Number.WELL:
        raise Fault(answer)
    return answer.length


def run(words, records):
    """Runs a command over records, and gives the lines that it writes, as bytes. It runs twice if they are longer than the records."""
    words = words if isinstance(words, (str, bytes)) else list(words)
    room = (ctypes.c_char * max(len(records), 64))()
    try:
        length = run_into(words, records, room)
    except Fault as fault:
        if fault.number != Number.ROOM:
            raise
        room = (ctypes.c_char * fault.length)()
        length = run_into(words, records, room)
    return bytes(memoryview(room)[:length])


def commits(words, records, first=_FIRST):
    """Gives the commits of a list command over records one at a time, each as a Commit. The Fault of the walk, if there is one, comes behind
    the commits before it. The records aren't copied, and may not change until the last commit is given.

    The commits come in batches: of `first` commits, then of 32 times as many, and so on. Nothing is kept between two batches: each walks
    from the start."""
    text = _joined(words)
    if first < 1:
        raise ValueError("no commit in a batch")
    return _batches(_commits, text, *_lent(records), first, min(len(records) // _LEAST + 1, _MOST))


def _batches(call, text, given, length, size, most):
    skip, size = 0, min(size, most)
    room = 2 * size
    while True:
        batch, parents = (RawCommit * size)(), (RawId * room)()
        answer = call(text, len(text), given, length, skip, batch, size, parents, room)
        yield from _decoded(batch, parents, answer.length)
        skip += answer.length
        if answer.number == Number.WELL:
            return
        if answer.number == Number.ROOM:
            room = answer.place
        elif answer.number == Number.MORE:
            size = min(size * _GROWTH, most)
            room = max(room, 2 * size)
        else:
            raise Fault(answer)


def _decoded(batch, parents, number):
    view, ids = memoryview(batch).cast("B"), memoryview(parents).cast("B")
    for id, time, at, count, generation, length, known in _commit.iter_unpack(view[: _commit.size * number]):
        yield Commit(
            id[:length],
            tuple(bytes(ids[32 * place : 32 * place + length]) for place in range(at, at + count)),
            time if known & 1 else None,
            generation if known & 2 else None,
        )


# Files of this length or more are mapped, and shorter ones are read.
_MAPPED = 1 << 16
# How many folders of objects lead from the first to one that is given, at the most, as in git.
_LEVELS = 6
# The folders of refs that a worktree has for itself.
_OWN = ("refs/bisect", "refs/rewritten", "refs/worktree")


class Repository:
    """A repository: a folder that has a `.git` or is one, or the first above it that does. Its files are mapped or read when it is opened:
    what is written later isn't seen. If anybody cuts a mapped file short, the process ends by SIGBUS. Git cuts none.

    The files of alternates and of the folder that a linked worktree belongs to are given too."""

    def __init__(self, folder="."):
        self._given = {}
        git = _git_folder(pathlib.Path(folder))
        common = git
        if (git / "commondir").is_file():
            common = (git / (git / "commondir").read_text().rstrip("\n")).resolve()
        self._add("HEAD", git / "HEAD")
        if common != git:
            self._add_own(git, common)
        for name in ("config", "packed-refs", "shallow", "info/grafts"):
            self._add(name, common / name)
        for name in ("refs", "worktrees"):
            self._add_below(name, common / name)
        self._add_objects(common / "objects", 0)
        self._files = (RawFile * len(self._given))()
        for file, (name, (held, length)) in zip(self._files, self._given.items()):
            # The names are kept as the keys, the bytes in the values.
            file.name, file.name_length = ctypes.cast(ctypes.c_char_p(name), ctypes.c_void_p).value, len(name)
            file.bytes, file.length = ctypes.cast(held, ctypes.c_void_p).value, length

    def _add_own(self, git, common):
        for name in _OWN:
            self._add_below(name, git / name)
        self._add("worktrees/main-worktree/HEAD", common / "HEAD")
        self._add("worktrees/main-worktree/gitdir", common / "HEAD")

    def _add(self, name, path):
        key = os.fsencode(name)
        if key in self._given:
            return
        try:
            about = os.stat(path)
        except (FileNotFoundError, NotADirectoryError):
            return
        if not stat.S_ISREG(about.st_mode):
            # Below worktrees are sockets of git's. Elsewhere a pipe may be in the place of a ref, which mustn't be left out.
            if name.startswith("worktrees/"):
                return
            raise OSError(f"{str(path)!r} is no file")
        with open(path, "rb") as file:
            if about.st_size < _MAPPED:
                held = file.read()
                self._given[key] = (ctypes.c_char_p(held), len(held))
            else:
                held = mmap.mmap(file.fileno(), 0, access=mmap.ACCESS_COPY)
                self._given[key] = ((ctypes.c_char * len(held)).from_buffer(held), len(held))

    def _add_below(self, name, folder):
        if not os.path.isdir(folder):
            return
        met = set()
        for path, _, files in os.walk(folder, onerror=_refuse, followlinks=True):
            about = os.stat(path)
            if (about.st_dev, about.st_ino) in met:
                raise OSError(f"{path!r} is met twice, by links")
            met.add((about.st_dev, about.st_ino))
            below = os.path.relpath(path, folder)
            front = name if below == "." else f"{name}/{below}"
            self._given.setdefault(os.fsencode(front) + b"/", (ctypes.c_char_p(b""), 0))
            for file in files:
                self._add(f"{front}/{file}", os.path.join(path, file))

    def _add_objects(self, folder, level):
        self._add_below("objects", folder)
        self._given.pop(b"objects/info/alternates", None)
        alternates = folder / "info" / "alternates"
        if level < _LEVELS and alternates.is_file():
            for line in alternates.read_bytes().split(b"\n"):
                if line and not line.startswith(b"#"):
                    self._add_objects(folder / os.fsdecode(line), level + 1)

    def _text(self, call, text):
        room = (ctypes.c_char * 65536)()
        while True:
            answer = call(text, len(text), self._files, len(self._files), room, len(room))
            if answer.number == Number.WELL:
                return bytes(memoryview(room)[: answer.length])
            if answer.number != Number.ROOM:
                raise Fault(answer)
            room = (ctypes.c_char * answer.length)()

    def resolve(self, words):
        """The words with ids in place of the revisions, as a list: `resolve(["newest", "main~2", "^v1.0"])`."""
        return self._text(_resolve_in, _joined(words)).decode().split("\n")

    def run(self, words):
        """Runs a command, whose revisions are as the program takes them, and gives the lines that it writes, as bytes."""
        resolved = self.resolve(words)
        if resolved[0] == "resolve":
            return "".join(f"{word}\n" for word in resolved[1:]).encode()
        return self._text(_run_in, _joined(resolved))

    def commits(self, words, first=_FIRST):
        """Gives the commits of a list command one at a time, as `commits` does over records. Its revisions are resolved once."""
        text = _joined(self.resolve(words))
        if first < 1:
            raise ValueError("no commit in a batch")
        return self._batches(text, first)

    def _batches(self, text, first):
        yield from _batches(_commits_in, text, self._files, len(self._files), first, _MOST)


def _refuse(error):
    raise error


def _git_folder(folder):
    """The folder of the repository that a folder is in, as `.git` or that of a linked worktree."""
    start = folder.resolve()
    for place in (start, *start.parents):
        git = place / ".git"
        if git.is_file():
            text = git.read_text()
            if text.startswith("gitdir: "):
                return (place / text[len("gitdir: ") :].rstrip("\n")).resolve()
        for found in (git, place):
            if (found / "HEAD").is_file() and ((found / "objects").is_dir() or (found / "commondir").is_file()):
                return found
    raise FileNotFoundError(f"no repository is at {str(folder)!r}")
