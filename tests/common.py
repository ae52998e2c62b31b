"""What scripts in Python over repositories have in common: runs of the program, which finds no other program by its PATH and has only the
variables that are named here; and repositories that git makes, without the user's settings."""

import contextlib
import copy
import fnmatch
import hashlib
import itertools
import os
import pathlib
import re
import shlex
import shutil
import string
import struct
import subprocess
import sys
import tempfile
import time

HERE = pathlib.Path(__file__).resolve().parent.parent
PROGRAM = str(pathlib.Path((sys.argv[1:] or [os.environ.get("PROGRAM") or HERE / "crates/gix_walk/out/gix_walk"])[0]).resolve())
COMMANDS = "breadth newest oldest topo date ahead contains containing merge-base is-ancestor files resolve check-graph verify-certificate".split()
WALKS = COMMANDS[:5]
ROOT = pathlib.Path(tempfile.mkdtemp())
ALONE = {"PATH": "", "HOME": str(ROOT / "home")}
GRAFTS = "gix_walk: info/grafts is ignored: a commit's parents are those that it names"
PARTIAL = "the clone is partial, and nothing is fetched here. git fetch --refetch --no-filter fetches what is missing"
GRAPH_WRONG = "gix_walk: the commit-graph isn't right; git commit-graph write --reachable writes it anew, but it can't keep times before 1970 or from 2^34 seconds on"
CASES = []  # the label of each comparison that came out as it should
SETTINGS = ["init.defaultBranch=main", "core.fsync=none", "gc.auto=0", "safe.directory=*", "protocol.file.allow=always"]


def fail(text):
    sys.exit(f"FAILED: {text}")


def passed(label, what):
    CASES.append(label)
    print(f"ok: {ascii(label)[1:-1]}{what}", flush=True)


def prepare():
    """Nothing of the user's own settings reaches git, nor of a repository whose hook has started this."""
    if not os.access(PROGRAM, os.X_OK):
        fail("the program isn't built: ./test and ./walk build it")
    for name in run(["git", "rev-parse", "--local-env-vars"])[1].split():
        os.environ.pop(name, None)
    os.environ.update(GIT_CONFIG_GLOBAL=str(ROOT / "settings"), GIT_CONFIG_NOSYSTEM="1", GIT_TERMINAL_PROMPT="0")
    for role in ("AUTHOR", "COMMITTER"):
        os.environ.update({f"GIT_{role}_NAME": "A", f"GIT_{role}_EMAIL": "a@b"})
    for setting in SETTINGS:
        run(["git", "config", "--global", *setting.split("=")])


def built(name):
    """The program of a crate, which ./build proves and builds if it isn't there"""
    program = HERE / "crates" / name / "out" / name
    if not program.exists() and subprocess.run([HERE / "build", name]).returncode != 0:
        fail(f"{name} isn't built")
    return program


def lines_of(table, **values):
    """The lines of a table, with these values for $NAMES, and a line for each way through {A,B}."""
    for line in filter(None, string.Template(table).substitute(values).split("\n")):
        parts = re.split(r"\{([^{}]*,[^{}]*)\}", line)
        yield from map("".join, itertools.product(*(part.split(",") if place % 2 else [part] for place, part in enumerate(parts))))


def run(words, input="", **how):
    """The status of a run, what it wrote, and what it said."""
    ran = subprocess.run([str(word) for word in words], input=input.encode("utf-8", "surrogateescape"), capture_output=True, **how)
    return ran.returncode, *(said.decode("utf-8", "surrogateescape") for said in (ran.stdout, ran.stderr))


def program(words, input="", env=ALONE, cwd=None, through=()):
    """A run of the program, or of a command through which it is run. It waits at no pipe for ever."""
    return run([*through, PROGRAM, *words], input, env=env, cwd=cwd, timeout=60)


def ended(label, words, output="", error="", status=0, like=None, asks=program, **how):
    """Expects of a run this status, these lines, or any if output is None, and on standard error this text, or one that is like a pattern,
    and of one line, if the pattern is."""
    found, wrote, said = asks(words, **how)
    said = said.removesuffix("\n")
    if found != status or output is not None and wrote.removesuffix("\n") != output.removesuffix("\n"):
        fail(f"{label}: status {found}, it said {said!r} and wrote {wrote[:2000]!r}")
    if not (said == error if like is None else fnmatch.fnmatchcase(said, like) and ("\n" in like or "\n" not in said)):
        fail(f"{label}: it said {said!r}")
    passed(label, f": {ascii((said.splitlines() or ['nothing said'])[0])}")
    return said


def fault(label, pattern, *words, **how):
    """Expects status 1, no output and a line that is like this pattern."""
    return ended(label, words, status=1, like=f"gix_walk: {pattern}", **how)


def describe(folder):
    """All files of a folder, with all that the system says of them but when they were read"""
    states = {path: path.lstat() for path in [folder, *folder.rglob("*")]}
    return {path: (it.st_mode, it.st_size, it.st_mtime_ns, it.st_ctime_ns, it.st_ino) for path, it in states.items()}


@contextlib.contextmanager
def rows_of(file, hashed=True):
    """The rows of a file of git's commit-graph by rising time, to be changed: of each the words behind its tree, which are two parents,
    generation and time. Then the hash behind the rows is right, or as it was. The file's inode and times stay."""
    data, before = bytearray(file.read_bytes()), file.stat()
    hash_of, width = (hashlib.sha1, 20) if data[5] == 1 else (hashlib.sha256, 32)
    begins = {bytes(data[at : at + 4]): int.from_bytes(data[at + 4 : at + 12], "big") for at in range(8, 8 + 12 * data[6], 12)}
    first, count = begins[b"CDAT"] + width, (begins[b"CDAT"] - begins[b"OIDL"]) // width
    rows = {at: list(struct.unpack_from(">4I", data, at)) for at in range(first, first + count * (width + 16), width + 16)}
    yield sorted(rows.values(), key=lambda row: row[3])
    for at, row in rows.items():
        struct.pack_into(">4I", data, at, *row)
    if hashed:
        data[-width:] = hash_of(data[:-width]).digest()
    file.chmod(0o644)
    with file.open("r+b") as written:
        written.write(data)
    os.utime(file, ns=(before.st_atime_ns, before.st_mtime_ns))


class Repository:
    """A repository in a folder below ROOT, the variables that the program has there, and the time of the newest commit."""

    env, now = ALONE, 1_700_000_000

    def __init__(self, name, form=None):
        self.folder, self.name = ROOT / name, str(name)
        if form:
            run(["git", "init", "-q", f"--object-format={form}", self.folder])
            (self.folder / "file").write_text("text\n")
            self.git("add", "file")
            self.tree = self.git("write-tree")

    def git(self, *words, input="", statuses=(0,), ends=True):
        """What git writes, without the newline at its end"""
        status, wrote, said = run(["git", "--no-replace-objects", "-C", self.folder, *words], input)
        if status not in statuses:
            fail(f"git {words}: {said}")
        return wrote.removesuffix("\n") if ends else wrote

    def gits(self, table, **values):
        """Has git do what each line of a table says."""
        for line in lines_of(table, **values):
            self.git(*shlex.split(line))

    def commit(self, message, *parents, seconds=1):
        """The id of a new commit, later than the newest by so many seconds"""
        Repository.now += seconds
        os.environ["GIT_AUTHOR_DATE"] = os.environ["GIT_COMMITTER_DATE"] = f"{self.now} +0000"
        return self.git("commit-tree", *(word for parent in parents for word in ("-p", parent)), "-m", message, self.tree)

    def grow(self, heads, numbers, seconds=1):
        """Lanes that fork and are merged, and merges of three, each with a branch at its end"""
        for n in numbers:
            lane, three = n % 3, n % 10 == 0
            parents = heads if three else [heads[lane], heads[(n + 1) % 3]] if n % 4 == 0 else [heads[lane]]
            heads[lane] = self.commit(f"commit {n}", *parents, seconds=seconds)
        for lane, head in enumerate(heads):
            self.git("branch", f"lane{lane}", head)

    def at(self, name):
        """What is in another folder, of which the same is known"""
        other = copy.copy(self)
        other.folder, other.name = ROOT / name, str(name)
        return other

    def clone(self, name, *words):
        url = f"file://{self.folder}" if any(word.startswith(("--depth", "--filter")) for word in words) else self.folder
        run(["git", "clone", "-q", *words, url, ROOT / name])
        return self.at(name)

    def copy(self, name):
        shutil.copytree(self.folder, ROOT / name, symlinks=True)
        return self.at(name)

    def loose(self, name):
        """The file of an object that is in no pack"""
        return self.folder / ".git/objects" / name[:2] / name[2:]

    def lose(self, revision):
        """The id of an object that is stored no more"""
        name = self.git("rev-parse", revision)
        self.loose(name).unlink()
        return name

    def object(self, kind, text):
        """The id of a new object of these bytes, which git doesn't check"""
        return self.git("hash-object", "-t", kind, "-w", "--stdin", "--literally", input=text)

    def entry(self, mode, name, path):
        self.git("update-index", "-z", "--index-info", input=f"{mode} {name}\t{path}\0")

    def records(self):
        return self.git("cat-file", "--batch-all-objects", "--batch=%(objecttype) %(objectname) %(objectsize)", ends=False)

    def reaches(self, tip, revision):
        words = ["git", "--no-replace-objects", "-C", self.folder, "merge-base", "--is-ancestor", revision, tip]
        return run(words)[0] == 0

    def listed(self, words):
        """What git lists for these words of the program, with no line before that of a format"""
        words = [{"--since": "--max-age", "--until": "--min-age"}.get(word, word) for word in words if word != "--stdin"]
        if "--format" in words:
            at = words.index("--format")
            words[at : at + 2] = [f"--format={words[at + 1]}"]
        if any(word.startswith("--format=") for word in words):
            words = ["--no-commit-header", "--abbrev=10", *words]
        return self.git("rev-list", *words, "--no-abbrev-commit")

    def expected(self, words, input=""):
        """What git writes for these words of the program, and the status"""
        command, *rest = words
        revisions = [word for before, word in zip(["", *rest], rest) if not word.startswith("-") and before != "-n"] + input.split()
        if command in WALKS:
            order = {"topo": ["--topo-order"], "date": ["--date-order"]}.get(command, [])
            listed = self.listed([*order, *(word for word in rest if word != "-z"), *input.split()])
            return listed.replace("\n", "\0") + "\0" if "-z" in rest and "--count" not in rest else listed, 0
        if command == "ahead":
            pair = "...".join(revisions)
            return self.git("rev-list", "--left-right", "--count", pair).replace("\t", " "), 0
        if command in ("contains", "containing"):
            first, *others = revisions
            names = self.git("for-each-ref", "--format=%(refname)", "refs/heads").split() if "--branches" in rest else []
            within = [one for one in others + names if (self.reaches(first, one) if command == "contains" else self.reaches(one, first))]
            lines = [self.git("rev-parse", f"{one}^{{commit}}") + (f" {one}" if "--names" in rest else "") for one in within]
            is_found = len(within) == len(others + names) if command == "contains" else within
            return "\n".join(lines), 0 if is_found else 3
        if command == "merge-base":
            return "\n".join(sorted(self.git("merge-base", "--all", *revisions, statuses=(0, 1)).split())), 0
        if command == "is-ancestor":
            return "", 0 if self.reaches(revisions[1], revisions[0]) else 3
        if command == "resolve":
            return "\n".join(self.git("rev-parse", "--verify", "-q", f"{one}^{{commit}}") for one in revisions), 0
        listed = self.git("ls-tree", "-r", "-t", "-z", "--full-tree", *revisions, ends=False)
        most = int(rest[rest.index("-n") + 1]) if "-n" in rest else None
        lines = "".join(f"{mode} {id} {path}" for mode, id, path in re.findall(r"(?s)(\d+) \w+ ([0-9a-f]+)\t(.*?\0)", listed)[:most])
        return lines if "-z" in rest else lines.replace("\0", "\n"), 0

    def asks(self, words, **how):
        """A run of the program in these variables"""
        return program(words, **({"env": self.env} | how))

    def named(self, label, words):
        return ": ".join(filter(None, [self.name, label, " ".join(map(str, words))]))

    def expects(self, line, *expected, where=None, label="", **how):
        """Expects of a run here what `ended` expects."""
        words, where = shlex.split(line), ["-C", self.folder] if where is None else where
        return ended(self.named(label, words), [*where, *words], *expected, asks=self.asks, **how)

    def fault(self, line, pattern, **how):
        """Expects of a run here what `fault` expects."""
        return self.expects(line, status=1, like=f"gix_walk: {pattern}", **how)

    def case(self, line, *options, where=None, input="", label="", wanted=None, **how):
        """Compares what the program writes for a case with what git writes, or with what is wanted. Nothing may be said."""
        kind, *words = shlex.split(line)
        if kind in COMMANDS:
            kind, words = "", [kind, *words]
        output, status = self.expected(words, input) if wanted is None else wanted
        output = "" if kind == "none" else output
        where = ["-C", self.folder] if where is None else where
        found, wrote, said = self.asks([*where, *options, *words], input=input, **how)
        lines = [text.removesuffix("\n").split("\n") for text in (wrote, output)]
        listed, expected = map(sorted, lines) if kind == "set" else lines
        label = self.named(label, [*options, *words])
        if (found, listed, said) != (status, expected, ""):
            fail(f"{label}: status {found} and not {status}; it said {said!r}, and wrote\n{wrote[:2000]}\nand not\n{output[:2000]}")
        if (wrote == "") != (kind == "none" or words[0] == "is-ancestor"):
            fail(f"{label}: it wrote {wrote!r}")
        passed(label, f"{kind and ', ' + kind}: {wrote.count(chr(10))} lines")

    def check_graph(self, rows, label="", again=False):
        """Git's commit-graph is right, and has so many rows. A second time it isn't compared."""
        found = "was found right before" if again else "agrees with the repository"
        self.case("check-graph", wanted=(f"the commit-graph {found}: {rows} commits have a row", 0), label=label)

    def cases(self, table, *options, label="", **values):
        """The lines of a table, each a case, or a run and behind | what is said of a fault"""
        zones = {"date": (0, "Z"), "east": (19800, "+05:30"), "west": (-12600, "-0330")}
        dates = {name: time.strftime(f"%Y-%m-%dT%H:%M:%S{zone}", time.gmtime(self.now - 20 + off)) for name, (off, zone) in zones.items()}
        for line in lines_of(table, now=self.now, before=self.now - 1, ago=self.now - 20, **dates, **values):
            words, *said = line.split(" | ")
            self.fault(words, *said, label=label) if said else self.case(words, *options, label=label)

    def entries(self, revision):
        for line in lines_of(f"files {{-z ,}}{revision}"):
            self.case(line)

    def graph_files(self):
        """The files of git's commit-graph, the lowest layer first"""
        layers = self.folder / ".git/objects/info/commit-graphs"
        chain = layers / "commit-graph-chain"
        names = chain.read_text().split() if chain.exists() else []
        return [layers / f"graph-{name}.graph" for name in names] or [layers.with_name("commit-graph")]

    def write_graph(self, kind):
        """Has git write a commit-graph of this kind. How many rows it has"""
        info = self.folder / ".git/objects/info"
        (info / "commit-graph").unlink(missing_ok=True)
        shutil.rmtree(info / "commit-graphs", ignore_errors=True)
        tips = ["--all"]
        if "behind" in kind:
            tips = self.git("rev-parse", "top~10", "lane1~10", "linear").split()
            self.git("commit-graph", "write", "--stdin-commits", input="\n".join(tips))
        elif "layers" in kind:
            for part in ("linear", "lane0~5"):
                self.git("commit-graph", "write", "--split=no-merge", "--stdin-commits", input=self.git("rev-parse", part))
            self.git("commit-graph", "write", "--split=no-merge", "--reachable")
            if len(self.graph_files()) != 3:
                fail(f"{kind}: there aren't three layers")
        else:
            self.git("commit-graph", "write", "--reachable", *(["--changed-paths"] if "paths" in kind else []))
        if not (info / "commit-graph").exists() and "layers" not in kind:
            fail(f"{kind} wasn't written")
        return self.git("rev-list", "--count", *tips)


def lanes(form):
    """A repository with a line of 30 commits, the branch linear, and with lanes over three roots, the branches lane0 to lane2"""
    repository, last = Repository(form, form), []
    for n in range(1, 31):
        last = [repository.commit(f"linear {n}", *last)]
    repository.git("branch", "linear", *last)
    repository.grow([*last, repository.commit("root 1"), repository.commit("root 2")], range(1, 41))
    return repository


def empty():
    """A repository without a commit"""
    run(["git", "init", "-q", ROOT / "empty"])
    return ROOT / "empty"
