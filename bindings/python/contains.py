#!/usr/bin/env python3
"""Whether a release contains a fix: `contains.py RELEASE FIX [REPOSITORY]`, two revisions. Git gives the records of what they reach. The
status is 0 where it does, 1 where it doesn't, and 2 where that isn't known."""

import subprocess
import sys

import kestrelrack


def contains(release, fix, repository="."):
    """Whether the release reaches the fix, in the repository of this folder."""

    def git(*words, **more):
        return subprocess.run(["git", "--no-replace-objects", "-C", repository, *words], check=True, capture_output=True, **more).stdout

    ids = b"".join(git("rev-parse", "--verify", "--end-of-options", name + "^{commit}") for name in (release, fix))
    reached = git("rev-list", "--stdin", input=ids)
    records = git("cat-file", "--batch=%(objecttype) %(objectname) %(objectsize)", input=reached)
    release, fix = ids.decode().split()
    # Of the ids behind the first those are written that the first reaches: here the fix, or nothing.
    return kestrelrack.run(["contains", release, fix], records) != b""


if __name__ == "__main__":
    try:
        found = contains(*sys.argv[1:])
    except (kestrelrack.Fault, ValueError, TypeError, subprocess.CalledProcessError) as error:
        print(f"contains: {error}", file=sys.stderr)
        sys.exit(2)
    print("contains" if found else "doesn't contain")
    sys.exit(0 if found else 1)
