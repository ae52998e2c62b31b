#!/usr/bin/env python3
"""The first commits that a revision reaches, newest first: `commits.py REVISION NUMBER [REPOSITORY]`. A line for each has its id, its
committer's seconds and the number of its parents. Git gives the records of what is reached. The status is 2 at a fault."""

import itertools
import subprocess
import sys

import kestrelrack


def main(revision, number, repository="."):
    def git(*words, **more):
        return subprocess.run(["git", "--no-replace-objects", "-C", repository, *words], check=True, capture_output=True, **more).stdout

    tip = git("rev-parse", "--verify", "--end-of-options", revision + "^{commit}").decode().strip()
    reached = git("rev-list", tip)
    records = git("cat-file", "--batch=%(objecttype) %(objectname) %(objectsize)", input=reached)
    # Only as many batches are walked as the commits that are taken need.
    for commit in itertools.islice(kestrelrack.commits(["newest", tip], records), int(number)):
        print(commit.id.hex(), commit.time, len(commit.parents))


if __name__ == "__main__":
    try:
        main(*sys.argv[1:])
    except (kestrelrack.Fault, ValueError, TypeError, subprocess.CalledProcessError) as error:
        print(f"commits: {error}", file=sys.stderr)
        sys.exit(2)
