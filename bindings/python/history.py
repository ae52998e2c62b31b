#!/usr/bin/env python3
"""The first commits of a repository, newest first: `history.py [REPOSITORY [NUMBER [REVISION..]]]`. A line for each has its id, its
committer's seconds and the number of its parents. Without a number they are ten, and without a revision those that HEAD reaches. The status
is 2 at a fault."""

import itertools
import sys

import kestrelrack


def main(folder=".", number=10, *revisions):
    repository = kestrelrack.Repository(folder)
    number = int(number)
    # Only as many commits are read as the batch needs.
    commits = repository.commits(["newest", *(revisions or ["HEAD"])], first=max(number, 1))
    for commit in itertools.islice(commits, number):
        print(commit.id.hex(), commit.time, len(commit.parents))


if __name__ == "__main__":
    try:
        main(*sys.argv[1:])
    except (kestrelrack.Fault, ValueError, OSError) as error:
        print(f"history: {error}", file=sys.stderr)
        sys.exit(2)
