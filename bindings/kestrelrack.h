/* Kestrelrack's commands over the objects of a Git repository, for callers in C.
 *
 * A function keeps nothing between calls. It writes only into the *room*, the bytes that a caller lends for lines, or into two slices in its
 * place. It ends whatever the bytes are. A caller owes it:
 *   - No pointer is NULL, not even that of 0 bytes. Each begins as many bytes as its length says, which are fewer than 2^63.
 *   - What is written overlaps neither the words nor the records nor what else is written, and no other thread writes any of them during
 *     the call.
 *   - A pointer to commits or ids is aligned as these are, and the lengths of such slices count them and not their bytes.
 *   - malloc, realloc and free are of one allocator. The call is in no signal handler, and in no forked child of a program with threads.
 *   - There are 32 KiB of stack: the most that was measured is 20 KiB, however deep the history or the tree is.
 *   - The processor is one of x86-64-v2 or later (SSE4.2, POPCNT), under Linux. This isn't tested at run time.
 * A call has no source of random bytes, so its tables hash ids with keys that anybody knows. Whoever chooses the ids of the records can
 * make it slow: its time then grows with the square of their number. No answer changes.
 * To link: cc program.c libkestrelrack.a, with nothing else.
 */
#ifndef KESTRELRACK_H
#define KESTRELRACK_H

#include <stddef.h>
#include <stdint.h>

#ifdef __cplusplus
extern "C" {
#endif

/* The version of this header, and of the library that it came with. */
#define KESTRELRACK_VERSION "@VERSION@"

/* The numbers of an answer. */
enum {
    KESTRELRACK_WELL = 0,       /* the lines are in the room */
    KESTRELRACK_ROOM = 1,       /* the room is too small for the lines: `length` says how many bytes they are */
    KESTRELRACK_USAGE = 2,      /* the words are no command */
    KESTRELRACK_ID = 3,         /* the word number `place` is no id; the command is word 1 */
    KESTRELRACK_RECORD = 4,     /* the record number `place` isn't one, or is cut; the first is record 1 */
    KESTRELRACK_MISSING = 5,    /* there is no object of this `id`, where the records or the revision number `place` need it */
    KESTRELRACK_WRONG_KIND = 6, /* a commit is needed, or a tree, and the object of this `id` is none */
    KESTRELRACK_BROKEN = 7,     /* an object's bytes are broken */
    KESTRELRACK_CYCLE = 8,      /* the tree of this `id` is under itself */
    KESTRELRACK_MEMORY = 9,     /* malloc or realloc gave NULL */
    KESTRELRACK_READ = 10,      /* never answered */
    KESTRELRACK_WRITE = 11,     /* never answered */
    KESTRELRACK_INTERNAL = 12,  /* never answered */
    KESTRELRACK_GRAPH = 13,     /* never answered: only the program takes a commit-graph */
    KESTRELRACK_ROW = 14,       /* never answered */
    KESTRELRACK_DISAGREES = 15, /* never answered */
    KESTRELRACK_NAME = 16,      /* the tree of this `id` has an entry whose name is empty or holds a '/' */
    KESTRELRACK_MORE = 17,      /* of commits alone: there is no room for more, and there may be more */
    KESTRELRACK_REPOSITORY = 18, /* the files are no repository */
    KESTRELRACK_REVISION = 19,  /* the revision number `place`, from 1 on, stands for nothing: no ref and no object is called so */
    KESTRELRACK_OBJECTS = 20,   /* a file of objects is damaged */
    KESTRELRACK_HASH = 21,      /* the object that is stored for this `id` is another's */
    KESTRELRACK_ENTRIES = 22,   /* of `files` without `-n`: the tree has `place` entries in all, more than 268435456 */
    /* Over a repository alone. A `place` is that of a revision, or the number of a line. */
    KESTRELRACK_NO_COMMIT = 23, /* the repository has no ref */
    KESTRELRACK_FORM = 24,      /* the revision is none, or has a form that isn't taken, as ":/fix" and "HEAD@{1}" */
    KESTRELRACK_AMBIGUOUS = 25, /* the ids of several objects begin as the revision says */
    KESTRELRACK_UPSTREAM = 26,  /* the branch has no upstream that is known */
    KESTRELRACK_PARENT = 27,    /* the commit of this `id` has no such parent */
    KESTRELRACK_ENTRY = 28,     /* the tree of this `id` has no such entry */
    KESTRELRACK_TAGS = 29,      /* more than 1000 tags lead to one another */
    KESTRELRACK_REF = 30,       /* a ref is damaged, or more than five symbolic refs lead to one another */
    KESTRELRACK_CONFIG = 31,    /* the line number `place` of the config isn't one */
    KESTRELRACK_FORMAT = 32,    /* the config says a format of the repository that isn't known */
    KESTRELRACK_EXTENSION = 33, /* the config names an extension that isn't known */
    KESTRELRACK_REFTABLE = 34,  /* the refs are in a reftable */
    KESTRELRACK_PACKED_REF = 35, /* the line number `place` of packed-refs is no ref; at 0 a name in it can't be one */
    KESTRELRACK_SHALLOW = 36,   /* the line number `place` of shallow is no id */
    KESTRELRACK_FILE = 37       /* another file or folder that holds no objects is damaged */
};

struct kestrelrack_answer {
    uint32_t number;    /* one of the numbers above; a later version may have more */
    uint32_t id_length; /* how many bytes of `id` are an id: 20 (SHA-1), 32 (SHA-256), or 0 if the number names no object */
    size_t length;      /* in bytes: of the lines, at KESTRELRACK_WELL and KESTRELRACK_ROOM; otherwise 0. Of kestrelrack_commits: how many
                           commits it gave, at each number */
    size_t place;       /* the number of the word, record, revision or line that is named, of entries that are too many, or the room for
                           parents that a commit needs; otherwise 0 */
    uint8_t id[32];     /* the id that is named, as bytes and not as digits, and zeros behind it */
};

/* Runs a command over records, and puts the lines that it writes at the front of the room.
 *
 * words    The command and its ids. "breadth", "newest", "oldest", "topo" and "date" make a list. Ids of tips follow them, one at least,
 *          and ids of commits to be hidden, each after a ^. "ahead" has two ids, and "contains", "containing" and "merge-base" have two at
 *          least. "files" has the id of a tree, and before it maybe "-n" and a number of 1 to 9 digits, and maybe "-z". An id is 40 or 64
 *          hex digits. One space or one newline is between two words, and none at either end.
 *          Options of lists come before the ids, in this order, each at most once. "breadth", "topo" and "date" may have
 *          "--first-parent". "newest" and "oldest" may have "--since" and a number of 1 to 10 digits. "--until" and such a number leaves out commits of a later time.
 *          "--merges" leaves out those of fewer than two parents, and "--no-merges" those of more than one. "--skip" and a number of 1 to 9
 *          digits leaves out so many of the others first. After "-n" and such a number no more lines are written than it says. With
 *          "--reverse" the last of these lines comes first. With "--count" their number is the only line. With "--timestamp" a line begins
 *          with the committer's seconds and a space. With "--parents" a space and the id of each parent follow its id. With "--oneline" a
 *          space and the commit's subject are behind these. In place of these three "--format" may stand, and a format: a line is then what
 *          it says, and has no id before it. A format has at most 128 bytes, and each % in it begins one of the fields %H, %h, %T, %P, %s,
 *          %an, %ae, %ct, %ci, %n and %%, which are git's. As a word it holds no space and no newline: %n writes a newline. With "-z" a line
 *          ends in a zero byte.
 * records  The objects, as `git cat-file --batch='%(objecttype) %(objectname) %(objectsize)'` prints them. They are read where they
 *          are: only an object that the walk looks up is copied, one at a time.
 * room     For the lines, each with a newline and none with a zero byte, except with "-z". The lines of a list without "--format" and of "merge-base" are never
 *          longer than the records, except that "0" and a newline may be. Those of "ahead" are at most 42 bytes. Those of "contains" and "containing" are
 *          never longer than the words.
 *
 * At KESTRELRACK_WELL the first `length` bytes of the room are the lines, and the rest of it is as it was. At every other number the
 * whole room is as it was, also if a list breaks off midway.
 */
struct kestrelrack_answer kestrelrack_run(const void *words, size_t words_length, const void *records, size_t records_length, void *room,
                                          size_t room_length);

/* The bytes of an id, and zeros behind one of 20 bytes. */
struct kestrelrack_id {
    uint8_t bytes[32];
};

/* A commit that a walk gives: 64 bytes, none of them padding. */
struct kestrelrack_commit {
    struct kestrelrack_id id;
    int64_t time;        /* the committer's seconds since 1970-01-01 00:00 UTC if `known` has the bit KESTRELRACK_TIME, otherwise 0 */
    size_t parents_at;   /* its parents are parents[parents_at] and those behind it, as the commit names them, repeats kept */
    size_t parents;      /* how many these are; of "breadth" with "--first-parent" one at most */
    uint32_t generation; /* in its row of a commit-graph if `known` has the bit KESTRELRACK_GENERATION, otherwise 0 */
    uint16_t id_length;  /* how many bytes its id has, and those of its parents: 20 (SHA-1) or 32 (SHA-256) */
    uint16_t known;      /* KESTRELRACK_TIME and KESTRELRACK_GENERATION, or'ed: by "breadth" no time is known, and of records no generation */
};

enum { KESTRELRACK_TIME = 1, KESTRELRACK_GENERATION = 2 };

/* Runs a list command over records, and puts its commits from the one number `skip` on (the first is 0) at the front of `commits`, and the
 * ids of their parents at the front of `parents`, as many commits as both have room for.
 *
 * words    A list with its options and ids, as for kestrelrack_run. Another command is KESTRELRACK_USAGE, and so are "--until", "--merges",
 *          "--no-merges", "--skip", "--reverse", "--count", "--timestamp", "--parents", "--oneline", "--format" and "-z": a caller has each commit's time and parents, and chooses by itself. The
 *          number behind "-n" also counts commits that are skipped.
 * records  As for kestrelrack_run.
 *
 * The answer's `length` is the number of commits, at each number:
 *   KESTRELRACK_WELL  they are the last (and none if `skip` is at the end or behind it);
 *   KESTRELRACK_MORE  there is no room for more of them: go on with skip + length. `length` isn't 0;
 *   KESTRELRACK_ROOM  not one fits, and `length` is 0. `place` is the room for parents that the next commit needs, or 0 if there is no
 *                     room for a commit;
 *   any other         the fault, which comes behind these commits.
 * What is behind the commits in `commits`, and behind their parents in `parents`, is as it was.
 *
 * Each call finds all records and walks from the start, and it looks up as many objects as one with "-n" and skip + length. If you want
 * all commits, take one large room, or few batches that grow, as 8,192 and then 32 times as many. Over 200,000 commits such batches took 1.2
 * times as long as one call by breadth, newest and oldest, and 1.5 times by topo and date; over a repository's files 1.2 and 1.8 times.
 * As long as the words and the records are the same, batches one behind another are the list: this is proved of each batch, and of all of
 * them together.
 */
struct kestrelrack_answer kestrelrack_commits(const void *words, size_t words_length, const void *records, size_t records_length,
                                              uint64_t skip, struct kestrelrack_commit *commits, size_t commits_length,
                                              struct kestrelrack_id *parents, size_t parents_length);

/* A file of a repository: its path below the repository's folder, as "HEAD" or "objects/pack/pack-1.idx", and what it holds, mapped or read.
 * A path that ends in '/' says that there is a folder, as "refs/" if all refs are packed. No pointer is NULL, not even that of 0 bytes.
 */
struct kestrelrack_file {
    const void *name;
    size_t name_length;
    const void *bytes;
    size_t length;
};

/* The three calls below are over a repository: a folder such as .git, whose files the caller maps or reads. The caller gives, in any order,
 * HEAD, config, packed-refs, shallow, all below refs and all below objects. Of several files of one path the first counts. Nothing of them is
 * kept or written, and what a call reads is copied as far as it is needed. While a call runs no one may change these bytes, or cut a mapped
 * file short, which git never does: it writes new files.
 *
 * Each object is compared with its id before it is used, so the answer is right of every repository that has these objects. Git's
 * commit-graph isn't taken. No other folder is followed. If there is objects/info/alternates, give the files of the folders of objects that it
 * names below "objects/" too. Of a linked worktree give the files of the folder that its commondir names, with the worktree's own HEAD. At the
 * border of a shallow clone, whose parents are missing, a command ends with KESTRELRACK_MISSING.
 *
 * These calls need 256 KiB of stack.
 */

/* Puts the words of a command at the front of the room, with a newline between two, and with ids in place of its revisions.
 *
 * words    A command as for kestrelrack_run, or "resolve", whose revisions are as the program takes them: "main~2", "^v1.0", "A..B",
 *          "A...B", "HEAD^{tree}", an id or the first digits of one; and "--not", "--all", "--branches", "--tags" and "--remotes", which may
 *          stand for no id.
 *
 * At KESTRELRACK_WELL the first `length` bytes of the room are words for the two calls below. Those of "resolve" are no command: they are
 * its name, and the ids. At KESTRELRACK_ROOM the words need `length` bytes. At every number but KESTRELRACK_WELL the room is as it was.
 */
struct kestrelrack_answer kestrelrack_resolve_in(const void *words, size_t words_length, const struct kestrelrack_file *files,
                                                 size_t files_length, void *room, size_t room_length);

/* As kestrelrack_run, over a repository: the words have ids. Of few lines of a list ("-n") only as many commits are read as they need. Where
 * all sets were empty, the words of a list have no id without a ^, and those of "contains", "containing" and "merge-base" have one id: then
 * no line is written, or "0" with "--count".
 */
struct kestrelrack_answer kestrelrack_run_in(const void *words, size_t words_length, const struct kestrelrack_file *files, size_t files_length,
                                             void *room, size_t room_length);

/* As kestrelrack_commits, over a repository: the words have ids. By breadth, newest and oldest only as many commits are read as a batch
 * needs. Over ids each call walks the same commits, also if the repository has grown meanwhile. A fault of the files comes with `length` 0,
 * and both slices are as they were. Words without an id that has no ^ give no commit.
 */
struct kestrelrack_answer kestrelrack_commits_in(const void *words, size_t words_length, const struct kestrelrack_file *files,
                                                 size_t files_length, uint64_t skip, struct kestrelrack_commit *commits, size_t commits_length,
                                                 struct kestrelrack_id *parents, size_t parents_length);

/* Puts the text of a number at the front of the room, in English, without a place, an id or a zero byte at the end: "missing". Gives the
 * length of the text in bytes, at most 32. A smaller room is as it was, and so is the rest of a larger one.
 */
size_t kestrelrack_text(uint32_t number, void *room, size_t room_length);

#ifdef __cplusplus
}
#endif

#endif
