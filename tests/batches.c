/* The caller in C of tests/batches: makes the calls that standard input says, and writes what each answered and left in its slices. Each
 * slice ends where memory ends. Where a case asks for it, its call is made again with each of its requests for memory refused. Then it
 * writes the layout of the structs. The linker puts the functions __wrap_.. into the place of the system's. */
#include <stdio.h>
#include <stdlib.h>
#include <string.h>
#include <sys/mman.h>
#include <unistd.h>

#include "kestrelrack.h"
#include "requests.h"

_Static_assert(sizeof(struct kestrelrack_commit) == 64 && sizeof(struct kestrelrack_id) == 32, "no padding");

struct slice {
    unsigned char *mapped, *bytes;
    size_t mapped_length, length;
};

static void fail(const char *why) {
    fprintf(stderr, "batches: %s\n", why);
    exit(1);
}

/* Zeros before a page that can't be read. */
static struct slice make(size_t length) {
    struct slice made = {.length = length};
    size_t page = (size_t)sysconf(_SC_PAGESIZE), pages = length / page + 1;
    made.mapped_length = (pages + 1) * page;
    made.mapped = mmap(NULL, made.mapped_length, PROT_READ | PROT_WRITE, MAP_PRIVATE | MAP_ANONYMOUS, -1, 0);
    if (made.mapped == MAP_FAILED || mprotect(made.mapped + pages * page, page, PROT_NONE) != 0) {
        fail("no memory");
    }
    made.bytes = made.mapped + pages * page - length;
    return made;
}

static void drop(struct slice slice) {
    munmap(slice.mapped, slice.mapped_length);
}

static struct slice read_slice(size_t length) {
    struct slice made = make(length);
    if (fread(made.bytes, 1, length, stdin) != length) {
        fail("a case is cut");
    }
    return made;
}

struct rooms {
    struct slice commits, parents;
};

static struct rooms make_rooms(size_t commits, size_t parents) {
    return (struct rooms){make(commits * sizeof(struct kestrelrack_commit)), make(parents * sizeof(struct kestrelrack_id))};
}

static void drop_rooms(struct rooms rooms) {
    drop(rooms.commits);
    drop(rooms.parents);
}

/* Makes a call in which one request for memory is refused, or none. */
static struct kestrelrack_answer call(struct slice words, struct slice records, uint64_t skip, struct rooms rooms, size_t refuse) {
    memset(rooms.commits.bytes, 0xa5, rooms.commits.length);
    memset(rooms.parents.bytes, 0xa5, rooms.parents.length);
    requests = 0;
    refused = refuse;
    struct kestrelrack_answer answer = kestrelrack_commits(
        words.bytes, words.length, records.bytes, records.length, skip, (struct kestrelrack_commit *)(void *)rooms.commits.bytes,
        rooms.commits.length / sizeof(struct kestrelrack_commit), (struct kestrelrack_id *)(void *)rooms.parents.bytes,
        rooms.parents.length / sizeof(struct kestrelrack_id));
    refused = 0;
    if (held != 0) {
        fail("a call has kept memory, or given back too much");
    }
    return answer;
}

/* The first bytes of a room are those of another, and the rest of it is untouched. */
static void is_front(struct slice room, struct slice whole, size_t length) {
    if (length > whole.length || memcmp(room.bytes, whole.bytes, length) != 0) {
        fail("other commits where a request for memory is refused");
    }
    for (size_t i = length; i < room.length; i++) {
        if (room.bytes[i] != 0xa5) {
            fail("the rest of a room was changed where a request for memory is refused");
        }
    }
}

/* Makes a call again with each of its requests refused. It answers so behind commits that it gives without that too; or it does without that
 * request, and all is as before. How many it doesn't do without. */
static size_t refuse_each(struct slice words, struct slice records, uint64_t skip, struct rooms whole, struct kestrelrack_answer first) {
    struct rooms other = make_rooms(whole.commits.length / sizeof(struct kestrelrack_commit), whole.parents.length / sizeof(struct kestrelrack_id));
    size_t last = requests, memory = 0;
    for (size_t number = 1; number <= last; number++) {
        struct kestrelrack_answer answer = call(words, records, skip, other, number);
        if (answer.number == KESTRELRACK_MEMORY) {
            memory++;
            if (answer.id_length != 0 || answer.place != 0 || answer.length > first.length) {
                fail("out of memory names something, or has more commits");
            }
        } else if (answer.number != first.number || answer.length != first.length || answer.place != first.place) {
            fail("another answer where a request for memory is refused");
        }
        const struct kestrelrack_commit *commits = (const void *)whole.commits.bytes;
        size_t parents = answer.length == 0 ? 0 : commits[answer.length - 1].parents_at + commits[answer.length - 1].parents;
        is_front(other.commits, whole.commits, answer.length * sizeof(struct kestrelrack_commit));
        is_front(other.parents, whole.parents, parents * sizeof(struct kestrelrack_id));
    }
    drop_rooms(other);
    return memory;
}

static void write_layout(void) {
    printf("answer %zu\nid %zu\ncommit %zu\nfile %zu\n", sizeof(struct kestrelrack_answer), sizeof(struct kestrelrack_id),
           sizeof(struct kestrelrack_commit), sizeof(struct kestrelrack_file));
#define FIELD(type, field) printf(#type "." #field " %zu\n", offsetof(struct kestrelrack_##type, field))
    FIELD(answer, number);
    FIELD(answer, id_length);
    FIELD(answer, length);
    FIELD(answer, place);
    FIELD(answer, id);
    FIELD(commit, id);
    FIELD(commit, time);
    FIELD(commit, parents_at);
    FIELD(commit, parents);
    FIELD(commit, generation);
    FIELD(commit, id_length);
    FIELD(commit, known);
    FIELD(file, name);
    FIELD(file, name_length);
    FIELD(file, bytes);
    FIELD(file, length);
}

int main(void) {
    uint64_t head[6];
    size_t memory = 0;
    while (fread(head, sizeof head, 1, stdin) == 1) {
        struct slice words = read_slice(head[0]), records = read_slice(head[1]);
        struct rooms rooms = make_rooms(head[3], head[4]);
        struct kestrelrack_answer answer = call(words, records, head[2], rooms, 0);
        printf("%u %zu %zu ", answer.number, answer.length, answer.place);
        for (uint32_t i = 0; i < answer.id_length; i++) {
            printf("%02x", answer.id[i]);
        }
        putchar('\n');
        fwrite(rooms.commits.bytes, 1, rooms.commits.length, stdout);
        fwrite(rooms.parents.bytes, 1, rooms.parents.length, stdout);
        if (head[5] != 0) {
            memory += refuse_each(words, records, head[2], rooms, answer);
        }
        drop(words);
        drop(records);
        drop_rooms(rooms);
    }
    printf("%zu\n", memory);
    write_layout();
    return 0;
}
