/* The caller in C of tests/bindings: makes the calls that standard input says, and writes what each answered and left in the room. Each
 * slice ends where memory ends, so a byte read or written behind it ends the program. Where a case asks for it, its call is made again with
 * each of its requests for memory refused. The linker puts the functions __wrap_.. into the place of the system's. */
#include <stdio.h>
#include <stdlib.h>
#include <string.h>
#include <sys/mman.h>
#include <unistd.h>

#include "kestrelrack.h"
#include "requests.h"

struct slice {
    unsigned char *mapped, *bytes;
    size_t mapped_length, length;
};

static void fail(const char *why) {
    fprintf(stderr, "bindings: %s\n", why);
    exit(1);
}

/* Zeros before a page that can't be read. */
static struct slice make(size_t length) {
    struct slice made = {.length = length};
    size_t page = (size_t)sysconf(_SC_PAGESIZE), pages = length / page + 1;
    made.mapped_length = (pages + 1) * page;
    made.mapped = mmap(NULL, made.mapped_length, PROT_READ | PROT_WRITE, MAP_PRIVATE | MAP_ANONYMOUS, -1, 0);
    if (made.mapped == MAP_FAILED || mprotect(made.mapped + pages * page, page, PROT_NONE) != 0) {
        fail("no memory");
    }
    made.bytes = made.mapped + pages * page - length;
    return made;
}

static struct slice read_slice(size_t length) {
    struct slice made = make(length);
    if (fread(made.bytes, 1, length, stdin) != length) {
        fail("a case is cut");
    }
    return made;
}

static void drop(struct slice slice) {
    munmap(slice.mapped, slice.mapped_length);
}

/* Makes a call in which one request for memory is refused, or none. */
static struct kestrelrack_answer call(struct slice words, struct slice records, struct slice room, size_t refuse) {
    memset(room.bytes, 0xa5, room.length);
    requests = 0;
    refused = refuse;
    struct kestrelrack_answer answer = kestrelrack_run(words.bytes, words.length, records.bytes, records.length, room.bytes, room.length);
    refused = 0;
    if (held != 0) {
        fail("a call has kept memory, or given back too much");
    }
    for (uint32_t i = answer.id_length; i < sizeof answer.id; i++) {
        if (answer.id[i] != 0) {
            fail("no zero is behind the id");
        }
    }
    return answer;
}

static int are_same(struct kestrelrack_answer one, struct kestrelrack_answer other) {
    return one.number == other.number && one.id_length == other.id_length && one.length == other.length && one.place == other.place &&
           memcmp(one.id, other.id, sizeof one.id) == 0;
}

/* Makes a call again with each of its requests refused. It answers so, and leaves the room as it was; or it does without that request, and
 * all is as before. How many it doesn't do without. */
static size_t refuse_each(struct slice words, struct slice records, struct slice room, struct kestrelrack_answer whole) {
    struct slice other = make(room.length);
    size_t last = requests, memory = 0;
    for (size_t number = 1; number <= last; number++) {
        struct kestrelrack_answer answer = call(words, records, other, number);
        if (answer.number != KESTRELRACK_MEMORY) {
            if (!are_same(answer, whole) || memcmp(other.bytes, room.bytes, room.length) != 0) {
                fail("another answer where a request for memory is refused");
            }
            continue;
        }
        memory++;
        if (answer.id_length != 0 || answer.length != 0 || answer.place != 0) {
            fail("out of memory names something");
        }
        for (size_t i = 0; i < other.length; i++) {
            if (other.bytes[i] != 0xa5) {
                fail("the room was changed where a request for memory is refused");
            }
        }
    }
    drop(other);
    return memory;
}

int main(void) {
    uint64_t head[4];
    size_t memory = 0;
    while (fread(head, sizeof head, 1, stdin) == 1) {
        struct slice words = read_slice(head[0]), records = read_slice(head[1]), room = make(head[2]);
        struct kestrelrack_answer answer = call(words, records, room, 0);
        printf("%u %zu %zu ", answer.number, answer.length, answer.place);
        for (uint32_t i = 0; i < answer.id_length; i++) {
            printf("%02x", answer.id[i]);
        }
        putchar('\n');
        fwrite(room.bytes, 1, room.length, stdout);
        if (head[3] != 0) {
            memory += refuse_each(words, records, room, answer);
        }
        drop(words);
        drop(records);
        drop(room);
    }
    for (uint32_t number = 0; number < 48; number++) {
        struct slice room = make(32), small = make(1);
        size_t length = kestrelrack_text(number, room.bytes, room.length);
        if (length > room.length || kestrelrack_text(number, small.bytes, small.length) != length || small.bytes[0] != 0) {
            fail("a text is longer than 32 bytes, or in a room of 1");
        }
        printf("%.*s\n", (int)length, (char *)room.bytes);
        drop(room);
        drop(small);
    }
    printf("%zu\n", memory);
    return 0;
}
