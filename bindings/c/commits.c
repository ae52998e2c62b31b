/* The first commits that an id reaches, newest first, in batches that grow:
 *
 *   git rev-list TIP | git cat-file --batch='%(objecttype) %(objectname) %(objectsize)' | commits $(git rev-parse TIP^{commit}) NUMBER
 *
 * A line for each has its id, its committer's seconds and the number of its parents. The status is 2 at a fault. */
#include <inttypes.h>
#include <stdio.h>
#include <stdlib.h>

#include "kestrelrack.h"

/* How many commits the first batch has, how many times as many each has as the one before, and the least bytes of a commit's record. Since
 * each call walks from the start, few large batches cost least. */
enum { FIRST = 8192, GROWTH = 32, LEAST = 98 };

static size_t least_of(uint64_t one, uint64_t other) {
    return (size_t)(one < other ? one : other);
}

static void fail(const char *why) {
    fprintf(stderr, "commits: %s\n", why);
    exit(2);
}

/* All of standard input. */
static char *read_all(size_t *length) {
    size_t room = 1 << 16;
    char *bytes = malloc(room);
    *length = 0;
    while (bytes != NULL) {
        *length += fread(bytes + *length, 1, room - *length, stdin);
        if (*length < room) {
            break;
        }
        room *= 2;
        bytes = realloc(bytes, room);
    }
    if (bytes == NULL || ferror(stdin)) {
        fail("standard input wasn't read");
    }
    return bytes;
}

static void write_commit(const struct kestrelrack_commit *commit) {
    for (size_t i = 0; i < commit->id_length; i++) {
        printf("%02x", commit->id.bytes[i]);
    }
    printf(" %" PRId64 " %zu\n", commit->time, commit->parents);
}

static void fail_by(struct kestrelrack_answer answer) {
    char text[64] = "";
    kestrelrack_text(answer.number, text, sizeof text - 1);
    fprintf(stderr, "commits: %s", text);
    if (answer.place != 0) {
        fprintf(stderr, " %zu", answer.place);
    }
    for (uint32_t i = 0; i < answer.id_length; i++) {
        fprintf(stderr, "%s%02x", i == 0 ? " " : "", answer.id[i]);
    }
    fprintf(stderr, "\n");
    exit(2);
}

int main(int count, char **arguments) {
    if (count != 3) {
        fail("an id and a number are needed");
    }
    uint64_t wanted = strtoull(arguments[2], NULL, 10), skip = 0;
    char words[256];
    int words_length = snprintf(words, sizeof words, "newest %s", arguments[1]);
    if (words_length < 0 || (size_t)words_length >= sizeof words) {
        fail("the id is too long");
    }
    size_t records_length, many = 0, parents_length = 0;
    char *records = read_all(&records_length);
    struct kestrelrack_commit *commits = NULL;
    struct kestrelrack_id *parents = NULL;
    struct kestrelrack_answer answer = {.number = KESTRELRACK_MORE};
    while (skip < wanted && (answer.number == KESTRELRACK_MORE || answer.number == KESTRELRACK_ROOM)) {
        if (answer.number == KESTRELRACK_ROOM) {
            /* A commit has more parents than there is room for. */
            parents_length = answer.place;
        } else {
            many = least_of(many == 0 ? FIRST : many * GROWTH, least_of(wanted - skip, records_length / LEAST + 1));
            parents_length = parents_length > 2 * many ? parents_length : 2 * many;
        }
        free(commits);
        free(parents);
        commits = malloc(many * sizeof *commits);
        parents = malloc(parents_length * sizeof *parents);
        if (commits == NULL || parents == NULL) {
            fail("out of memory");
        }
        answer = kestrelrack_commits(words, (size_t)words_length, records, records_length, skip, commits, many, parents, parents_length);
        for (size_t i = 0; i < answer.length; i++) {
            write_commit(&commits[i]);
        }
        skip += answer.length;
    }
    free(commits);
    free(parents);
    free(records);
    if (answer.number != KESTRELRACK_WELL && answer.number != KESTRELRACK_MORE) {
        fail_by(answer);
    }
    return 0;
}
