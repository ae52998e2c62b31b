/* Whether a release contains a fix:
 *
 *   git rev-list RELEASE FIX | git cat-file --batch='%(objecttype) %(objectname) %(objectsize)' |
 *       contains $(git rev-parse RELEASE^{commit} FIX^{commit})
 *
 * The status is 0 where it does, 1 where it doesn't, and 2 where that isn't known. */
#include <stdio.h>
#include <stdlib.h>

#include "kestrelrack.h"

static void fail(const char *why) {
    fprintf(stderr, "contains: %s\n", why);
    exit(2);
}

/* All of standard input. */
static char *read_all(size_t *length) {
    size_t room = 1 << 16;
    char *bytes = malloc(room);
    *length = 0;
    while (bytes != NULL) {
        *length += fread(bytes + *length, 1, room - *length, stdin);
        if (*length < room) {
            break;
        }
        room *= 2;
        bytes = realloc(bytes, room);
    }
    if (bytes == NULL || ferror(stdin)) {
        fail("standard input wasn't read");
    }
    return bytes;
}

static void fail_by(struct kestrelrack_answer answer) {
    char text[64] = "";
    kestrelrack_text(answer.number, text, sizeof text - 1);
    fprintf(stderr, "contains: %s", text);
    if (answer.place != 0) {
        fprintf(stderr, " %zu", answer.place);
    }
    for (uint32_t i = 0; i < answer.id_length; i++) {
        fprintf(stderr, "%s%02x", i == 0 ? " " : "", answer.id[i]);
    }
    fprintf(stderr, "\n");
    exit(2);
}

int main(int count, char **arguments) {
    if (count != 3) {
        fail("two ids are needed, of the release and of the fix");
    }
    char words[256];
    int words_length = snprintf(words, sizeof words, "contains %s %s", arguments[1], arguments[2]);
    if (words_length < 0 || (size_t)words_length >= sizeof words) {
        fail("an id is too long");
    }
    size_t records_length;
    char *records = read_all(&records_length);
    char line[65];
    struct kestrelrack_answer answer = kestrelrack_run(words, (size_t)words_length, records, records_length, line, sizeof line);
    free(records);
    if (answer.number != KESTRELRACK_WELL) {
        fail_by(answer);
    }
    /* Of the ids behind the first those are written that the first reaches: here the fix, or nothing. */
    int contains = answer.length > 0;
    puts(contains ? "contains" : "doesn't contain");
    return contains ? 0 : 1;
}
