/* The caller in C of tests/mapped-folder. Standard input has words, and then files: of each the length of its name, its name, the length of its
 * bytes, and these, each length as a line. Without arguments it resolves the words, and lists commits and lines by them, each call again with
 * each of its requests for memory refused: the answer is then out of memory, and what is written is as it was. It prints how many requests
 * were refused. With a number and a seed it makes so many random calls that the header allows and nobody makes, and prints how many ended
 * with each number. Whatever the answer is, it keeps the rules of the header. With one argument it prints what the words are answered. The linker puts the functions __wrap_.. into the place of the
 * system's. */
#include <stdio.h>
#include <stdlib.h>
#include <string.h>

#include "kestrelrack.h"
#include "requests.h"

enum { COMMITS = 40, PARENTS = 90, ROOM = 1 << 16 };

static size_t refusals;

static void fail(const char *why, const char *what) {
    fprintf(stderr, "mapped-folder: %s, %s\n", what, why);
    exit(1);
}

struct left {
    unsigned char room[ROOM];
    struct kestrelrack_commit commits[COMMITS];
    struct kestrelrack_id parents[PARENTS];
};

static struct left left, untouched, whole;

enum call { RESOLVE, RUN, COMMITS_IN, RUN_RECORDS, COMMITS_RECORDS, CALLS };

/* A call: the records are the bytes of the first file. */
struct ask {
    enum call call;
    const void *words;
    size_t length;
    const struct kestrelrack_file *files;
    size_t count, room, commits, parents;
    uint64_t skip;
};

static int is_of_commits(enum call call) {
    return call == COMMITS_IN || call == COMMITS_RECORDS;
}

static int is_over_files(enum call call) {
    return call <= COMMITS_IN;
}

static struct kestrelrack_answer make(struct ask ask) {
    const void *records = ask.count > 0 ? ask.files[0].bytes : "";
    size_t records_length = ask.count > 0 ? ask.files[0].length : 0;
    memset(&left, 0xA5, sizeof left);
    switch (ask.call) {
    case RESOLVE:
        return kestrelrack_resolve_in(ask.words, ask.length, ask.files, ask.count, left.room, ask.room);
    case RUN:
        return kestrelrack_run_in(ask.words, ask.length, ask.files, ask.count, left.room, ask.room);
    case RUN_RECORDS:
        return kestrelrack_run(ask.words, ask.length, records, records_length, left.room, ask.room);
    case COMMITS_RECORDS:
        return kestrelrack_commits(ask.words, ask.length, records, records_length, ask.skip, left.commits, ask.commits, left.parents, ask.parents);
    default:
        return kestrelrack_commits_in(ask.words, ask.length, ask.files, ask.count, ask.skip, left.commits, ask.commits, left.parents, ask.parents);
    }
}

/* A call, and then with each of its requests refused. */
static struct kestrelrack_answer thorough(const char *what, struct ask ask) {
    struct kestrelrack_answer right, answer;
    requests = refused = held = 0;
    right = make(ask);
    whole = left;
    if (held != 0) {
        fail("memory is lost", what);
    }
    if (right.number != KESTRELRACK_WELL && right.number != KESTRELRACK_MORE && memcmp(&left, &untouched, sizeof left) != 0) {
        fail("a fault has written", what);
    }
    for (size_t number = 1, all = requests; number <= all; number++) {
        requests = 0;
        refused = number;
        answer = make(ask);
        if (held != 0) {
            fail("memory is lost where a request is refused", what);
        }
        if (answer.number == KESTRELRACK_MEMORY && answer.length == 0 && memcmp(&left, &untouched, sizeof left) != 0) {
            fail("out of memory has written", what);
        }
        /* A request may be one of which the answer doesn't hang, as a sort that does without. */
        if (answer.number != KESTRELRACK_MEMORY && (memcmp(&answer, &right, sizeof right) != 0 || memcmp(&left, &whole, sizeof left) != 0)) {
            fail("another answer where a request is refused", what);
        }
        refusals++;
    }
    refused = 0;
    return right;
}

static size_t read_length(void) {
    size_t length;
    if (scanf("%zu", &length) != 1 || getchar() != '\n') {
        fail("the input is cut", "reading");
    }
    return length;
}

/* So many bytes and no more, so that valgrind sees what is read behind them. */
static void *room_for(size_t length) {
    void *bytes = malloc(length == 0 ? 1 : length);
    if (bytes == NULL) {
        fail("no memory", "reading");
    }
    return bytes;
}

static void *read_bytes(size_t length) {
    void *bytes = room_for(length);
    if (fread(bytes, 1, length, stdin) != length) {
        fail("the input is cut", "reading");
    }
    return bytes;
}

static void expect(const char *what, uint32_t number, struct kestrelrack_answer answer) {
    if (answer.number != number) {
        fprintf(stderr, "mapped-folder: %s has the number %u\n", what, answer.number);
        exit(1);
    }
}

/* The words with ids in place of revisions, each request for memory refused once, and what a call answers that is given too little. */
static void call_thoroughly(const void *words, size_t length, struct kestrelrack_file *files, size_t count) {
    struct ask ask = {RESOLVE, words, length, files, count, ROOM, COMMITS, PARENTS, 1};
    struct kestrelrack_answer answer = thorough("resolving", ask);
    char *ids = room_for(answer.length);
    expect("resolving", KESTRELRACK_WELL, answer);
    make(ask);
    memcpy(ids, left.room, answer.length);
    for (int call = RESOLVE; call <= COMMITS_IN; call++) {
        ask.call = call;
        ask.count = 0;
        expect("no file", KESTRELRACK_REPOSITORY, thorough("no file", ask));
        ask.count = count;
        ask.room = ask.commits = ask.skip = 0;
        expect("no room", KESTRELRACK_ROOM, make(ask));
        ask.words = ids;
        ask.length = answer.length;
        ask.room = ROOM;
        ask.commits = COMMITS;
        ask.skip = 1;
        if (call != RESOLVE && thorough("a call", ask).number != KESTRELRACK_MORE) {
            expect("a call", KESTRELRACK_WELL, make(ask));
        }
    }
    ask.skip = UINT64_MAX;
    expect("a large skip", KESTRELRACK_WELL, make(ask));
    ask = (struct ask){RESOLVE, "newest HEAD no/such", 19, files, count, ROOM, 0, 0, 0};
    answer = make(ask);
    expect("no revision", KESTRELRACK_REVISION, answer);
    if (answer.place != 2) {
        fail("another place", "the second revision");
    }
    free(ids);
    printf("%zu\n", refusals);
}

/* A call, also with each of its requests refused, unless there are many of these. */
static struct kestrelrack_answer answer_to(const char *what, struct ask ask) {
    if (ask.count < 1000) {
        thorough(what, ask);
    }
    return make(ask);
}

/* What the words are answered: the number, the place, how many commits there are, and the lines. */
static void print_answer(const void *words, size_t length, const struct kestrelrack_file *files, size_t count) {
    struct ask ask = {RESOLVE, words, length, files, count, ROOM, COMMITS, PARENTS, 0};
    struct kestrelrack_answer answer = answer_to("resolving", ask);
    size_t commits = 0, name = strlen("resolve");
    if (answer.number == KESTRELRACK_WELL) {
        ask.words = memcpy(room_for(answer.length), left.room, answer.length);
        ask.length = answer.length;
        ask.call = COMMITS_IN;
        commits = answer_to("commits", ask).length;
        ask.call = RUN;
        if (length < name || memcmp(words, "resolve", name) != 0) {
            answer = answer_to("running", ask);
        } else {
            /* The ids are words, and a newline is between two */
            make((struct ask){RESOLVE, words, length, files, count, ROOM, 0, 0, 0});
            left.room[answer.length] = '\n';
            answer.length -= name;
            memmove(left.room, left.room + name + 1, answer.length);
        }
        free((void *)ask.words);
    }
    printf("%u %zu %zu\n", answer.number, answer.place, commits);
    fwrite(left.room, 1, answer.number == KESTRELRACK_WELL ? answer.length : 0, stdout);
}

static uint64_t chance;

static size_t below(size_t bound) {
    chance ^= chance << 13;
    chance ^= chance >> 7;
    chance ^= chance << 17;
    return bound == 0 ? 0 : (size_t)(chance >> 11) % bound;
}

#define ONE_OF(list) list[below(sizeof(list) / sizeof *(list))]

/* What random calls put together: what was made for one call is given back behind it. */
static void *made[64];
static size_t number_made;

static void *keep(const void *bytes, size_t length) {
    void *copy = memcpy(room_for(length), bytes, length);
    made[number_made++] = copy;
    return copy;
}

static char asked[1 << 14];
static size_t asked_length;

static void add(const char *bytes, size_t length) {
    memcpy(asked + asked_length, bytes, length);
    asked_length += length;
}

/* An id of the repository; if it is odd, maybe cut, longer, or with another digit */
static void add_id(const char *ids, size_t length, size_t width, int is_odd) {
    char id[80];
    size_t at = below(length / (width + 1)) * (width + 1), cut = width;
    memset(id, '0', sizeof id);
    memcpy(id, ids + at, width);
    if (is_odd && below(3) == 0) {
        cut = below(70);
    }
    if (is_odd && below(3) == 0) {
        id[below(width)] = "0123456789abcdefgF \xff"[below(20)];
    }
    add("^", is_odd && below(2) == 0);
    add(id, cut);
}

/* Words, half of the time a command that the call takes, over ids or revisions that the repository has */
static void add_words(enum call call, const char *ids, size_t length, size_t width) {
    static const char *const lists[] = {"breadth", "newest", "oldest", "topo", "date", "merge-base", "resolve"};
    static const char *const commands[] = {"ahead", "contains", "containing", "merge-base", "is-ancestor", "check-graph", "verify-certificate", "", "x", "Newest", "\xff\xfe"};
    static const char *const parts[] = {
        "HEAD", "@", "HEAD~2", "HEAD^2", "HEAD^{tree}", "HEAD^{/x}", "HEAD@{1}", ":/x", "HEAD:", "lane0..lane1", "lane0...lane1", "^lane1",
        "^", "..", "...", "~", "^^", "HEAD~99999999999999999999", "refs/heads/lane0", "../HEAD", "/etc/passwd", "no/such", "v1", "v1^{}",
        "v1^0^0^0~0", "--all", "--branches", "--tags", "--stdin", "--first-parent", "--since", "--until", "-n", "--skip", "--merges",
        "--no-merges", "--reverse", "--count", "--", "-z", "0", "1", "3", "999999999", "9999999999", "99999999999999999999", "-1", "", "\xff",
        "\xc3\xa9"};
    static const char *const between[] = {" ", " ", " ", " ", "\n", "\n", "  ", "\t", "\r\n", ""};
    static const char *const options[] = {"", "", " -n 3", " -n 0", " --skip 2", " --no-merges", " --count", " --reverse", " --until 1600000900", " --skip 1 -n 9 --count"};
    int is_odd = below(2) == 0;
    const char *part = is_odd && below(2) == 0 ? ONE_OF(commands) : lists[below(call == RESOLVE ? 7 : 5)];
    asked_length = 0;
    add(part, strlen(part));
    part = options[below(is_of_commits(call) ? 4 : sizeof options / sizeof *options)];
    add(part, strlen(part));
    for (size_t words = is_odd ? below(5) : 1 + below(2); words > 0; words--) {
        part = is_odd && below(4) == 0 ? ONE_OF(between) : " ";
        add(part, strlen(part));
        if (is_odd ? below(2) == 0 : call != RESOLVE || below(2) == 0) {
            add_id(ids, length, width, is_odd);
        } else {
            part = is_odd ? ONE_OF(parts) : parts[below(3)];
            add(part, strlen(part));
        }
    }
    if (below(50) == 0) {
        memset(asked + asked_length, below(2) == 0 ? 'a' : 0, 5000);
        asked_length += 5000;
    }
    if (is_odd && below(10) == 0) {
        asked_length = below(asked_length + 1);
    }
}

/* Names that are none, or that lead elsewhere */
static const char *const odd[] = {"", "/", "//", ".", "..", "objects", "HEAD/", "HEAD/x", "/HEAD", "./HEAD", "../HEAD", "refs/../HEAD", "head", "refs/heads//",
                                  "refs", "refs/heads/", "refs/heads/../../HEAD", "\xff", "refs/heads/\xff\xfe", "objects/", "objects/pack/",
                                  "objects/pack/pack-.idx", "objects/pack/x.pack", "objects/info/alternates", "objects/info/commit-graph",
                                  "objects/00/", "objects/00/0", "config", "commondir", "gitdir", "shallow", "packed-refs", "info/grafts", "refs/heads/lane0/x"};

static size_t change(struct kestrelrack_file *files, size_t count) {
    struct kestrelrack_file *one = files + below(count), *other = files + below(count), kept;
    const char *name = ONE_OF(odd);
    char path[4200];
    size_t length;
    if (count == 0) {
        return 0;
    }
    kept = *one;
    switch (below(14)) {
    case 0:
        return below(3) == 0 ? 0 : count;
    case 1: /* another order */
        for (size_t i = count; i > 1; i--) {
            one = files + below(i);
            kept = *one;
            *one = files[i - 1];
            files[i - 1] = kept;
        }
        return count;
    case 2:
        *one = files[count - 1];
        return count - 1;
    case 3: /* without HEAD, or what its name begins with */
        for (size_t i = 0; i < count; i++) {
            if (files[i].name_length >= 4 && memcmp(files[i].name, "HEAD", 4) == 0) {
                files[i] = files[--count];
            }
        }
        return count;
    case 4:
        one->name_length = strlen(name);
        one->name = keep(name, one->name_length);
        return count;
    case 5:
        one->name = other->name;
        one->name_length = other->name_length;
        return count;
    case 6:
        one->bytes = other->bytes;
        one->length = other->length;
        return count;
    case 7:
        one->length = 0;
        return count;
    case 8:
        one->length = below(one->length + 1);
        return count;
    case 9: /* another byte, mostly in what isn't an object */
        if (one->length > 0) {
            one->bytes = keep(one->bytes, one->length);
            ((unsigned char *)one->bytes)[below(one->length)] = (unsigned char)below(256);
        }
        return count;
    case 10:
        for (size_t i = 0; below(4) == 0 && i < count; i++) {
            files[i].name = kept.name;
            files[i].name_length = kept.name_length;
        }
        return count;
    case 11: /* one more; the caller has room for it */
        files[count] = (struct kestrelrack_file){keep(name, strlen(name)), strlen(name), kept.bytes, kept.length};
        return count + 1;
    case 12: /* a name that is longer, at its front or at its end */
        length = (size_t)snprintf(path, sizeof path, "%s", below(2) == 0 ? "/" : "objects/../");
        length = below(8) == 0 ? 4000 : length;
        memset(path, below(8) == 0 ? '/' : 'a', length == 4000 ? length : 0);
        memcpy(path + length, one->name, one->name_length < 100 ? one->name_length : 100);
        one->name_length = length + (one->name_length < 100 ? one->name_length : 100);
        one->name = keep(path, one->name_length);
        return count;
    default: /* a name with a byte that isn't there, as 0 */
        if (one->name_length > 0) {
            one->name = keep(one->name, one->name_length);
            ((unsigned char *)one->name)[below(one->name_length)] = (unsigned char)"\0\xff/.\n"[below(5)];
        }
        return count;
    }
}

static void is_kept(int holds, const char *what, struct ask ask, struct kestrelrack_answer answer) {
    if (!holds) {
        fprintf(stderr, "mapped-folder: call %d of %zu files, rooms %zu, %zu and %zu, skip %llu: %s\n", ask.call, ask.count, ask.room, ask.commits,
                ask.parents, (unsigned long long)ask.skip, what);
        fprintf(stderr, "number %u, length %zu, place %zu, id of %u; words: ", answer.number, answer.length, answer.place, answer.id_length);
        fwrite(ask.words, 1, ask.length, stderr);
        fputc('\n', stderr);
        exit(1);
    }
}

static int is_filled(const void *bytes, size_t length, int with) {
    for (size_t i = 0; i < length; i++) {
        if (((const unsigned char *)bytes)[i] != with) {
            return 0;
        }
    }
    return 1;
}

/* The rules of the header for the commits of an answer: how many parents they have. */
static size_t check_commits(struct ask ask, struct kestrelrack_answer answer) {
    size_t parents = 0;
    is_kept(answer.length <= ask.commits, "more commits than there is room for", ask, answer);
    for (size_t i = 0; i < answer.length; i++) {
        const struct kestrelrack_commit *commit = left.commits + i;
        size_t width = commit->id_length;
        is_kept(width == 20 || width == 32, "a width of an id", ask, answer);
        is_kept(is_filled(commit->id.bytes + width, 32 - width, 0), "bytes behind an id", ask, answer);
        is_kept(commit->known <= KESTRELRACK_TIME && commit->generation == 0 && (commit->known != 0 || commit->time == 0), "what is known", ask, answer);
        is_kept(commit->parents_at == parents && commit->parents <= ask.parents - parents, "the place of the parents", ask, answer);
        for (size_t end = parents + commit->parents; parents < end; parents++) {
            is_kept(is_filled(left.parents[parents].bytes + width, 32 - width, 0), "bytes behind a parent's id", ask, answer);
        }
    }
    return parents;
}

/* The rules of the header for an answer. */
static void check(struct ask ask, struct kestrelrack_answer answer) {
    uint32_t number = answer.number;
    size_t written = 0, commits = 0, parents = 0;
    int names_place = number == KESTRELRACK_ID || number == KESTRELRACK_RECORD || number == KESTRELRACK_REVISION || number > KESTRELRACK_NO_COMMIT
        || (ask.call == RESOLVE && number >= KESTRELRACK_MISSING && number <= KESTRELRACK_BROKEN);
    is_kept(held == 0, "memory is lost", ask, answer);
    is_kept(number <= KESTRELRACK_FILE && (number < KESTRELRACK_READ || number > KESTRELRACK_DISAGREES), "a number that is never answered", ask, answer);
    is_kept(number < KESTRELRACK_REPOSITORY || is_over_files(ask.call), "a fault of files", ask, answer);
    is_kept(number != KESTRELRACK_RECORD || !is_over_files(ask.call), "a fault of records", ask, answer);
    is_kept(number != KESTRELRACK_MORE || (is_of_commits(ask.call) && answer.length > 0), "more", ask, answer);
    is_kept(number != KESTRELRACK_MEMORY, "out of memory", ask, answer);
    is_kept(answer.id_length == 0 || answer.id_length == 20 || answer.id_length == 32, "a width of the id", ask, answer);
    is_kept(is_filled(answer.id + answer.id_length, 32 - answer.id_length, 0), "bytes behind the id", ask, answer);
    is_kept(number > KESTRELRACK_ROOM || answer.id_length == 0, "an id that isn't named", ask, answer);
    if (is_of_commits(ask.call)) {
        is_kept(answer.place == 0 || names_place || (number == KESTRELRACK_ROOM && answer.place > ask.parents), "a place", ask, answer);
        is_kept(number != KESTRELRACK_ROOM || (answer.length == 0 && (ask.commits == 0) == (answer.place == 0)), "the room", ask, answer);
        commits = answer.length;
        parents = check_commits(ask, answer);
    } else {
        is_kept(answer.place == 0 || names_place, "a place", ask, answer);
        is_kept(number == KESTRELRACK_WELL ? answer.length <= ask.room : number == KESTRELRACK_ROOM ? answer.length > ask.room : answer.length == 0, "a length", ask, answer);
        written = number == KESTRELRACK_WELL ? answer.length : 0;
        is_kept(memchr(left.room, 0, written) == NULL, "a zero byte", ask, answer);
    }
    is_kept(is_filled(left.room + written, sizeof left.room - written, 0xA5), "the rest of the room was changed", ask, answer);
    is_kept(is_filled(left.commits + commits, sizeof left.commits - commits * sizeof *left.commits, 0xA5), "the rest of the commits was changed", ask, answer);
    is_kept(is_filled(left.parents + parents, sizeof left.parents - parents * sizeof *left.parents, 0xA5), "the rest of the parents was changed", ask, answer);
}

/* A random call, and then with a byte less than it needs, and with no more. Gives the number. */
static uint32_t misuse(const char *ids, size_t length, size_t width, const struct kestrelrack_file *files, size_t count) {
    static const size_t rooms[] = {ROOM, ROOM, ROOM, 0, 1, 40, 41, 100}, few[] = {0, 1, 2, 7, COMMITS, COMMITS, PARENTS, PARENTS};
    static const uint64_t skips[] = {0, 0, 0, 1, 2, 30, 45, 46, 1000, UINT32_MAX, INT64_MAX, UINT64_MAX};
    struct kestrelrack_file *some = room_for((count + 8) * sizeof *some);
    struct kestrelrack_answer answer, again;
    struct ask ask = {.call = (enum call)below(CALLS), .count = count, .skip = ONE_OF(skips)};
    memcpy(some, files, count * sizeof *some);
    for (size_t changes = below(4); changes > 0; changes--) {
        ask.count = change(some, ask.count);
    }
    add_words(ask.call, ids, length, width);
    ask.words = keep(asked, asked_length);
    ask.length = asked_length;
    ask.files = keep(some, ask.count * sizeof *some);
    ask.room = ONE_OF(rooms);
    ask.commits = below(COMMITS + 1);
    ask.parents = ONE_OF(few);
    ask.commits = below(3) > 0 ? COMMITS : ask.commits;
    free(some);
    held = 0;
    answer = make(ask);
    check(ask, answer);
    whole = left;
    if (!is_of_commits(ask.call) && answer.number <= KESTRELRACK_ROOM && answer.length > 0 && answer.length <= ROOM) {
        ask.room = answer.length - 1;
        again = make(ask);
        check(ask, again);
        is_kept(again.number == KESTRELRACK_ROOM && again.length == answer.length, "a byte too few", ask, again);
        ask.room = answer.length;
        again = make(ask);
        check(ask, again);
        is_kept(again.number == KESTRELRACK_WELL && again.length == answer.length, "as many bytes as it needs", ask, again);
        is_kept(answer.number != KESTRELRACK_WELL || memcmp(&left, &whole, sizeof left) == 0, "other bytes", ask, again);
    }
    while (number_made > 0) {
        free(made[--number_made]);
    }
    return answer.number;
}

static void call_at_random(size_t number, const struct kestrelrack_file *files, size_t count) {
    size_t ended[KESTRELRACK_FILE + 1] = {0}, width = 0;
    struct ask ask = {RESOLVE, "resolve\n--all\nHEAD", 18, files, count, ROOM, 0, 0, 0};
    struct kestrelrack_answer answer = make(ask);
    char *ids;
    expect("ids", KESTRELRACK_WELL, answer);
    /* Ids, with a newline behind each */
    ids = room_for(answer.length - 7);
    memcpy(ids, left.room + 8, answer.length - 8);
    ids[answer.length - 8] = '\n';
    while (ids[width] != '\n') {
        width++;
    }
    while (number-- > 0) {
        ended[misuse(ids, answer.length - 7, width, files, count)]++;
        kestrelrack_text((uint32_t)chance, left.room, below(40));
    }
    free(ids);
    for (size_t i = 0; i <= KESTRELRACK_FILE; i++) {
        printf("%zu%c", ended[i], i == KESTRELRACK_FILE ? '\n' : ' ');
    }
}

int main(int arguments, char **words_given) {
    size_t length = read_length(), count;
    void *words = read_bytes(length);
    struct kestrelrack_file *files;
    memset(&untouched, 0xA5, sizeof untouched);
    count = read_length();
    files = room_for(count * sizeof *files);
    for (size_t i = 0; i < count; i++) {
        files[i].name_length = read_length();
        files[i].name = read_bytes(files[i].name_length);
        files[i].length = read_length();
        files[i].bytes = read_bytes(files[i].length);
    }
    if (arguments == 3) {
        chance = strtoull(words_given[2], NULL, 10) * 0x9E3779B97F4A7C15u + 1;
        call_at_random(strtoull(words_given[1], NULL, 10), files, count);
    } else if (arguments == 2) {
        print_answer(words, length, files, count);
    } else {
        call_thoroughly(words, length, files, count);
    }
    for (size_t i = 0; i < count; i++) {
        free((void *)files[i].name);
        free((void *)files[i].bytes);
    }
    free(files);
    free(words);
    return 0;
}
