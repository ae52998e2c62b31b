/* The first commits of a repository, newest first:
 *
 *   history .git [NUMBER [REVISION..]]
 *
 * A line for each has its id, its committer's seconds and the number of its parents. Without a number they are ten, and without a revision
 * those that HEAD reaches. The status is 2 at a fault. */
#define _DEFAULT_SOURCE
#include <dirent.h>
#include <errno.h>
#include <fcntl.h>
#include <inttypes.h>
#include <stdio.h>
#include <stdlib.h>
#include <string.h>
#include <sys/mman.h>
#include <sys/stat.h>
#include <unistd.h>

#include "kestrelrack.h"

static struct kestrelrack_file *files;
static size_t count, room;

static void fail(const char *why) {
    fprintf(stderr, "history: %s\n", why);
    exit(2);
}

static void *in_memory(void *memory) {
    if (memory == NULL) {
        fail("out of memory");
    }
    return memory;
}

static void add(const char *name, const void *bytes, size_t length) {
    if (count == room) {
        room = room * 2 + 64;
        files = in_memory(realloc(files, room * sizeof *files));
    }
    files[count].name = in_memory(strdup(name));
    files[count].name_length = strlen(name);
    files[count].bytes = bytes;
    files[count++].length = length;
}

/* Maps a file, or does nothing where there is none. A pipe may be in the place of a ref, which mustn't be left out. */
static void add_file(const char *name, const char *path) {
    struct stat about = {0};
    void *bytes = "";
    size_t length;
    int file;
    if (stat(path, &about) != 0 && (errno == ENOENT || errno == ENOTDIR)) {
        return;
    }
    if (!S_ISREG(about.st_mode) || (file = open(path, O_RDONLY)) < 0) {
        fail("what is in the place of a file can't be read");
    }
    length = (size_t)about.st_size;
    if (length != 0 && (bytes = mmap(NULL, length, PROT_READ, MAP_PRIVATE, file, 0)) == MAP_FAILED) {
        fail("a file can't be mapped");
    }
    add(name, bytes, length);
    close(file);
}

/* Maps a file of the repository's folder, or all files below a folder of it. */
static void add_below(const char *top, const char *name) {
    char path[4096], inner[4096];
    struct dirent *entry;
    DIR *folder;
    if ((size_t)snprintf(path, sizeof path, "%s/%s", top, name) >= sizeof path) {
        fail("a path is too long");
    }
    if ((folder = opendir(path)) == NULL) {
        add_file(name, path);
        return;
    }
    if ((size_t)snprintf(inner, sizeof inner, "%s/", name) < sizeof inner) {
        add(inner, "", 0);
    }
    while ((entry = readdir(folder)) != NULL) {
        if (strcmp(entry->d_name, ".") == 0 || strcmp(entry->d_name, "..") == 0) {
            continue;
        }
        if ((size_t)snprintf(inner, sizeof inner, "%s/%s", name, entry->d_name) >= sizeof inner) {
            fail("a path is too long");
        }
        add_below(top, inner);
    }
    closedir(folder);
}

static void fail_by(struct kestrelrack_answer answer) {
    char text[64] = "";
    kestrelrack_text(answer.number, text, sizeof text - 1);
    fprintf(stderr, "history: %s", text);
    if (answer.place != 0) {
        fprintf(stderr, " %zu", answer.place);
    }
    for (uint32_t i = 0; i < answer.id_length; i++) {
        fprintf(stderr, "%s%02x", i == 0 ? " " : "", answer.id[i]);
    }
    fprintf(stderr, "\n");
    exit(2);
}

/* "newest" and the revisions, with ids in place of these. */
static char *resolved(int revisions, char **words, size_t *length) {
    size_t size = 16, at = 0;
    char *asked, *text;
    struct kestrelrack_answer answer;
    for (int i = 0; i < revisions; i++) {
        size += strlen(words[i]) + 1;
    }
    asked = in_memory(malloc(size));
    at += (size_t)sprintf(asked, "newest%s", revisions == 0 ? " HEAD" : "");
    for (int i = 0; i < revisions; i++) {
        at += (size_t)sprintf(asked + at, " %s", words[i]);
    }
    text = in_memory(malloc(64));
    answer = kestrelrack_resolve_in(asked, at, files, count, text, 64);
    if (answer.number == KESTRELRACK_ROOM) {
        free(text);
        text = in_memory(malloc(answer.length));
        answer = kestrelrack_resolve_in(asked, at, files, count, text, answer.length);
    }
    if (answer.number != KESTRELRACK_WELL) {
        fail_by(answer);
    }
    free(asked);
    *length = answer.length;
    return text;
}

static void write_commit(const struct kestrelrack_commit *commit) {
    for (size_t i = 0; i < commit->id_length; i++) {
        printf("%02x", commit->id.bytes[i]);
    }
    printf(" %" PRId64 " %zu\n", commit->time, commit->parents);
}

int main(int arguments, char **words) {
    static const char *const parts[] = {"HEAD", "config", "packed-refs", "shallow", "refs", "objects"};
    size_t length, number, many;
    struct kestrelrack_commit *commits;
    struct kestrelrack_id *parents;
    struct kestrelrack_answer answer;
    char *text;
    if (arguments < 2) {
        fail("history .git [NUMBER [REVISION..]]");
    }
    for (size_t i = 0; i < sizeof parts / sizeof *parts; i++) {
        add_below(words[1], parts[i]);
    }
    number = arguments > 2 ? strtoul(words[2], NULL, 10) : 10;
    text = resolved(arguments > 3 ? arguments - 3 : 0, words + 3, &length);
    many = 16 * number + 64;
    commits = in_memory(calloc(number + 1, sizeof *commits));
    parents = in_memory(calloc(many, sizeof *parents));
    answer = kestrelrack_commits_in(text, length, files, count, 0, commits, number, parents, many);
    for (size_t i = 0; i < answer.length; i++) {
        write_commit(commits + i);
    }
    if (answer.number != KESTRELRACK_WELL && answer.number != KESTRELRACK_MORE && !(answer.number == KESTRELRACK_ROOM && number == 0)) {
        fail_by(answer);
    }
    return 0;
}
