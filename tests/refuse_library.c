/* Refuses each growth of memory of one call of the library in turn, and then each with all behind it; and the same of a handle that is opened
 * and asked twice. It is linked with --wrap=malloc, --wrap=realloc and --wrap=free, and takes the file of the rules and the words. Each call
 * has to give what ample memory gave, or status 3 with a size of 0 and the room as it was, and to give back all that it took. A handle that
 * was opened has to answer as ample memory does once memory is there again, and gives back all when it is closed. The status is 1 where
 * something did not. */
#include <gdlsolve.h>
#include <stdio.h>
#include <stdlib.h>
#include <string.h>

enum { ROOM = 1 << 17, UNUSED = '~' };

void *__real_malloc(size_t size);
void *__real_realloc(void *old, size_t size);
void __real_free(void *old);

static long growths, refused, held;
static int with_all_behind;

static int is_refused(void) {
    growths++;
    return refused && (growths == refused || (with_all_behind && growths > refused));
}

void *__wrap_malloc(size_t size) {
    void *at = is_refused() ? NULL : __real_malloc(size);
    held += at != NULL;
    return at;
}

void *__wrap_realloc(void *old, size_t size) {
    void *at = is_refused() ? NULL : __real_realloc(old, size);
    held += at != NULL && old == NULL;
    return at;
}

void __wrap_free(void *old) {
    held -= old != NULL;
    __real_free(old);
}

/* What a call gave. */
struct reply {
    uint32_t status;
    size_t size;
    char room[ROOM];
};

static char words[4096], rules[1 << 21];
static size_t words_size, rules_size;
static struct reply ample, got;

/* A call in which this growth is refused, or none at 0. */
static void call(struct reply *reply, long growth) {
    memset(reply->room, UNUSED, ROOM);
    reply->size = ROOM;
    growths = held = 0;
    refused = growth;
    reply->status = gdlsolve_reply(words, words_size, rules, rules_size, reply->room, ROOM, &reply->size);
    refused = 0;
}

static int is_starved(const struct reply *reply) {
    for (size_t place = 0; place < ROOM; place++)
        if (reply->room[place] != UNUSED)
            return 0;
    return reply->status == GDLSOLVE_NO_MEMORY && reply->size == 0;
}

static int is_ample(const struct reply *reply) {
    return reply->status == ample.status && reply->size == ample.size && !memcmp(reply->room, ample.room, ROOM);
}

/* An ask over a handle. */
static void ask(gdlsolve_handle *handle, struct reply *reply) {
    memset(reply->room, UNUSED, ROOM);
    reply->size = ROOM;
    reply->status = gdlsolve_ask(handle, words, words_size, reply->room, ROOM, &reply->size);
}

/* Whether an ask gives what ample memory gave, or where it starved nothing, which is counted. */
static int is_right(gdlsolve_handle *handle, long *starved) {
    ask(handle, &got);
    *starved += is_starved(&got);
    return is_starved(&got) || is_ample(&got);
}

/* A handle that is opened and asked twice while this growth is refused, or none at 0. It gives how many growths there were, and counts
 * calls that starved and whether something was wrong. */
static long use_handle(long growth, long *starved, long *wrong) {
    gdlsolve_handle *handle = NULL;
    growths = held = 0;
    refused = growth;
    uint32_t status = gdlsolve_open(rules, rules_size, &handle);
    long right = (status == GDLSOLVE_ANSWER) == (handle != NULL) && (status == GDLSOLVE_ANSWER || status == GDLSOLVE_NO_MEMORY);
    *starved += status == GDLSOLVE_NO_MEMORY;
    if (handle) {
        right &= is_right(handle, starved);
        right &= is_right(handle, starved);
    }
    long all = growths;
    refused = 0;
    if (handle) {
        ask(handle, &got);
        right &= is_ample(&got);
        gdlsolve_close(handle);
    }
    *wrong += !right || held != 0;
    return all;
}

int main(int count, char **given) {
    FILE *file = count > 1 ? fopen(given[1], "rb") : NULL;
    if (!file)
        return 2;
    rules_size = fread(rules, 1, sizeof rules, file);
    fclose(file);
    for (int word = 2; word < count && words_size + strlen(given[word]) < sizeof words; word++) {
        strcpy(words + words_size, given[word]);
        words_size += strlen(given[word]) + 1;
    }
    call(&ample, 0);
    long all = growths, wrong = held != 0;
    for (with_all_behind = 0; with_all_behind < 2; with_all_behind++) {
        long starved = 0;
        for (long growth = 1; growth <= all; growth++) {
            call(&got, growth);
            starved += is_starved(&got);
            wrong += held != 0 || (!is_starved(&got) && !is_ample(&got));
        }
        printf("%s%ld of %ld: no memory", with_all_behind ? ", with all behind it " : "", starved, all);
    }
    printf("; by a handle ");
    long starved = 0, of_handle = use_handle(0, &starved, &wrong);
    wrong += starved;
    for (with_all_behind = 0; with_all_behind < 2; with_all_behind++) {
        starved = 0;
        for (long growth = 1; growth <= of_handle; growth++)
            use_handle(growth, &starved, &wrong);
        printf("%s%ld calls starved at %ld growths", with_all_behind ? ", with all behind " : "", starved, of_handle);
    }
    printf("; %ld wrong\n", wrong);
    return wrong != 0;
}
