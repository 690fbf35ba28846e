/* Takes the words of the program and the rules on standard input, as the program does, and answers by the library.
 *
 *     cc -I include examples/solve.c c/out/libgdlsolve.a -o c/out/solve
 *     c/out/solve solve --role a --depth 1 < games/matching_pennies.kif
 */
#include <gdlsolve.h>
#include <stdio.h>
#include <stdlib.h>
#include <string.h>

/* Bytes that were put together, and how many. */
struct bytes {
    char *at;
    size_t size;
};

/* The place for so many bytes, or the end of the program. */
static char *place(char *old, size_t size) {
    char *at = realloc(old, size ? size : 1);
    if (!at) {
        fputs("no memory\n", stderr);
        exit(GDLSOLVE_NO_MEMORY);
    }
    return at;
}

/* The words, each with a byte 0 behind it. */
static struct bytes joined(int count, char **words) {
    struct bytes all = {place(NULL, 0), 0};
    for (int word = 0; word < count; word++) {
        size_t more = strlen(words[word]) + 1;
        all.at = place(all.at, all.size + more);
        memcpy(all.at + all.size, words[word], more);
        all.size += more;
    }
    return all;
}

/* All that a file has. */
static struct bytes read_all(FILE *file) {
    struct bytes all = {place(NULL, 4096), 0};
    size_t room = 4096, more;
    while ((more = fread(all.at + all.size, 1, room - all.size, file)) > 0) {
        all.size += more;
        if (all.size == room)
            all.at = place(all.at, room *= 2);
    }
    return all;
}

int main(int count, char **words) {
    struct bytes command = joined(count > 1 ? count - 1 : 0, words + 1), rules = read_all(stdin);
    if (ferror(stdin))
        return 4;
    size_t room = 64, size;
    char *reply = place(NULL, room);
    uint32_t status = gdlsolve_reply(command.at, command.size, rules.at, rules.size, reply, room, &size);
    if (size > room) {
        reply = place(reply, room = size);
        status = gdlsolve_reply(command.at, command.size, rules.at, rules.size, reply, room, &size);
    }
    if (status == GDLSOLVE_NO_MEMORY)
        fputs("no memory\n", stderr);
    fwrite(reply, 1, size, status == GDLSOLVE_MISUSE ? stderr : stdout);
    free(reply);
    free(rules.at);
    free(command.at);
    return (int)status;
}
