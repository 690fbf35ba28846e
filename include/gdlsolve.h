/* The library of gdlsolve for C and for what calls C: a call that answers a command over the rules of a game, one that explains a refusal,
 * and a handle on rules over which many commands are asked.
 *
 * docs/EMBEDDING.md says how the library is built and what is proved of the calls; docs/USAGE.md tells the commands and their replies.
 */
#ifndef GDLSOLVE_H
#define GDLSOLVE_H

#include <stddef.h>
#include <stdint.h>

#ifdef __cplusplus
extern "C" {
#endif

/* What a call answers. */
enum gdlsolve_status {
    /* The reply is the answer to the command, as the program writes it. */
    GDLSOLVE_ANSWER = 0,
    /* The words make no command. The reply is a text for people: what is wrong with them, or the help or the version that they ask
     * for. The rules were not looked at. */
    GDLSOLVE_MISUSE = 1,
    /* The reply is the one line of a refusal, as the program writes it: the first fault of the rules, the role or the history. */
    GDLSOLVE_REFUSED = 2,
    /* Want of memory. There is no reply, and its size is 0. */
    GDLSOLVE_NO_MEMORY = 3
};

/* Answers the command that the words make, over the rules, and gives a gdlsolve_status.
 *
 * words, words_size: the words of the program behind its name, in UTF-8, each with a byte 0 behind it; so the words of
 *     "gdlsolve moves --after '(h t)'" are "moves\0--after\0(h t)\0", which are 20 bytes.
 * rules, rules_size: the bytes that the program would read.
 * room, room_size: where the reply goes. It gets as many bytes of the reply as it has place for, with no byte 0 behind them; what is
 *     behind them stays as it was.
 * size: where the size of the whole reply goes, in bytes. Where it is more than room_size, the same call with that much room gives
 *     all of it.
 *
 * No pointer may be null, also where its size is 0, and neither the room nor the size may lie over anything else that is passed.
 *
 * The calling thread does all the work, however many threads the word behind --cut names; the reply does not depend on them. Nothing
 * is kept from one call to the next, but behind a handle, and several threads may call at once. Memory is taken by malloc and given back before the call
 * returns. Do not call it from a signal handler, nor in the child of a fork of a process with threads. */
uint32_t gdlsolve_reply(const char *words, size_t words_size, const char *rules, size_t rules_size, char *room, size_t room_size,
                        size_t *size);

/* Explains a refusal, for people, as the program does on standard error: where the fault stands, and what it is about.
 *
 * words, words_size, rules, rules_size: those of the call of gdlsolve_reply that was refused.
 * reply, reply_size: the line that it gave.
 * room, room_size, size: as for gdlsolve_reply, for the text that explains it.
 *
 * It gives GDLSOLVE_ANSWER and a text; GDLSOLVE_MISUSE, with a size of 0, where the words make no command; or GDLSOLVE_NO_MEMORY, with a
 * size of 0. Of a reply that is no refusal the text says little. What is said of pointers, threads and memory above holds of it too. */
uint32_t gdlsolve_explain(const char *words, size_t words_size, const char *rules, size_t rules_size, const char *reply, size_t reply_size,
                          char *room, size_t room_size, size_t *size);

/* What is kept of rules: their bytes, and the game of them once it was asked for. Only the functions below look into it. */
typedef struct gdlsolve_handle gdlsolve_handle;

/* Opens a handle on the rules, whose bytes it keeps, and gives GDLSOLVE_ANSWER; or GDLSOLVE_NO_MEMORY, and then the handle is null.
 *
 * rules, rules_size: the bytes that the program would read. They may have faults: an ask tells them, as gdlsolve_reply does.
 * handle: where the handle goes. It is given back by gdlsolve_close. */
uint32_t gdlsolve_open(const char *rules, size_t rules_size, gdlsolve_handle **handle);

/* Answers the command that the words make, over the rules of the handle, as gdlsolve_reply does over their bytes.
 *
 * handle: one that gdlsolve_open gave and that was not closed yet.
 * words, words_size, room, room_size, size: as for gdlsolve_reply, and so are the status and the reply.
 *
 * The game of the rules is made by the first ask that needs it and stays for the next, so each further ask costs what its search does.
 * After GDLSOLVE_NO_MEMORY too the handle may be asked again, and answers right. A handle serves one call at a time; whoever hands it from
 * thread to thread orders its calls, as by a lock. Several handles may serve at once. */
uint32_t gdlsolve_ask(gdlsolve_handle *handle, const char *words, size_t words_size, char *room, size_t room_size, size_t *size);

/* Closes a handle: all memory that it has is given back. It is not used again. */
void gdlsolve_close(gdlsolve_handle *handle);

#ifdef __cplusplus
}
#endif

#endif
