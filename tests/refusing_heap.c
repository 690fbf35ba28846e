// The heap of a built program that counts its growths and refuses some of them, and counts and refuses threads in the
// same way. tests/refuse links it in the place of the heap that the program stands on.
//   REFUSE=N, REFUSE_THREAD=N    the Nth is refused; N+: the Nth and all behind it
//   REFUSE_MARKED=1              only what is asked for between two marks is counted and refused; a mark is a growth of
//                                MARK bytes, which tests of single calls ask for and give back
//   REFUSE_TELL=FILE             at the end, "growths threads refused left" is written there: how many of each were
//                                asked for, how many were refused, and how many blocks were never given back
#include <errno.h>
#include <pthread.h>
#include <stdatomic.h>
#include <stdbool.h>
#include <stdio.h>
#include <stdlib.h>
#include <string.h>

// What a growth answers: whether there is a block, and the block.
struct tried {
  bool ok;
  void *block;
};

// How many were asked for, and which are refused.
struct counted {
  atomic_long asked;
  long first;
  bool and_all_behind;
};

enum { MARK = 4242421 };

static struct counted growths, threads;
static atomic_long refused, left;
static atomic_bool counts = true;
static bool is_marked;
static char nothing;

static void plan(struct counted *what, const char *name) {
  const char *text = getenv(name);
  if (text) {
    what->first = atol(text);
    what->and_all_behind = strchr(text, '+') != NULL;
  }
}

__attribute__((constructor)) static void begin(void) {
  plan(&growths, "REFUSE");
  plan(&threads, "REFUSE_THREAD");
  is_marked = getenv("REFUSE_MARKED") != NULL;
  counts = !is_marked;
}

__attribute__((destructor)) static void tell(void) {
  const char *name = getenv("REFUSE_TELL");
  FILE *file = name ? fopen(name, "w") : NULL;
  if (file) {
    fprintf(file, "%ld %ld %ld %ld\n", growths.asked, threads.asked, refused, left);
    fclose(file);
  }
}

// Counts one more, and answers whether it is refused.
static bool refuses(struct counted *what) {
  if (!counts) return false;
  long number = atomic_fetch_add(&what->asked, 1) + 1;
  bool no = what->first > 0 && (number == what->first || (what->and_all_behind && number > what->first));
  if (no) atomic_fetch_add(&refused, 1);
  return no;
}

struct tried rattle_alloc(size_t size, size_t align) {
  bool is_mark = is_marked && size == MARK;
  if (is_mark) counts = !counts;
  void *block = !is_mark && refuses(&growths) ? NULL : malloc(size ? size : align);
  if (block) atomic_fetch_add(&left, 1);
  return (struct tried){block != NULL, block ? block : &nothing};
}

struct tried rattle_realloc(void *old, size_t kept, size_t size, size_t align) {
  (void)kept;
  void *block = refuses(&growths) ? NULL : realloc(old, size ? size : align);
  return (struct tried){block != NULL, block ? block : &nothing};
}

void rattle_dealloc(void *block) {
  atomic_fetch_sub(&left, 1);
  free(block);
}

int __real_pthread_create(pthread_t *, const pthread_attr_t *, void *(*)(void *), void *);

int __wrap_pthread_create(pthread_t *thread, const pthread_attr_t *attributes, void *(*begins)(void *), void *argument) {
  if (refuses(&threads)) return EAGAIN;
  return __real_pthread_create(thread, attributes, begins, argument);
}

_Noreturn void __real__exit(int status);

// A program with threads ends in this way, and no destructor runs.
_Noreturn void __wrap__exit(int status) {
  tell();
  __real__exit(status);
}
