// A library that is loaded before the program (LD_PRELOAD) and refuses it memory, for tests/growths/sweep.py.
//
// At each growth of memory the process is copied twice. In the first copy this growth is refused, in the second one this growth and
// each one after it. A copy runs to its end, while the process that it was taken from waits; that one is refused nothing. So the run
// before a growth is made once, and not once for each growth that follows.
//
// A growth is a call of malloc, calloc, aligned_alloc, posix_memalign or memalign, and a call of realloc that asks for more than the
// block was asked for. GROWTHS has two numbers: a descriptor, on which the script is told of growths and answers each message with one
// byte, and a step: of the growths each one is told whose number, from 1 in `main`, is a multiple of it.
#define _GNU_SOURCE
#include <dlfcn.h>
#include <errno.h>
#include <limits.h>
#include <link.h>
#include <malloc.h>
#include <stdint.h>
#include <stdlib.h>
#include <string.h>
#include <sys/mman.h>
#include <sys/socket.h>
#include <sys/wait.h>
#include <unistd.h>

// What a message is about: a growth that is asked for, a copy that has ended, or the end of the process.
enum { ASKED, ENDED, OVER };

// What a copy is refused: one growth, or that and all that follow.
enum { ONE, ALL };

// Whose growth it is: that of the program's own code, one of the C library that the program calls, or one before `main`. The last ones
// are counted and not refused: what would be answered is the loader's answer, and none of the program's.
enum { PROGRAM, LIBRARY, LOADER, KINDS };

struct message {
    int32_t about;
    int32_t whose;
    int32_t copy;           // ENDED: ONE or ALL
    int32_t status;         // ENDED: as waitpid gives it
    int64_t number;         // of the growth
    int64_t refused;        // ENDED: how many growths the copy was refused
    int64_t growths[KINDS]; // how many there were so far
};

// A copy that doesn't end is ended after so many seconds.
enum { LONGEST_COPY = 60 };

// So many descriptors are set back to where they stood, since a copy and its process share the place in a file.
enum { DESCRIPTORS = 32 };

static void *(*real_malloc)(size_t);
static void *(*real_calloc)(size_t, size_t);
static void *(*real_realloc)(void *, size_t);
static void *(*real_memalign)(size_t, size_t);
static void (*real_free)(void *);

static int descriptor = -1; // -1 before `main` and in a copy
static int is_copy;
static long step;
static int64_t growths[KINDS], number;
static int64_t left;             // how many growths this copy is still refused
static int64_t *refused;         // how many a copy was; shared with it
static uintptr_t code, code_end; // where the program's own code lies

// ---- memory for dlsym, which may itself ask for some while it looks for malloc

static _Alignas(16) char early[4096];
static size_t early_used;
static int is_looking;

static int is_early(const void *block) { return (const char *)block >= early && (const char *)block < early + sizeof early; }

static void *early_block(size_t size)
{
    size_t taken = (size + 15) / 16 * 16;
    if (taken < size || taken > sizeof early - early_used) return NULL;
    early_used += taken;
    return early + early_used - taken;
}

static int is_ready(void)
{
    if (real_free) return 1;
    if (is_looking) return 0;
    is_looking = 1;
    real_malloc = dlsym(RTLD_NEXT, "malloc");
    real_calloc = dlsym(RTLD_NEXT, "calloc");
    real_realloc = dlsym(RTLD_NEXT, "realloc");
    real_memalign = dlsym(RTLD_NEXT, "memalign");
    real_free = dlsym(RTLD_NEXT, "free");
    is_looking = 0;
    return 1;
}

// ---- the script

static void tell(int about, int whose, int copy, int status)
{
    struct message message = {about, whose, copy, status, number, *refused, {0}};
    memcpy(message.growths, growths, sizeof growths);
    if (send(descriptor, &message, sizeof message, MSG_NOSIGNAL) != sizeof message) _exit(125);
}

static void wait_for_answer(void)
{
    char byte;
    ssize_t got;
    while ((got = recv(descriptor, &byte, 1, 0)) < 0 && errno == EINTR) {}
    if (got != 1) _exit(125);
}

// ---- copies

// Makes a copy, waits for its end and tells of it. Returns whether this is the copy.
static int copied(int whose, int copy)
{
    off_t places[DESCRIPTORS];
    for (int at = 0; at < DESCRIPTORS; at++) places[at] = lseek(at, 0, SEEK_CUR);
    *refused = 0;
    pid_t child = fork();
    if (child < 0) _exit(125);
    if (child == 0) {
        alarm(LONGEST_COPY);
        close(descriptor);
        descriptor = -1;
        is_copy = 1;
        left = copy == ONE ? 1 : INT64_MAX;
        return 1;
    }
    int status;
    while (waitpid(child, &status, 0) < 0)
        if (errno != EINTR) _exit(125);
    for (int at = 0; at < DESCRIPTORS; at++)
        if (places[at] >= 0) lseek(at, places[at], SEEK_SET);
    tell(ENDED, whose, copy, status);
    wait_for_answer();
    return 0;
}

// Returns whether the growth that this caller asks for is refused.
static int is_refused(const void *caller)
{
    int before = errno;
    if (is_copy && left == 0) return 0;
    if (!is_copy) {
        int whose = descriptor < 0 ? LOADER : (uintptr_t)caller >= code && (uintptr_t)caller < code_end ? PROGRAM : LIBRARY;
        growths[whose]++;
        if (whose == LOADER || ++number % step) return 0;
        tell(ASKED, whose, 0, 0);
        wait_for_answer();
        if (!copied(whose, ONE) && !copied(whose, ALL)) {
            errno = before;
            return 0;
        }
    }
    left--;
    ++*refused;
    errno = ENOMEM;
    return 1;
}

// ---- the calls. A block has a word more than was asked for, its last one, which holds how much was asked for.

enum { WORD = sizeof(size_t) };

static size_t *asked_for(void *block) { return (size_t *)((char *)block + malloc_usable_size(block) / WORD * WORD - WORD); }

static void *noted(void *block, size_t size)
{
    if (block) *asked_for(block) = size;
    return block;
}

static int is_too_large(size_t size) { return size > PTRDIFF_MAX - WORD; }

void *malloc(size_t size)
{
    if (!is_ready()) return early_block(size);
    if (is_refused(__builtin_return_address(0)) || is_too_large(size)) return NULL;
    return noted(real_malloc(size + WORD), size);
}

void *calloc(size_t count, size_t each)
{
    size_t size;
    if (__builtin_mul_overflow(count, each, &size)) size = SIZE_MAX;
    if (!is_ready()) return early_block(size);
    if (is_refused(__builtin_return_address(0)) || is_too_large(size)) return NULL;
    return noted(real_calloc(1, size + WORD), size);
}

void *realloc(void *block, size_t size)
{
    if (!is_ready()) return NULL;
    if ((!block || is_early(block) || size > *asked_for(block)) && is_refused(__builtin_return_address(0))) return NULL;
    if (is_too_large(size)) return NULL;
    if (!is_early(block)) return noted(real_realloc(block, size + WORD), size);
    void *moved = noted(real_malloc(size + WORD), size);
    size_t held = (size_t)(early + sizeof early - (char *)block);
    return moved ? memcpy(moved, block, size < held ? size : held) : NULL;
}

void *memalign(size_t alignment, size_t size)
{
    if (!is_ready() || is_refused(__builtin_return_address(0)) || is_too_large(size)) return NULL;
    return noted(real_memalign(alignment, size + WORD), size);
}

void *aligned_alloc(size_t alignment, size_t size)
{
    if (!is_ready() || is_refused(__builtin_return_address(0)) || is_too_large(size)) return NULL;
    return noted(real_memalign(alignment, size + WORD), size);
}

int posix_memalign(void **block, size_t alignment, size_t size)
{
    if (!is_ready() || is_refused(__builtin_return_address(0)) || is_too_large(size)) return ENOMEM;
    void *found = noted(real_memalign(alignment, size + WORD), size);
    if (!found) return ENOMEM;
    *block = found;
    return 0;
}

// A copy gives nothing back: it would write to each page that it shares with its process, which took most of its time.
void free(void *block)
{
    if (block && !is_copy && !is_early(block) && is_ready()) real_free(block);
}

// ---- the end of the process

__attribute__((destructor)) static void over(void)
{
    if (descriptor < 0) return;
    tell(OVER, 0, 0, 0);
    wait_for_answer();
}

// ---- numbers drawn at random

// They go on from one that the system drew for the process, so copies that write the same write the same bytes, of which the script
// looks at one. No other process draws the same.
int getentropy(void *buffer, size_t size)
{
    static uint64_t drawn;
    static int (*real_getentropy)(void *, size_t);
    if (!real_getentropy) {
        real_getentropy = dlsym(RTLD_NEXT, "getentropy");
        if (!real_getentropy || real_getentropy(&drawn, sizeof drawn) != 0) _exit(125);
    }
    for (size_t at = 0; at < size; at++) {
        drawn = drawn * 6364136223846793005u + 1442695040888963407u;
        ((unsigned char *)buffer)[at] = (unsigned char)(drawn >> 56);
    }
    return 0;
}

// ---- the beginning of `main`

static int (*program_main)(int, char **, char **);

static int begun_main(int count, char **words, char **variables)
{
    const char *given = getenv("GROWTHS");
    if (given) {
        char *rest;
        int wanted = (int)strtol(given, &rest, 10);
        step = strtol(rest, NULL, 10);
        refused = mmap(NULL, sizeof *refused, PROT_READ | PROT_WRITE, MAP_SHARED | MAP_ANONYMOUS, -1, 0);
        if (step < 1 || refused == MAP_FAILED) _exit(125);
        descriptor = wanted;
    }
    return program_main(count, words, variables);
}

// The first object is the program.
static int note_code(struct dl_phdr_info *object, size_t size, void *unused)
{
    (void)size, (void)unused;
    code = UINTPTR_MAX;
    for (int at = 0; at < object->dlpi_phnum; at++) {
        const ElfW(Phdr) *part = &object->dlpi_phdr[at];
        if (part->p_type != PT_LOAD) continue;
        uintptr_t begin = object->dlpi_addr + part->p_vaddr, end = begin + part->p_memsz;
        if (begin < code) code = begin;
        if (end > code_end) code_end = end;
    }
    return 1;
}

int __libc_start_main(int (*main)(int, char **, char **), int count, char **words, void (*init)(void), void (*fini)(void),
                      void (*rtld_fini)(void), void *stack)
{
    int (*start)(int (*)(int, char **, char **), int, char **, void (*)(void), void (*)(void), void (*)(void), void *) =
        dlsym(RTLD_NEXT, "__libc_start_main");
    program_main = main;
    dl_iterate_phdr(note_code, NULL);
    return start(begun_main, count, words, init, fini, rtld_fini, stack);
}
