/* Refuses each allocation of a program in turn, in one run of it. Goes in front of the C library, by LD_PRELOAD; bench/refused_allocations
 * makes it, asks it, and says what it found.
 *
 * At each call that asks for memory the process splits twice. The first copy is refused this call alone, the second this one and each
 * that follows; what a copy writes and ends with is compared with what the whole run is to give. Then the process itself gets its memory
 * and goes on. WANTED names a file with the text that the whole run writes, WANTED_STATUS is its status, and COUNTS names a file of zeros
 * for the counts.
 */
#define _GNU_SOURCE
#include <errno.h>
#include <fcntl.h>
#include <stdlib.h>
#include <string.h>
#include <sys/mman.h>
#include <sys/stat.h>
#include <sys/wait.h>
#include <unistd.h>

extern void *__libc_malloc(size_t);
extern void *__libc_calloc(size_t, size_t);
extern void *__libc_realloc(void *, size_t);
extern void *__libc_memalign(size_t, size_t);

enum { ONE, REST, MODES };

/* What came of the copies of a mode: the whole text; want of memory; nothing written, with the status of want of memory, which is right
 * only before the program has its words; something else, and at which call it came first, with which status and text. */
struct tally {
    long whole, wanting, silent, late_silent, other, first, status;
    char text[80];
};

struct counts {
    long calls, failures;
    struct tally tallies[MODES];
};

static const char WANT[] = "want of memory\n";
enum { NO_MEMORY = 7, SECONDS = 60 };

static struct counts *counts;
static const char *wanted;
static size_t wanted_size;
static int wanted_status, is_armed, is_refusing;
static char found[1 << 20];

/* A file that an environment variable names, in memory. */
static void *mapped(const char *variable, int protection, size_t *size) {
    int file = open(getenv(variable), protection & PROT_WRITE ? O_RDWR : O_RDONLY);
    struct stat about;
    if (file < 0 || fstat(file, &about) || about.st_size == 0) _exit(99);
    void *memory = mmap(NULL, about.st_size, protection, MAP_SHARED, file, 0);
    close(file);
    if (memory == MAP_FAILED) _exit(99);
    if (size) *size = about.st_size;
    return memory;
}

__attribute__((constructor)) static void begin(void) {
    if (!getenv("COUNTS")) return;
    counts = mapped("COUNTS", PROT_READ | PROT_WRITE, NULL);
    wanted = mapped("WANTED", PROT_READ, &wanted_size);
    wanted_status = atoi(getenv("WANTED_STATUS"));
    is_armed = 1;
}

static int is_found(size_t size, const char *text, size_t length) {
    return size == length && memcmp(found, text, length) == 0;
}

/* Counts what a copy wrote, in so many bytes, and how it ended. */
static void judge(struct tally *tally, size_t size, int status) {
    int code = WIFEXITED(status) ? WEXITSTATUS(status) : 1000 + WTERMSIG(status);
    if (code == wanted_status && is_found(size, wanted, wanted_size)) tally->whole++;
    else if (code == NO_MEMORY && is_found(size, WANT, sizeof WANT - 1)) tally->wanting++;
    else if (code == NO_MEMORY && size == 0) (tally->wanting || tally->whole ? tally->late_silent++ : tally->silent++);
    else if (!tally->other++) {
        tally->first = counts->calls;
        tally->status = code;
        memcpy(tally->text, found, size < sizeof tally->text ? size : sizeof tally->text);
    }
}

/* Splits the process: true in the copy, and in the process itself false, once the copy has ended and is counted. */
static int is_copy(int mode) {
    int ends[2], status = 0;
    size_t size = 0;
    ssize_t got;
    pid_t copy = pipe(ends) ? -1 : fork();
    if (copy < 0) {
        counts->failures++;
        return 0;
    }
    if (copy == 0) {
        alarm(SECONDS);
        dup2(ends[1], STDOUT_FILENO);
        close(ends[0]);
        close(ends[1]);
        is_refusing = mode == REST;
        return 1;
    }
    close(ends[1]);
    while ((got = read(ends[0], found + size, sizeof found - size)) > 0) size += got;
    close(ends[0]);
    waitpid(copy, &status, 0);
    judge(&counts->tallies[mode], size, status);
    return 0;
}

/* Whether this call is refused. */
static int is_refused(void) {
    if (is_refusing) return 1;
    if (!is_armed) return 0;
    is_armed = 0;
    counts->calls++;
    for (int mode = 0; mode < MODES; mode++)
        if (is_copy(mode)) return 1;
    is_armed = 1;
    return 0;
}

static void *none(void) {
    errno = ENOMEM;
    return NULL;
}

void *malloc(size_t size) { return is_refused() ? none() : __libc_malloc(size); }

void *calloc(size_t count, size_t size) { return is_refused() ? none() : __libc_calloc(count, size); }

void *realloc(void *old, size_t size) { return is_refused() ? none() : __libc_realloc(old, size); }

void *aligned_alloc(size_t alignment, size_t size) { return is_refused() ? none() : __libc_memalign(alignment, size); }

int posix_memalign(void **place, size_t alignment, size_t size) {
    void *memory = is_refused() ? NULL : __libc_memalign(alignment, size);
    if (!memory) return ENOMEM;
    *place = memory;
    return 0;
}
