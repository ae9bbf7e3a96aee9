/* A library to be loaded before the system's, which refuses one allocation of a thread that writes a store's records.

   A thread is one that writes them from when it first opens a file whose name ends in ".records.part" on, and it is that vnode's whose
   number stands before this end. What is asked of the library stands in the file that REFUSALS names, three numbers of the machine's:
   of which vnode's thread an allocation is refused, or one below 0 for any; which of them is, counted from 0 from when that was
   written, or one below 0 for none; and, from the library, how many there were. A block that shrinks is never refused.
   refused_snapshots.py compiles this. */
#include "refusing.h"
#include <fcntl.h>
#include <stdarg.h>
#include <string.h>
#include <sys/mman.h>

static int (*system_open)(const char *, int, ...);
static volatile long *asked;
static __thread int writes;
static __thread int vnode;

static void find_more(void) {
    system_open = dlsym(RTLD_NEXT, "open");
    int file = system_open(getenv("REFUSALS"), O_RDWR);
    asked = mmap(NULL, 3 * sizeof(long), PROT_READ | PROT_WRITE, MAP_SHARED, file, 0);
}

static int is_refused(void) {
    if (!writes || (asked[0] >= 0 && asked[0] != vnode) || asked[1] < 0 || asked[2]++ != asked[1])
        return 0;
    errno = ENOMEM;
    return 1;
}

int open(const char *name, int flags, ...) {
    static const char end[] = ".records.part";
    size_t length = strlen(name);
    if (!writes && length > strlen(end) && !strcmp(name + length - strlen(end), end)) {
        writes = 1;
        vnode = name[length - strlen(end) - 1] - '0';
    }
    va_list more;
    va_start(more, flags);
    int mode = va_arg(more, int);
    va_end(more);
    return system_open(name, flags, mode);
}

int open64(const char *name, int flags, ...) __attribute__((alias("open")));
