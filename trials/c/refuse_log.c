/* A library to be loaded before the system's, which refuses one allocation of a thread that forces a store's log.

   A thread is one from when it first calls `fdatasync` on. What is asked of the library stands in the file that REFUSALS names, three
   numbers of the machine's, of which the first is passed over: which allocation is refused, counted from 0 from when that was written,
   or one below 0 for none; and, from the library, how many there were. A block that shrinks is never refused. refused_logs.py compiles
   this. */
#include "refusing.h"
#include <fcntl.h>
#include <sys/mman.h>

static int (*system_fdatasync)(int);
static volatile long *asked;
static __thread int forces;

static void find_more(void) {
    system_fdatasync = dlsym(RTLD_NEXT, "fdatasync");
    int file = open(getenv("REFUSALS"), O_RDWR);
    asked = mmap(NULL, 3 * sizeof(long), PROT_READ | PROT_WRITE, MAP_SHARED, file, 0);
}

static int is_refused(void) {
    if (!forces || asked[1] < 0 || asked[2]++ != asked[1])
        return 0;
    errno = ENOMEM;
    return 1;
}

int fdatasync(int file) {
    forces = 1;
    return system_fdatasync(file);
}
