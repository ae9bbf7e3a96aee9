/* A library to be loaded before the system's, which refuses allocations of a program one by one.

   Between getenv("REFUSAL_BEGIN") and getenv("REFUSAL_MET") allocations count, and one is refused: the first in the first such stretch,
   and in each further stretch the next. REFUSAL_MET has a value where one was refused. Where none was, the next stretch begins anew
   with the first allocation, and how many stretches were refused is written to standard error. A block that shrinks is never refused.
   The program has one thread. refused_calls.py compiles this. */
#include "refusing.h"
#include <stdio.h>
#include <string.h>

static char *(*system_getenv)(const char *);

static unsigned long seen, refused;
static int counts, met;

static void find_more(void) {
    system_getenv = dlsym(RTLD_NEXT, "getenv");
}

static int is_refused(void) {
    if (!counts || seen++ != refused)
        return 0;
    met = 1;
    errno = ENOMEM;
    return 1;
}

static char *begin(void) {
    seen = 0;
    met = 0;
    counts = 1;
    return NULL;
}

static char *end(void) {
    static char yes[] = "";
    counts = 0;
    if (met) {
        refused++;
        return yes;
    }
    fprintf(stderr, "%lu\n", refused);
    refused = 0;
    return NULL;
}

char *getenv(const char *name) {
    if (!system_getenv)
        find();
    if (!strcmp(name, "REFUSAL_BEGIN"))
        return begin();
    if (!strcmp(name, "REFUSAL_MET"))
        return end();
    return system_getenv(name);
}
