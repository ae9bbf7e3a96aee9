/* What is common to libraries that are loaded before the system's and refuse some of a program's allocations: malloc and realloc. Whoever
   includes this has is_refused, whether the allocation at hand is refused, and find_more, which is called once, before all others. A
   block that shrinks is never refused. */
#define _GNU_SOURCE
#include <dlfcn.h>
#include <errno.h>
#include <malloc.h>
#include <stdlib.h>

static void *(*system_malloc)(size_t);
static void *(*system_realloc)(void *, size_t);

static int is_refused(void);
static void find_more(void);

__attribute__((constructor)) static void find(void) {
    system_malloc = dlsym(RTLD_NEXT, "malloc");
    system_realloc = dlsym(RTLD_NEXT, "realloc");
    find_more();
}

void *malloc(size_t size) {
    if (!system_malloc)
        find();
    return is_refused() ? NULL : system_malloc(size);
}

void *realloc(void *block, size_t size) {
    if (!system_realloc)
        find();
    int grows = !block || size > malloc_usable_size(block);
    return grows && is_refused() ? NULL : system_realloc(block, size);
}
