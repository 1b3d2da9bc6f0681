/* Loaded before a program (LD_PRELOAD), refuses it one allocation. REFUSE says which, counted from 1, and the descriptor on which
   a byte then tells of it. */
#include <errno.h>
#include <stddef.h>
#include <stdlib.h>
#include <unistd.h>

extern void *__libc_malloc(size_t);
extern void *__libc_realloc(void *, size_t);

static unsigned long asked, refused;
static int told;

__attribute__((constructor)) static void begin(void) {
    char *text = getenv("REFUSE");
    if (!text) return;
    refused = strtoul(text, &text, 10);
    told = atoi(text);
}

static int is_refused(void) {
    if (__atomic_add_fetch(&asked, 1, __ATOMIC_RELAXED) != refused) return 0;
    int tells = write(told, "!", 1) == 1;
    errno = ENOMEM;
    return tells;
}

void *malloc(size_t size) { return is_refused() ? NULL : __libc_malloc(size); }

void *realloc(void *old, size_t size) { return is_refused() ? NULL : __libc_realloc(old, size); }
