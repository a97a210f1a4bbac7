// Loaded before a program, refuses one of its allocations: the one whose number, from 1, the variable REFUSED has. As the
// program ends it says on standard error how many were asked for.

extern char *getenv(const char *);
extern unsigned long strtoul(const char *, char **, int);
extern int dprintf(int, const char *, ...);
extern long syscall(long, ...);
extern void *__libc_malloc(unsigned long);
extern void *__libc_realloc(void *, unsigned long);

static unsigned long refused;
static unsigned long asked;

__attribute__((constructor)) static void begin(void) {
    const char *number = getenv("REFUSED");
    refused = number ? strtoul(number, 0, 10) : 0;
}

__attribute__((destructor)) static void end(void) {
    dprintf(2, "allocations: %lu\n", asked);
}

// A program that ends by this call runs no destructor.
void _exit(int status) {
    end();
    for (;;)
        syscall(231, status); // exit_group
}

static int is_refused(void) {
    return __atomic_add_fetch(&asked, 1, __ATOMIC_RELAXED) == refused;
}

void *malloc(unsigned long size) {
    return is_refused() ? 0 : __libc_malloc(size);
}

void *realloc(void *place, unsigned long size) {
    return is_refused() ? 0 : __libc_realloc(place, size);
}
