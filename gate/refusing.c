// A malloc that makes allocations fail. gate/refusals.py loads it before that of the C library (LD_PRELOAD). It is not part
// of the program. crates/tq_tests_script/src/refusal.rt controls it from a test program.
//
// The sizes of requested blocks are commands. A block of MARK + 2 n bytes, n > 0, makes the nth of the following allocations
// fail. A block of MARK + 2 n + 1 bytes makes the nth and all later ones fail. Both commands return no block. A block of MARK
// bytes ends this, and is returned only if no allocation failed. Commands do not count as allocations.
//
// If the environment variable TQ_REFUSED is n, the nth allocation of the whole run fails. If it is -n, the nth and all later
// ones fail. Then sizes are no commands, and the number of allocations is printed on descriptor 2 at the end.

enum { MARK = 5921370, MOST = 65536, NO_MEMORY = 12 }; // ENOMEM

extern void *__libc_malloc(unsigned long size);
extern void *__libc_calloc(unsigned long count, unsigned long size);
extern void *__libc_realloc(void *block, unsigned long size);
extern char *getenv(const char *name);
extern int *__errno_location(void);
extern int dprintf(int descriptor, const char *form, ...);
extern void _Exit(int status) __attribute__((noreturn));

static long left;        // the number of the allocation that fails, counted from the next one; 0: none fails
static int lasts;        // whether all later ones fail too
static long refused;     // how many failed
static long allocations; // how many there were
static int is_counting;  // whether TQ_REFUSED is set

__attribute__((constructor)) static void begin(void) {
    const char *text = getenv("TQ_REFUSED");
    if (!text) return;
    lasts = *text == '-';
    text += lasts;
    long number = 0;
    while ('0' <= *text && *text <= '9') number = 10 * number + (*text++ - '0');
    allocations = 0;
    is_counting = 1;
    left = number;
}

__attribute__((destructor)) static void end(void) {
    if (is_counting) dprintf(2, "allocations: %ld\n", __atomic_load_n(&allocations, __ATOMIC_SEQ_CST));
}

// A program that calls `_exit` runs no destructors.
void _exit(int status) {
    end();
    _Exit(status);
}

static int is_refused(void) {
    __atomic_add_fetch(&allocations, 1, __ATOMIC_SEQ_CST);
    long now = __atomic_load_n(&left, __ATOMIC_SEQ_CST);
    while (now > 0) {
        long next = now == 1 ? (lasts ? 1 : 0) : now - 1;
        if (__atomic_compare_exchange_n(&left, &now, next, 0, __ATOMIC_SEQ_CST, __ATOMIC_SEQ_CST)) {
            if (now == 1) {
                __atomic_add_fetch(&refused, 1, __ATOMIC_SEQ_CST);
                *__errno_location() = NO_MEMORY;
            }
            return now == 1;
        }
    }
    return 0;
}

// Whether the size is a command. If so, `given` is set to whether the block is allocated.
static int is_command(unsigned long size, int *given) {
    if (is_counting || size < MARK || size >= MARK + MOST) return 0;
    long number = (long)(size - MARK) / 2;
    __atomic_store_n(&left, 0, __ATOMIC_SEQ_CST);
    if (number == 0) {
        *given = __atomic_exchange_n(&refused, 0, __ATOMIC_SEQ_CST) == 0;
        return 1;
    }
    lasts = (size - MARK) % 2;
    __atomic_store_n(&refused, 0, __ATOMIC_SEQ_CST);
    __atomic_store_n(&left, number, __ATOMIC_SEQ_CST);
    *given = 0;
    return 1;
}

void *malloc(unsigned long size) {
    int given;
    if (is_command(size, &given)) return given ? __libc_malloc(size) : 0;
    return is_refused() ? 0 : __libc_malloc(size);
}

void *calloc(unsigned long count, unsigned long size) { return is_refused() ? 0 : __libc_calloc(count, size); }

void *realloc(void *block, unsigned long size) { return is_refused() ? 0 : __libc_realloc(block, size); }
