/* Preloaded to a program, refuses some of its allocations. The calls of malloc and realloc are numbered from 1; those from `first` up to but not
   including `end` return NULL. The numbers are in a file that tools/try_memory wrote, whose descriptor REFUSALS names. There is no #include, so
   that the kit's compiler can compile it without a C library's headers. */
typedef __SIZE_TYPE__ size_t;

extern void *__libc_malloc(size_t size);
extern void *__libc_realloc(void *at, size_t size);
extern char *getenv(const char *name);
extern int atoi(const char *text);
extern void *mmap(void *at, size_t size, int protection, int flags, int file, long offset);

enum { READ_AND_WRITE = 3, SHARED = 1 };

/* How many calls were made and how many refused, as the file has them afterwards. */
static struct refusals {
    unsigned long first, end, made, refused;
} *refusals;

__attribute__((constructor)) static void map_refusals(void) {
    const char *file = getenv("REFUSALS");
    if (!file) return;
    void *mapped = mmap(0, sizeof *refusals, READ_AND_WRITE, SHARED, atoi(file), 0);
    if (mapped != (void *) -1) refusals = mapped;
}

static int is_refused(void) {
    if (!refusals) return 0;
    unsigned long number = __atomic_add_fetch(&refusals->made, 1, __ATOMIC_RELAXED);
    if (number < refusals->first || number >= refusals->end) return 0;
    __atomic_add_fetch(&refusals->refused, 1, __ATOMIC_RELAXED);
    return 1;
}

void *malloc(size_t size) { return is_refused() ? 0 : __libc_malloc(size); }
void *realloc(void *at, size_t size) { return is_refused() ? 0 : __libc_realloc(at, size); }
