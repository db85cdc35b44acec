/* Counts requests for memory and refuses the one numbered REFUSE; the count goes to the file COUNT.
   It declares what it takes of the C library, so that a compiler without headers builds it too. */
typedef __SIZE_TYPE__ size_type;

long atol(const char *text);
char *getenv(const char *name);
int creat(const char *path, unsigned mode);
int dprintf(int file, const char *format, ...);
int close(int file);
void *dlsym(void *handle, const char *name);

#define NEXT ((void *)-1L)

static long seen;

static int refused(void) {
    const char *which = getenv("REFUSE");
    seen++;
    return which && atol(which) == seen;
}

void *malloc(size_type size) {
    static void *(*next)(size_type);
    if (!next) next = (void *(*)(size_type))dlsym(NEXT, "malloc");
    return refused() ? 0 : next(size);
}

void *realloc(void *old, size_type size) {
    static void *(*next)(void *, size_type);
    if (!next) next = (void *(*)(void *, size_type))dlsym(NEXT, "realloc");
    return refused() ? 0 : next(old, size);
}

__attribute__((destructor)) static void tell(void) {
    const char *name = getenv("COUNT");
    long count = seen;
    int file = name ? creat(name, 0644) : -1;
    if (file >= 0) {
        dprintf(file, "%ld\n", count);
        close(file);
    }
}
