/* A library that is loaded before the program's own, and refuses it one request for memory: the one whose number, from 1
   on, is in REFUSE. Where that is 0 it refuses none. In the file REPORT it leaves a line for each text that the program
   writes on its standard output, the number of requests so far before the text's first line; and at the end the number of
   threads that were started, and that of all requests.

   It needs no header, so that the toolchain's own compiler can make it. */

typedef unsigned long size;

extern void *__libc_malloc(size);
extern void *__libc_calloc(size, size);
extern void *__libc_realloc(void *, size);
extern int *__errno_location(void);
extern char *getenv(const char *);
extern int open(const char *, int, ...);
extern void *dlsym(void *, const char *);
extern long syscall(long, ...);

enum { SYS_WRITE = 1, SYS_EXIT_GROUP = 231, O_WRONLY = 1, ENOMEM = 12 };

typedef int start(void *, const void *, void *(*)(void *), void *);

/* Where the next library's function of a name is to be found. */
#define NEXT ((void *)-1l)

static start *start_thread;
static size requests, refused, threads;
static int report = -1;

static size number_in(const char *text) {
    size number = 0;
    while (text && *text >= '0' && *text <= '9') number = number * 10 + (size)(*text++ - '0');
    return number;
}

static void tell(size number, const char *text, size length) {
    char line[300];
    size start = 20, end = 20;
    do line[--start] = (char)('0' + number % 10);
    while (number /= 10);
    line[end++] = ' ';
    for (size i = 0; i < length && text[i] != '\n' && end < sizeof line - 1; i++) line[end++] = text[i];
    line[end++] = '\n';
    if (report >= 0) syscall(SYS_WRITE, (long)report, line + start, end - start);
}

__attribute__((constructor)) static void begin(void) {
    const char *path = getenv("REPORT");
    refused = number_in(getenv("REFUSE"));
    start_thread = (start *)dlsym(NEXT, "pthread_create");
    if (path) report = open(path, O_WRONLY);
    __atomic_store_n(&requests, 0, __ATOMIC_SEQ_CST);
}

/* The program's own code ends it by this call. */
void _exit(int status) {
    tell(__atomic_load_n(&threads, __ATOMIC_SEQ_CST), "threads", 7);
    tell(__atomic_load_n(&requests, __ATOMIC_SEQ_CST), "in all", 6);
    for (;;) syscall(SYS_EXIT_GROUP, (long)status);
}

static int is_refused(void) {
    if (__atomic_add_fetch(&requests, 1, __ATOMIC_SEQ_CST) != refused) return 0;
    *__errno_location() = ENOMEM;
    return 1;
}

void *malloc(size bytes) { return is_refused() ? 0 : __libc_malloc(bytes); }

void *calloc(size count, size bytes) { return is_refused() ? 0 : __libc_calloc(count, bytes); }

void *realloc(void *block, size bytes) { return is_refused() ? 0 : __libc_realloc(block, bytes); }

int pthread_create(void *thread, const void *how, void *(*work)(void *), void *with) {
    int fault = start_thread(thread, how, work, with);
    if (fault == 0) __atomic_add_fetch(&threads, 1, __ATOMIC_SEQ_CST);
    return fault;
}

long write(int file, const void *bytes, size length) {
    if (file == 1) tell(__atomic_load_n(&requests, __ATOMIC_SEQ_CST), bytes, length);
    return syscall(SYS_WRITE, (long)file, bytes, length);
}
