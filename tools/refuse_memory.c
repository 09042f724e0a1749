/* Loaded before the C library (LD_PRELOAD), it refuses some of the requests for memory that a test makes.
 *
 *   REFUSE_IN=PROGRAM   in processes of this program alone (its path without links), where the first argument is the
 *                       name of a test and no option: so neither the runner nor what else it starts is refused
 *   REFUSE_FROM=N       the Nth request of the process is refused, counted from 1,
 *   REFUSE_TO=M         and all that follow it up to the Mth; without this word the Nth alone
 *   REFUSE_AGAIN=D      each of these is refused once more, D requests later
 *   REFUSE_TOLD=FILE    each refusal appends the test's name to that file, which is there, on a line of its own
 *
 * A request is a call of malloc, calloc, realloc, aligned_alloc, memalign or posix_memalign, one by which a block
 * grows or shrinks too. All threads share one count. The C library's own calls of these count as well: it makes one as
 * a thread starts, and where that is refused, no thread does. What it takes of the system by no such call is no
 * request: a thread's stack, and the areas that it cuts blocks from. Nor is a call before the program's main.
 *
 * It names what it uses of the C library itself, so that it is built where the library's headers are missing.
 */
typedef __SIZE_TYPE__ size;

enum { NO_MEMORY = 12, FOR_APPENDING = 02001, LONGEST = 4096 }; /* as ENOMEM and O_WRONLY | O_APPEND on Linux */

extern int *__errno_location(void);
extern char *getenv(const char *name);
extern long strtol(const char *text, char **end, int base);
extern int strcmp(const char *one, const char *other);
extern size strlen(const char *text);
extern void *memcpy(void *to, const void *from, size bytes);
extern long readlink(const char *path, char *to, size room);
extern int open(const char *path, int flags, ...);
extern long write(int file, const void *from, size bytes);
extern int close(int file);
extern void *__libc_malloc(size bytes);
extern void *__libc_calloc(size count, size bytes);
extern void *__libc_realloc(void *block, size bytes);
extern void *__libc_memalign(size alignment, size bytes);

static _Atomic long requests;
static long first, last, again;
static const char *told;
static char line[LONGEST];

/* Whether this process runs a test of the program. */
static int runs_a_test(int count, char **words) {
    char path[LONGEST];
    const char *program = getenv("REFUSE_IN");
    long length = readlink("/proc/self/exe", path, sizeof path - 1);
    if (!program || length < 0 || count < 2 || words[1][0] == '-')
        return 0;
    path[length] = 0;
    return !strcmp(path, program);
}

/* Comes before main, with the words of the command line. */
__attribute__((constructor)) static void begin(int count, char **words) {
    const char *from = getenv("REFUSE_FROM"), *to = getenv("REFUSE_TO"), *later = getenv("REFUSE_AGAIN");
    size length;
    if (!from || !runs_a_test(count, words) || (length = strlen(words[1])) >= sizeof line)
        return;
    told = getenv("REFUSE_TOLD");
    memcpy(line, words[1], length);
    line[length] = '\n';
    first = strtol(from, 0, 10);
    last = to ? strtol(to, 0, 10) : first;
    again = later ? strtol(later, 0, 10) : 0;
    requests = 0;
}

/* Appends the test's name to the file, in one call, so that the lines of several processes don't mix. */
static void tell(void) {
    int file = told ? open(told, FOR_APPENDING) : -1;
    if (file < 0)
        return;
    write(file, line, strlen(line));
    close(file);
}

/* Counts a request, and answers whether it is refused. */
static int is_refused(void) {
    long number = ++requests;
    if ((number < first || number > last) && (number < first + again || number > last + again))
        return 0;
    tell();
    *__errno_location() = NO_MEMORY;
    return 1;
}

void *malloc(size bytes) {
    return is_refused() ? 0 : __libc_malloc(bytes);
}

void *calloc(size count, size bytes) {
    return is_refused() ? 0 : __libc_calloc(count, bytes);
}

void *realloc(void *block, size bytes) {
    return is_refused() ? 0 : __libc_realloc(block, bytes);
}

void *memalign(size alignment, size bytes) {
    return is_refused() ? 0 : __libc_memalign(alignment, bytes);
}

void *aligned_alloc(size alignment, size bytes) {
    return memalign(alignment, bytes);
}

int posix_memalign(void **to, size alignment, size bytes) {
    void *block = memalign(alignment, bytes);
    if (!block)
        return NO_MEMORY;
    *to = block;
    return 0;
}
