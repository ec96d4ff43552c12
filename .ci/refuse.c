// Linked by .ci/tests into the program of a crate's tests. A test named refused_ is played again and again, each time in a
// copy of its process in which one allocation is refused: the first, then the second, until a copy asks for no more. Then
// it is played with memory for all. Where a copy fails, so does the test: its message has the allocation's number.
// No header is read, so that the kit's own clang compiles this. REPORT is the file that gets a line a test.

typedef unsigned long size;

// What the address sanitizer has for malloc and realloc; its own names for them may be defined anew, as below.
void *___interceptor_malloc(size bytes);
void *___interceptor_realloc(void *block, size bytes);

int fork(void);
int waitpid(int process, int *status, int options);
unsigned alarm(unsigned seconds);
int open(const char *path, int flags, ...);
int dup2(int from, int to);
int dprintf(int to, const char *format, ...);
char *strstr(const char *in, const char *words);
void *mmap(void *at, size bytes, int access, int flags, int file, long from);
void _exit(int status);

enum {
    MOST = 2000,    // allocations of a test
    SECONDS = 60,   // for a copy
    UNREFUSED = 3,  // copies in a row that end before the allocation that was to be refused: threads may take fewer by chance
    ALARM = 14,     // the status of a copy that had not ended after SECONDS
    FAILED = 1,
    READ_AND_WRITE = 3,
    SHARED_WITH_COPIES = 0x21,
    APPEND = 02101, // write only, create, at the end
};

static long *asked;    // allocations of the running copy so far
static long refused;   // which of them is refused; 0 for none

// From the linker: where the program's own code begins and ends. What the C library asks for itself is never refused.
extern const char __executable_start, etext;

static int is_refused(const char *caller) {
    return refused && &__executable_start <= caller && caller < &etext
        && __atomic_add_fetch(asked, 1, __ATOMIC_SEQ_CST) == refused;
}

void *__interceptor_malloc(size bytes) {
    return is_refused(__builtin_return_address(0)) ? 0 : ___interceptor_malloc(bytes);
}

void *__interceptor_realloc(void *block, size bytes) {
    return is_refused(__builtin_return_address(0)) ? 0 : ___interceptor_realloc(block, bytes);
}

// In the copy: what the test prints is dropped, and what it complains of is kept.
static void begin_copy(long number) {
    dup2(open("/dev/null", 1), 1);
    alarm(SECONDS);
    refused = number;
}

static void fail(const char *test, long number, const char *why) {
    dprintf(2, "%s: allocation %ld refused: %s\n", test, number, why);
    _exit(FAILED);
}

// The words of the program are one test's name, or --list.
__attribute__((constructor)) static void play_with_each_refused(int count, char **words) {
    long number, last = 0;
    if (count != 2 || !strstr(words[1], "::refused_"))
        return;
    asked = mmap(0, sizeof *asked, READ_AND_WRITE, SHARED_WITH_COPIES, -1, 0);
    for (number = 1; number <= last + UNREFUSED; number++) {
        int process, status = 0;
        *asked = 0;
        process = fork();
        if (!process)
            return begin_copy(number);
        if (waitpid(process, &status, 0) != process || status)
            fail(words[1], number, status == ALARM ? "it hangs" : "it fails");
        if (number == MOST)
            fail(words[1], number, "there are too many");
        if (*asked >= number)
            last = number;
    }
    dprintf(open(REPORT, APPEND, 0644), "%s: each of %ld allocations refused in turn\n", words[1], last);
}
