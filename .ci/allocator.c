/* An allocator that the program above it steers, for tests (.ci/memory): it refuses requests in turn, and answers whether
   blocks were kept, and whether more bytes were asked for than should be. A program speaks with it by requests of sizes
   that nothing else asks for. Such a question is itself no request; it is answered yes by a refusal, and no by a block.
   The same words stand in crates/share_model/src/allocator.rt, and LONGER in the tests that ask so. At the end it writes
   on standard error what it was asked and did. No header is included, so that the toolchain's clang is all that it
   takes. */

typedef unsigned long size;

extern void *dlsym(void *from, const char *name);
extern long write(int file, const void *bytes, size count);

#define NEXT ((void *)-1L)

enum {
    QUESTION = 0x5a51000,   /* a question asks for so many bytes, and as many more as its number */
    EACH = 4095,            /* each request from here on is refused; a number n below: the n-th is */
    REFUSED = 4096,         /* none is refused from here on; was one? */
    MARK = 4097,            /* keep how many blocks are held */
    CHANGED = 4098,         /* is another number held than was kept? */
    LONGER = 8192,          /* and n more: were more than n bytes asked for since the mark? */
    LAST = 65535
};

static void *(*next_malloc)(size);
static void *(*next_realloc)(void *, size);
static void (*next_free)(void *);
static void (*next_exit)(int);

static long wanted;     /* the number of the request to refuse, 0 where none is */
static long requests;   /* the requests since then */
static long refused;    /* the refusals since then */
static long held;       /* the blocks that are held */
static long marked;
static size asked;      /* the bytes of the requests since the mark */
static long questions;  /* all questions, and all refusals */
static long refusals;

__attribute__((constructor)) static void find_next(void) {
    next_malloc = (void *(*)(size))dlsym(NEXT, "malloc");
    next_realloc = (void *(*)(void *, size))dlsym(NEXT, "realloc");
    next_free = (void (*)(void *))dlsym(NEXT, "free");
    next_exit = (void (*)(int))dlsym(NEXT, "_exit");
}

static int refuses(void) {
    if (wanted == 0)
        return 0;
    requests++;
    if (wanted != EACH && wanted != requests)
        return 0;
    refused++;
    refusals++;
    return 1;
}

static int says_yes(long question) {
    questions++;
    if (question <= EACH) {
        wanted = question;
        requests = 0;
        refused = 0;
        return 0;
    }
    if (question == REFUSED) {
        wanted = 0;
        return refused > 0;
    }
    if (question == MARK) {
        marked = held;
        asked = 0;
        return 0;
    }
    if (question >= LONGER)
        return asked > (size)(question - LONGER);
    return held != marked;
}

static void *block(void *made) {
    held += made != 0;
    return made;
}

void *malloc(size count) {
    if (!next_malloc)
        find_next();
    if (count > QUESTION && count <= QUESTION + LAST)
        return says_yes((long)(count - QUESTION)) ? 0 : block(next_malloc(1));
    asked += count;
    return refuses() ? 0 : block(next_malloc(count));
}

void *realloc(void *old, size count) {
    if (!old)
        return malloc(count);
    asked += count;
    return refuses() ? 0 : next_realloc(old, count);
}

void free(void *old) {
    held -= old != 0;
    next_free(old);
}

static char *number(char *end, long value) {
    do
        *--end = (char)('0' + value % 10);
    while (value /= 10);
    return end;
}

static void tell(const char *word, long value) {
    char digits[24], *end = digits + sizeof digits - 1;
    const char *after = word;
    *end = '\n';
    while (*after)
        after++;
    char *start = number(end, value);
    write(2, word, (size)(after - word));
    write(2, start, (size)(end + 1 - start));
}

__attribute__((destructor)) static void tell_all(void) {
    static int told;
    if (told++)
        return;
    tell("questions ", questions);
    tell("refusals ", refusals);
}

/* A program whose tests start threads ends so, and then no destructor is called. */
__attribute__((noreturn)) void _exit(int status) {
    tell_all();
    next_exit(status);
    __builtin_unreachable();
}
