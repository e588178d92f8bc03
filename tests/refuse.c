/* Loaded in front of the C library: the growth of memory that REFUSED_GROWTH numbers, counted from 1, is refused. With
   MARK, a request for exactly that many bytes is a mark: it is refused, and so is each growth from there to the next mark.
   With COMMAND, only a process whose first word this is refuses any, and not the programs that it starts. */
typedef unsigned long size;

extern char *getenv(const char *);
extern void *__libc_malloc(size);
extern void *__libc_realloc(void *, size);

static unsigned long growths, refused, mark, is_marked;

static unsigned long number(const char *name) {
    const char *digit = getenv(name);
    unsigned long found = 0;
    while (digit && *digit >= '0' && *digit <= '9')
        found = 10 * found + (unsigned long)(*digit++ - '0');
    return found;
}

static int is_same(const char *text, const char *other) {
    while (*text && *text == *other)
        text++, other++;
    return *text == *other;
}

__attribute__((constructor)) static void read_numbers(int words, char **word) {
    const char *command = getenv("COMMAND");
    if (command && (words < 2 || !is_same(word[1], command)))
        return;
    refused = number("REFUSED_GROWTH");
    mark = number("MARK");
    growths = 0;
}

static int is_refused(size bytes) {
    if (mark && bytes == mark) {
        is_marked = !is_marked;
        return 1;
    }
    return is_marked || ++growths == refused;
}

void *malloc(size bytes) {
    return is_refused(bytes) ? 0 : __libc_malloc(bytes);
}

void *realloc(void *held, size bytes) {
    return is_refused(bytes) ? 0 : __libc_realloc(held, bytes);
}
