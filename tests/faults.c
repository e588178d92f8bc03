/* Loaded in front of the C library: reads of standard input and writes of standard output take at most PIECE bytes each;
   the read that FAILED_READ numbers, counted from 1, and the write that FAILED_WRITE numbers fail; with INTERRUPTED each
   read and each write is interrupted once before it is made, one to a socket too, and with EMPTY_WRITES a write takes no
   byte. With FAILED_SYNC no file reaches its device, and the write to a socket that FAILED_SEND numbers fails. With COMMAND
   all this is of that command alone, and the reads are those of pipes and sockets. */
typedef unsigned long size;
typedef long ssize;

extern char *getenv(const char *);
extern long syscall(long, ...);
extern int *__errno_location(void);

enum { READ = 0, WRITE = 1, SEND = 44, RECEIVE = 45, SYNC = 74, INTERRUPT = 4, BROKEN = 5 };

static unsigned long reads, writes, sends, piece, failed_read, failed_write, interrupted, empty_writes, failed_sync, failed_send, read_again,
    write_again, send_again;
static const char *command;

static unsigned long number(const char *name) {
    const char *digit = getenv(name);
    unsigned long found = 0;
    while (digit && *digit >= '0' && *digit <= '9')
        found = 10 * found + (unsigned long)(*digit++ - '0');
    return found;
}

static int is_same(const char *word, const char *other) {
    while (*word && *word == *other)
        word++, other++;
    return *word == *other;
}

__attribute__((constructor)) static void read_numbers(int count, char **words) {
    command = getenv("COMMAND");
    if (command && !(count > 1 && is_same(words[1], command)))
        return;
    piece = number("PIECE");
    failed_read = number("FAILED_READ");
    failed_write = number("FAILED_WRITE");
    interrupted = number("INTERRUPTED");
    empty_writes = number("EMPTY_WRITES");
    failed_sync = number("FAILED_SYNC");
    failed_send = number("FAILED_SEND");
}

static ssize fails(int why) {
    *__errno_location() = why;
    return -1;
}

static size within(size bytes) {
    return piece && piece < bytes ? piece : bytes;
}

/* Whether a call is interrupted, which is made again then. */
static int is_interrupted(unsigned long *again) {
    *again = !*again;
    return interrupted && *again;
}

/* Why a read is not made, or 0. */
static int why_not(int file) {
    if (command ? file < 3 : file != 0)
        return 0;
    if (is_interrupted(&read_again))
        return INTERRUPT;
    return ++reads == failed_read ? BROKEN : 0;
}

ssize read(int file, void *buffer, size bytes) {
    int why = why_not(file);
    return why ? fails(why) : syscall(READ, file, buffer, file ? bytes : within(bytes));
}

ssize recv(int file, void *buffer, size bytes, int flags) {
    int why = why_not(file);
    return why ? fails(why) : syscall(RECEIVE, file, buffer, bytes, flags, 0, 0);
}

ssize write(int file, const void *buffer, size bytes) {
    if (command || file != 1)
        return syscall(WRITE, file, buffer, bytes);
    if (is_interrupted(&write_again))
        return fails(INTERRUPT);
    if (++writes == failed_write)
        return fails(BROKEN);
    return empty_writes ? 0 : syscall(WRITE, file, buffer, within(bytes));
}

ssize send(int file, const void *buffer, size bytes, int flags) {
    if (is_interrupted(&send_again))
        return fails(INTERRUPT);
    return ++sends == failed_send ? fails(BROKEN) : syscall(SEND, file, buffer, bytes, flags, 0, 0);
}

int fsync(int file) {
    return failed_sync ? (int)fails(BROKEN) : (int)syscall(SYNC, file);
}
