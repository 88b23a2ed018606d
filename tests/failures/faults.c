// Makes calls of a program in files fail, do less than was asked, or wait, where it calls the C library's functions for them (LD_PRELOAD),
// and notes each. It includes no header. Calls of the three standard streams go on as they are: they neither count nor are noted.
//
// FAULT_CALL=NAME: which function's calls, such as rename; FAULT_PATH=TEXT: those alone in whose path this text is.
// FAULT_AT=N: the N-th of these is the one that is made otherwise, or each (0).
// FAULT_ERROR=E: it fails by this number of errno; FAULT_STAYS=1: so does each after it.
// FAULT_SIGNAL=S: this signal is sent to the program before it is made.
// FAULT_MOST=B: it reads or writes so many bytes at most; with one of these two that one is short, and they are of those after it.
// FAULT_PAUSE=MS: it is made after so many milliseconds.
// FAULT_PID=N: the program has this number as a process, so that the name of what it makes is known before.
// FAULT_NOTES=FILE: a line of each call is put at the end of this file: its name, what it answers, which is -E where it fails, its flags or
// mode, which of a write is that of the file, its path, and the second path of a rename, with tabs between them. The path of a descriptor is the one that the system has.
typedef unsigned long size_t;
typedef unsigned mode_t;
struct statx;

enum { STREAMS = 3, NOTES_FROM = 700, TO_DUPLICATE = 1030, TO_APPEND = 02002101, PATH_ROOM = 4200, LINE_ROOM = 9000 };
enum { FOUND_ROOM = 128, EMPTY_PATH = 0x1000, MODE_ALONE = 2 };
#define NEXT ((void *)-1)
#define ANY ((size_t)-1)

extern void *dlsym(void *, const char *);
extern char *getenv(const char *), *strstr(const char *, const char *);
extern unsigned long strtoul(const char *, char **, int);
extern int strcmp(const char *, const char *), snprintf(char *, size_t, const char *, ...), *__errno_location(void);
extern int fcntl(int, int, ...), poll(void *, unsigned long, int), raise(int);
extern long readlink(const char *, char *, size_t);

// what is asked for, as the head of this file says, and how many such calls there were
static struct {
    const char *call, *path;
    unsigned long at, stays, error, signal, most, pause, pid;
} asked;
static unsigned long made;
static int notes = -1;
static long (*real_write)(int, const void *, size_t);

static unsigned long number(const char *name) {
    const char *given = getenv(name);
    return given ? strtoul(given, 0, 10) : 0;
}

__attribute__((constructor)) static void begin(void) {
    const char *file = getenv("FAULT_NOTES");
    real_write = (long (*)(int, const void *, size_t))dlsym(NEXT, "write");
    if (file) {
        // the numbers of the program's own files stay as they are without it
        int first = ((int (*)(const char *, int, mode_t))dlsym(NEXT, "open"))(file, TO_APPEND, 0600);
        notes = fcntl(first, TO_DUPLICATE, NOTES_FROM);
        ((int (*)(int))dlsym(NEXT, "close"))(first);
    }
    asked.path = getenv("FAULT_PATH");
    asked.at = number("FAULT_AT");
    asked.stays = number("FAULT_STAYS");
    asked.error = number("FAULT_ERROR");
    asked.signal = number("FAULT_SIGNAL");
    asked.most = number("FAULT_MOST");
    asked.pause = number("FAULT_PAUSE");
    asked.pid = number("FAULT_PID");
    asked.call = getenv("FAULT_CALL");
}

// A call of a function: its path, how many bytes it may take, and whether it fails.
struct call {
    const char *name;
    size_t most;
    int fails, is_seen;
    char path[PATH_ROOM];
};

// Looks at a call before it is made: of the path, or of the descriptor where there is none or an empty one.
static void look(struct call *call, const char *name, int fd, const char *path) {
    char link[32];
    call->name = name;
    call->most = ANY;
    call->fails = 0;
    call->is_seen = (path && path[0]) || fd >= STREAMS;
    if (!call->is_seen) return;
    snprintf(call->path, sizeof call->path, "%s", path ? path : "");
    if (!call->path[0]) {
        snprintf(link, sizeof link, "/proc/self/fd/%d", fd);
        long length = readlink(link, call->path, sizeof call->path - 1);
        call->path[length < 0 ? 0 : length] = 0;
    }
    if (!asked.call || strcmp(asked.call, name) || (asked.path && !strstr(call->path, asked.path))) return;
    made++;
    // whether it is one of the calls after a short one
    int is_after = asked.most && made > asked.at && (asked.error || asked.signal);
    if (asked.at && made != asked.at && !is_after && !(asked.stays && made > asked.at)) return;
    if (asked.pause) poll(0, 0, (int)asked.pause);
    if (asked.most && !is_after) {
        call->most = asked.most;
        return;
    }
    if (asked.signal) raise((int)asked.signal);
    call->fails = asked.error != 0;
}

// Notes a call that was made, or that failed, and gives its answer back.
static long noted(const struct call *call, long answer, unsigned flags, const char *second) {
    char line[LINE_ROOM];
    int *error = __errno_location();
    if (call->fails) *error = (int)asked.error;
    if (call->is_seen && notes >= 0) {
        int kept = *error;
        int length = snprintf(line, sizeof line, "%s\t%ld\t%u\t%s\t%s\n", call->name, answer < 0 ? -(long)kept : answer, flags, call->path, second);
        real_write(notes, line, (size_t)length);
        *error = kept;
    }
    return answer;
}

// The mode of an open file: a number of two bytes at the place 28 of what statx finds.
static unsigned mode_of(int fd) {
    unsigned short found[FOUND_ROOM] = {0};
    int (*real)(int, const char *, int, unsigned, void *) = (int (*)(int, const char *, int, unsigned, void *))dlsym(NEXT, "statx");
    return notes < 0 || real(fd, "", EMPTY_PATH, MODE_ALONE, found) ? 0 : found[14];
}

// A function of the C library, with what its parameters say of its descriptor, its path, its flags or mode, and its second path.
#define FUNCTION(type, name, parameters, arguments, fd, path, flags, second)                         \
    type name parameters {                                                                           \
        static type(*real) parameters;                                                               \
        struct call call;                                                                            \
        if (!real) real = (type(*) parameters)dlsym(NEXT, #name);                                    \
        look(&call, #name, fd, path);                                                                \
        return (type)noted(&call, call.fails ? -1 : (long)real arguments, flags, second);            \
    }
#define NO_PATH ((char *)0)
#define LESS(size) ((size) < call.most ? (size) : call.most)

FUNCTION(int, open, (const char *path, int flags, mode_t mode), (path, flags, mode), -1, path, flags, "")
FUNCTION(int, openat, (int at, const char *path, int flags, mode_t mode), (at, path, flags, mode), at, path, flags, "")
FUNCTION(long, read, (int fd, void *bytes, size_t size), (fd, bytes, LESS(size)), fd, NO_PATH, 0, "")
FUNCTION(long, write, (int fd, const void *bytes, size_t size), (fd, bytes, LESS(size)), fd, NO_PATH, mode_of(fd), "")
FUNCTION(long, getdents64, (int fd, void *bytes, size_t size), (fd, bytes, size), fd, NO_PATH, 0, "")
FUNCTION(int, fsync, (int fd), (fd), fd, NO_PATH, 0, "")
FUNCTION(int, fdatasync, (int fd), (fd), fd, NO_PATH, 0, "")
FUNCTION(int, fchmod, (int fd, mode_t mode), (fd, mode), fd, NO_PATH, mode, "")
FUNCTION(int, flock, (int fd, int how), (fd, how), fd, NO_PATH, (unsigned)how, "")
FUNCTION(int, ftruncate, (int fd, long size), (fd, size), fd, NO_PATH, 0, "")
FUNCTION(int, chmod, (const char *path, mode_t mode), (path, mode), -1, path, mode, "")
FUNCTION(int, mkdir, (const char *path, mode_t mode), (path, mode), -1, path, mode, "")
FUNCTION(int, unlink, (const char *path), (path), -1, path, 0, "")
FUNCTION(int, unlinkat, (int at, const char *path, int flags), (at, path, flags), at, path, flags, "")
FUNCTION(int, rename, (const char *from, const char *to), (from, to), -1, from, 0, to)
FUNCTION(int, link, (const char *from, const char *to), (from, to), -1, from, 0, to)
FUNCTION(int, statx, (int at, const char *path, int flags, unsigned mask, struct statx *found), (at, path, flags, mask, found), at, path, flags, "")

// A file is closed also where it is said that this failed: so the system does it.
int close(int fd) {
    struct call call;
    look(&call, "close", fd, NO_PATH);
    long closed = ((int (*)(int))dlsym(NEXT, "close"))(fd);
    return (int)noted(&call, call.fails ? -1 : closed, 0, "");
}

// It answers its second argument, or none.
char *realpath(const char *path, char *found) {
    struct call call;
    look(&call, "realpath", -1, path);
    char *answer = call.fails ? 0 : ((char *(*)(const char *, char *))dlsym(NEXT, "realpath"))(path, found);
    noted(&call, answer ? 0 : -1, 0, "");
    return answer;
}

int getpid(void) { return asked.pid ? (int)asked.pid : ((int (*)(void))dlsym(NEXT, "getpid"))(); }
