// The exam desk's reading and writing: input in pieces, and faults.
//
//   cc -O1 -o desk_test tests/desk.c && ./desk_test target/bin/desk
//
// One line for each test, `ok NAME`, `FAIL NAME: why` or, where the machine allows no tracing, `skip NAME: why`; exit status 0 if none
// failed. How a test ends does not depend on time: a writer waits until each piece was taken, and the faults are made by tracing the
// desk's system calls. The pauses below only give a faulty desk the time to show its fault. The alarm ends a run that hangs.
#define _GNU_SOURCE
#include <errno.h>
#include <fcntl.h>
#include <signal.h>
#include <stdarg.h>
#include <stdio.h>
#include <stdlib.h>
#include <string.h>
#include <sys/ioctl.h>
#include <sys/ptrace.h>
#include <sys/resource.h>
#include <sys/syscall.h>
#include <sys/types.h>
#include <sys/user.h>
#include <sys/wait.h>
#include <unistd.h>

#define ROOM 4096

static const char *desk;
static int failures;
static const char *name;
static char why[2 * ROOM];

// Document 01's example, the last line without a line feed, and its answer as the desk gives it for a file.
static const char sample[] = "16 17 21 0 1000 1000\n0 1 2\n0";
static char expected[ROOM];

// The same question with numbers of one digit, so that no byte can be missing; it has the same answer.
static const char brief[] = "9 5 9 0 9 9\n0 1 2\n0";

static void die(const char *what) {
    perror(what);
    exit(2);
}

static int fail(const char *form, ...) {
    va_list args;
    va_start(args, form);
    vsnprintf(why, sizeof why, form, args);
    va_end(args);
    return 0;
}

// How a desk is started: its three descriptors (-1: closed), and what else is done in the child.
struct start {
    int in, out, err;
    int ignored;   // a signal that is ignored, or 0
    long file_max; // the greatest size of a file, or 0
    int traced;
};

struct ran {
    int status;
    char out[ROOM], err[ROOM];
};

static void place(int from, int to) {
    if (from < 0)
        close(to);
    else if (from != to && dup2(from, to) < 0)
        die("dup2");
}

static pid_t begin(struct start s) {
    fflush(stdout);
    pid_t child = fork();
    if (child < 0)
        die("fork");
    if (child > 0)
        return child;
    // out of the way of the numbers that are given away
    int in = s.in < 0 ? -1 : fcntl(s.in, F_DUPFD, 100), out = s.out < 0 ? -1 : fcntl(s.out, F_DUPFD, 100);
    int err = fcntl(s.err, F_DUPFD, 100);
    place(in, 0);
    place(out, 1);
    place(err, 2);
    for (int fd = 3; fd < 200; fd++)
        close(fd);
    signal(SIGPIPE, SIG_DFL);
    if (s.ignored)
        signal(s.ignored, SIG_IGN);
    if (s.file_max) {
        struct rlimit most = {s.file_max, s.file_max};
        setrlimit(RLIMIT_FSIZE, &most);
    }
    if (s.traced && ptrace(PTRACE_TRACEME, 0, 0, 0) < 0)
        _exit(77);
    execl(desk, desk, (char *)0);
    _exit(78);
}

static int scratch(void) {
    FILE *f = tmpfile();
    if (!f)
        die("tmpfile");
    return dup(fileno(f));
}

static void take(int fd, char *text) {
    ssize_t n = pread(fd, text, ROOM - 1, 0);
    text[n < 0 ? 0 : n] = 0;
    close(fd);
}

static int file_of(const char *text, size_t n) {
    int fd = scratch();
    while (n > 0) {
        ssize_t k = write(fd, text, n);
        if (k <= 0)
            die("write");
        text += k;
        n -= (size_t)k;
    }
    lseek(fd, 0, SEEK_SET);
    return fd;
}

// The desk on an input that is a file or a folder.
static struct ran run_on(int in) {
    struct ran r;
    int out = scratch(), err = scratch();
    pid_t child = begin((struct start){.in = in, .out = out, .err = err});
    waitpid(child, &r.status, 0);
    take(out, r.out);
    take(err, r.err);
    return r;
}

static int as_expected(struct ran r) {
    if (!WIFEXITED(r.status) || WEXITSTATUS(r.status))
        return fail("status %x", (unsigned)r.status);
    if (strcmp(r.out, expected))
        return fail("wrote `%s`", r.out);
    if (r.err[0])
        return fail("said `%s`", r.err);
    return 1;
}

// One line on standard error, status 1, and on standard output no more than is given.
static int complains(struct ran r, const char *out) {
    size_t n = strlen(r.err);
    if (!WIFEXITED(r.status) || WEXITSTATUS(r.status) != 1)
        return fail("status %x", (unsigned)r.status);
    if (strcmp(r.out, out))
        return fail("wrote `%s`", r.out);
    if (n < 2 || r.err[n - 1] != '\n')
        return fail("no line on standard error");
    return 1;
}

static void test(const char *what, int (*run)(void)) {
    name = what;
    why[0] = 0;
    if (run())
        printf("ok %s\n", name);
    else if (!strncmp(why, "skip", 4))
        printf("skip %s: no tracing here\n", name);
    else {
        printf("FAIL %s: %s\n", name, why);
        failures++;
    }
}

// --- input in pieces

struct feed {
    pid_t child;
    int to, seen, out, err;
};

static struct feed open_feed(int nonblocking) {
    int ends[2];
    if (pipe(ends))
        die("pipe");
    if (nonblocking)
        fcntl(ends[0], F_SETFL, O_NONBLOCK);
    struct feed f = {0, ends[1], ends[0], scratch(), scratch()};
    fcntl(f.to, F_SETFD, FD_CLOEXEC);
    f.child = begin((struct start){.in = f.seen, .out = f.out, .err = f.err});
    return f;
}

static int is_gone(pid_t child) {
    siginfo_t info = {0};
    return waitid(P_PID, (id_t)child, &info, WEXITED | WNOHANG | WNOWAIT) == 0 && info.si_pid == child;
}

// Waits until the pipe is empty; 0 if the desk is gone with bytes in it.
static int all_taken(struct feed f) {
    int left;
    while (ioctl(f.seen, FIONREAD, &left) == 0 && left > 0) {
        if (is_gone(f.child))
            return 0;
        usleep(50);
    }
    return 1;
}

// Writes a piece and waits until it was taken; 0 if the desk is gone before.
static int give(struct feed f, const char *text, size_t n) {
    while (n > 0) {
        ssize_t k = write(f.to, text, n > 4096 ? 4096 : n);
        if (k <= 0)
            die("write");
        if (!all_taken(f))
            return fail("the desk was gone before the input's end");
        text += k;
        n -= (size_t)k;
    }
    return 1;
}

static struct ran close_feed(struct feed f) {
    struct ran r;
    close(f.to);
    waitpid(f.child, &r.status, 0);
    close(f.seen);
    take(f.out, r.out);
    take(f.err, r.err);
    return r;
}

static int whole_file(void) {
    return as_expected(run_on(file_of(sample, sizeof sample - 1))) && as_expected(run_on(file_of(brief, sizeof brief - 1)));
}

static int by_bytes(const char *text, size_t n) {
    struct feed f = open_feed(0);
    int went = 1;
    for (size_t i = 0; went && i < n; i++)
        went = give(f, text + i, 1);
    struct ran r = close_feed(f);
    return went && as_expected(r);
}

static int byte_by_byte(void) {
    return by_bytes(sample, sizeof sample - 1) && by_bytes(brief, sizeof brief - 1);
}

static int splits(const char *text, size_t n) {
    for (size_t i = 1; i < n; i++) {
        struct feed f = open_feed(0);
        int went = give(f, text, i) && give(f, text + i, n - i);
        struct ran r = close_feed(f);
        if (!went || !as_expected(r))
            return 0;
    }
    return 1;
}

static int every_split(void) {
    return splits(sample, sizeof sample - 1) && splits(brief, sizeof brief - 1);
}

// The sample with so many zeros in front of its numbers.
static size_t padded(char *text, size_t first, size_t start, size_t goal) {
    char *p = text;
    memset(p, '0', first);
    p += first;
    p += sprintf(p, "16 17 21 0 1000 1000\n");
    memset(p, '0', start);
    p += start;
    p += sprintf(p, "0 1 2\n");
    memset(p, '0', goal);
    p += goal;
    *p++ = '0';
    return (size_t)(p - text);
}

// Files longer than a buffer of 65,536 bytes; each byte of the lines stands once at the end of a buffer and once at the start of one.
static int long_files(void) {
    static char text[400000];
    for (size_t i = 0; i < 32; i++) {
        if (!as_expected(run_on(file_of(text, padded(text, 65536 - 16 + i, 0, 0)))))
            return 0;
        if (!as_expected(run_on(file_of(text, padded(text, 0, 131072 - 40 + i, 0)))))
            return 0;
        if (!as_expected(run_on(file_of(text, padded(text, 70000, 70000, 65536 - 16 + i)))))
            return 0;
    }
    return 1;
}

// What stands behind two buffers is read: the digit there is no zero, or no digit.
static int far_digits(void) {
    static char text[200000];
    size_t n = padded(text, 0, 0, 150000);
    text[n - 1] = 'x';
    struct ran r = run_on(file_of(text, n));
    if (strcmp(r.out, "unreadable\n"))
        return fail("wrote `%s`", r.out);
    text[n - 1] = '1';
    r = run_on(file_of(text, n));
    if (!strncmp(r.out, "unreadable", 10) || !strcmp(r.out, expected))
        return fail("wrote `%s`", r.out);
    return 1;
}

static int long_pieces(void) {
    static char text[400000];
    size_t n = padded(text, 100000, 100000, 100000);
    struct feed f = open_feed(0);
    int went = give(f, text, 70001) && give(f, text + 70001, 140000) && give(f, text + 210001, n - 210001);
    struct ran r = close_feed(f);
    return went && as_expected(r);
}

// A pipe that does not wait: the goal line goes on after a pause.
static int nonblocking_input(void) {
    static const char first[] = "16 17 21 0 1000 1000\n0 1 2\n0 1";
    static const char all[] = "16 17 21 0 1000 1000\n0 1 2\n0 1 2";
    char answer[ROOM];
    strcpy(answer, run_on(file_of(all, sizeof all - 1)).out);
    struct feed f = open_feed(1);
    usleep(20000);
    int went = give(f, first, sizeof first - 1);
    usleep(20000);
    went = went && !is_gone(f.child) && give(f, " ", 1);
    usleep(20000);
    went = went && !is_gone(f.child) && give(f, "2", 1);
    struct ran r = close_feed(f);
    if (!went)
        return fail("the desk did not wait, and wrote `%s`", r.out);
    if (strcmp(r.out, answer) || r.err[0])
        return fail("wrote `%s`, said `%s`", r.out, r.err);
    return 1;
}

static int stopped_and_continued(void) {
    struct feed f = open_feed(0);
    int went = give(f, sample, 25), status;
    kill(f.child, SIGSTOP);
    waitpid(f.child, &status, WUNTRACED);
    kill(f.child, SIGCONT);
    went = went && give(f, sample + 25, sizeof sample - 26);
    struct ran r = close_feed(f);
    return went && as_expected(r);
}

// What follows the third line is not waited for.
static int settled_early(void) {
    struct ran r;
    struct feed f = open_feed(0);
    if (write(f.to, sample, sizeof sample - 1) < 0 || write(f.to, "\nmore", 5) < 0)
        die("write");
    waitpid(f.child, &r.status, 0);
    close(f.to);
    close(f.seen);
    take(f.out, r.out);
    take(f.err, r.err);
    return as_expected(r);
}

// --- faults of the input and of the output

static int folder_input(void) {
    return complains(run_on(open(".", O_RDONLY)), "");
}

static int closed_input(void) {
    return complains(run_on(-1), "");
}

static int unreadable_input(void) {
    return complains(run_on(open("/dev/null", O_WRONLY)), "");
}

// The desk on the sample with another standard output. Standard error is a pipe, which no greatest size of a file bounds.
static struct ran written_to(struct start s) {
    struct ran r;
    int ends[2];
    if (pipe(ends))
        die("pipe");
    s.in = file_of(sample, sizeof sample - 1);
    s.err = ends[1];
    pid_t child = begin(s);
    close(s.in);
    close(ends[1]);
    waitpid(child, &r.status, 0);
    ssize_t n = read(ends[0], r.err, ROOM - 1);
    r.err[n < 0 ? 0 : n] = 0;
    r.out[0] = 0;
    close(ends[0]);
    return r;
}

static int full_device(void) {
    int full = open("/dev/full", O_WRONLY);
    if (full < 0)
        return fail("no /dev/full");
    return complains(written_to((struct start){.out = full}), "");
}

static int closed_output(void) {
    return complains(written_to((struct start){.out = -1}), "");
}

// A pipe that nobody reads: the desk says it, also where whoever starts it ignores the signal (a program of the kit ignores it itself).
static int broken_pipe(void) {
    int ends[2];
    if (pipe(ends))
        die("pipe");
    close(ends[0]);
    struct ran ended = written_to((struct start){.out = ends[1]});
    struct ran r = written_to((struct start){.out = ends[1], .ignored = SIGPIPE});
    close(ends[1]);
    return complains(ended, "") && complains(r, "");
}

// The file takes ten bytes, and then no more.
static int short_then_none(void) {
    int out = scratch();
    char head[11];
    struct ran r = written_to((struct start){.out = out, .ignored = SIGXFSZ, .file_max = 10});
    take(out, r.out);
    memcpy(head, expected, 10);
    head[10] = 0;
    return complains(r, head);
}

// A full pipe that does not wait, emptied later: the whole answer comes.
static int full_pipe(void) {
    int ends[2], err = scratch();
    long held = 0, got = 0;
    ssize_t n;
    struct ran r;
    char bytes[ROOM];
    if (pipe(ends))
        die("pipe");
    fcntl(ends[1], F_SETFL, O_NONBLOCK);
    while ((n = write(ends[1], "x", 1)) > 0)
        held += n;
    pid_t child = begin((struct start){.in = file_of(sample, sizeof sample - 1), .out = ends[1], .err = err});
    close(ends[1]);
    usleep(20000);
    while (got < held && (n = read(ends[0], bytes, (size_t)(held - got < ROOM ? held - got : ROOM))) > 0)
        got += n;
    size_t k = 0;
    while (k < ROOM - 1 && (n = read(ends[0], r.out + k, ROOM - 1 - k)) > 0)
        k += (size_t)n;
    r.out[k] = 0;
    close(ends[0]);
    waitpid(child, &r.status, 0);
    take(err, r.err);
    return as_expected(r);
}

// --- faults made by tracing: what the desk's reads and writes answer, one after the other

#if defined(__x86_64__)
// A fault: of at most so many bytes, or an error (below 0); 0 lets the call go on as it is. The list ends, and then all go on.
struct faults {
    const int *reads, *writes;
    int n_reads, n_writes;
};

static int next_fault(const int **list, int *n) {
    if (*n == 0)
        return 0;
    (*n)--;
    return *(*list)++;
}

// The desk on the sample, its calls of read on 0 and of write on 1 answered with the faults in order.
static int traced(struct faults f, struct ran *r) {
    int out = scratch(), err = scratch(), entering = 1, fault = 0, status;
    pid_t child = begin((struct start){.in = file_of(sample, sizeof sample - 1), .out = out, .err = err, .traced = 1});
    waitpid(child, &status, 0);
    if (!WIFSTOPPED(status)) {
        close(out);
        close(err);
        return fail("skip");
    }
    for (;;) {
        struct user_regs_struct regs;
        if (ptrace(PTRACE_SYSCALL, child, 0, 0) < 0)
            die("ptrace");
        waitpid(child, &status, 0);
        if (!WIFSTOPPED(status))
            break;
        if (WSTOPSIG(status) != SIGTRAP)
            continue;
        ptrace(PTRACE_GETREGS, child, 0, &regs);
        if (entering) {
            fault = 0;
            if (regs.orig_rax == SYS_read && regs.rdi == 0)
                fault = next_fault(&f.reads, &f.n_reads);
            else if (regs.orig_rax == SYS_write && regs.rdi == 1)
                fault = next_fault(&f.writes, &f.n_writes);
            if (fault > 0 && (unsigned long long)fault < regs.rdx)
                regs.rdx = (unsigned long long)fault;
            if (fault < 0)
                regs.orig_rax = (unsigned long long)-1;
            if (fault)
                ptrace(PTRACE_SETREGS, child, 0, &regs);
        } else if (fault < 0) {
            regs.rax = (unsigned long long)(long long)fault;
            ptrace(PTRACE_SETREGS, child, 0, &regs);
        }
        entering = !entering;
    }
    r->status = status;
    take(out, r->out);
    take(err, r->err);
    return 1;
}

#define FAULTS(list) .list = list, .n_##list = sizeof list / sizeof *list

static int faulty_reads(void) {
    static const int reads[] = {-EINTR, -EAGAIN, 5, -EAGAIN, -EAGAIN, 1, -EINTR, 22, -EAGAIN, 1, -EINTR, -EAGAIN, 1};
    struct ran r;
    return traced((struct faults){FAULTS(reads)}, &r) && as_expected(r);
}

static int failing_read(void) {
    static const int reads[] = {25, -EIO};
    struct ran r;
    return traced((struct faults){FAULTS(reads)}, &r) && complains(r, "");
}

static int faulty_writes(void) {
    static const int writes[] = {-EAGAIN, 1, -EINTR, 1, 5, -EAGAIN, -EAGAIN, 7, -EINTR, 1};
    struct ran r;
    return traced((struct faults){FAULTS(writes)}, &r) && as_expected(r);
}

static int failing_write(void) {
    static const int writes[] = {4, -EAGAIN, 3, -ENOSPC};
    char head[8];
    struct ran r;
    memcpy(head, expected, 7);
    head[7] = 0;
    return traced((struct faults){FAULTS(writes)}, &r) && complains(r, head);
}
#endif

static void too_long(int signal) {
    static const char text[] = "FAIL: the run hangs\n";
    (void)signal;
    _exit(write(1, text, sizeof text - 1) > 0 ? 1 : 2);
}

int main(int n, char **args) {
    if (n != 2) {
        fprintf(stderr, "usage: %s PATH-TO-DESK\n", args[0]);
        return 2;
    }
    desk = args[1];
    signal(SIGPIPE, SIG_IGN);
    signal(SIGALRM, too_long);
    alarm(600);
    strcpy(expected, run_on(file_of(sample, sizeof sample - 1)).out);
    if (strcmp(expected, "1 3 7 3 7 3 1 1 0 3\nswap 2\npop\npop\n")) {
        printf("FAIL the example: wrote `%s`\n", expected);
        return 1;
    }
    test("the example from a file", whole_file);
    test("byte by byte", byte_by_byte);
    test("in two pieces, at each place", every_split);
    test("files longer than two buffers", long_files);
    test("what stands behind two buffers is read", far_digits);
    test("pieces longer than a buffer", long_pieces);
    test("a pipe that does not wait", nonblocking_input);
    test("stopped and continued", stopped_and_continued);
    test("settled before the input's end", settled_early);
    test("a folder as input", folder_input);
    test("closed input", closed_input);
    test("input that is not open for reading", unreadable_input);
    test("a full device as output", full_device);
    test("closed output", closed_output);
    test("a pipe that nobody reads", broken_pipe);
    test("a short write and then none", short_then_none);
    test("a full pipe that does not wait", full_pipe);
#if defined(__x86_64__)
    test("short, interrupted and waiting reads", faulty_reads);
    test("a read that fails behind the first piece", failing_read);
    test("short, interrupted and waiting writes", faulty_writes);
    test("a write that fails behind the first bytes", failing_write);
#endif
    printf("%s\n", failures ? "some failed" : "all passed");
    return failures != 0;
}
