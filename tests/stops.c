/* A program and its system calls: which it makes, and what it does where they fail or it is stopped there (x86-64 Linux).
 *
 *   stops list PROGRAM WORD..                a line for each call on standard error: its number in their order, from 1; its name; what it answered
 *   stops fail N ERRNO PROGRAM WORD..        call N is not made, and fails by that error; the exit status is the program's, or 100 after a signal
 *   stops keeps FILE PROGRAM WORD..          PROGRAM makes FILE; where another makes it before, at any call up to the last look, that one stays
 *   stops saves FILE OLD NEW PROGRAM WORD..
 *
 * The last: PROGRAM with these words is to make of FILE, which holds what OLD does (or is missing, where OLD is -), what NEW holds. It is run over and over:
 * killed before and after each of its system calls; with each of them failing by ENOSPC, EIO, EINTR, or moving one byte, and then the next write
 * failing, as on a full disk; and under limits on the size of a file. After each run
 *   - FILE is as OLD or as NEW, byte for byte: as NEW where it was renamed to, else as OLD;
 *   - where success was told (by the exit status), it is as NEW, and no call failed that has to do with it; else something was complained of;
 *   - where anything was answered (written to standard output), likewise;
 *   - nothing else is left in FILE's folder, unless the program was killed.
 * Where nothing stops it, the new file is flushed after its last byte and before it is renamed, and a folder is flushed afterwards.
 * FILE stands in a folder of its own. Exit status 0, and a line with the count of runs; or 1, and a line for each fault. */
#include <dirent.h>
#include <errno.h>
#include <fcntl.h>
#include <libgen.h>
#include <signal.h>
#include <stdio.h>
#include <stdlib.h>
#include <string.h>
#include <sys/ptrace.h>
#include <sys/resource.h>
#include <sys/stat.h>
#include <sys/syscall.h>
#include <sys/user.h>
#include <sys/wait.h>
#include <unistd.h>

enum manner { WHOLE, LIST, KILL_BEFORE, KILL_AFTER, FAIL, FULL, LIMIT, TAKEN };

static const char *const manner_names[] = {"whole", "listed", "killed before", "killed after", "failed", "disk full from", "limit of size", "taken before"};

/* How a run is disturbed: at call `at`, by `error`; or by a limit on the size of a file, whose signal is ignored or not. */
struct plan {
    enum manner manner;
    long at;
    int error;
    int ignores;
    int is_plain; /* with this program's own standard descriptors */
};

/* What was seen of a run. */
struct seen {
    long calls;         /* how many there were */
    long loaded;        /* the last one by which the program was loaded */
    long looked;        /* the last one that looked whether a name is taken */
    long written;       /* the last one that wrote to the new file */
    long renamed;       /* the one that renamed the new file, or 0 */
    int killed;
    int status;
    int told_success;
    int told_complaint;
    int answered;       /* something was written to standard output */
    int matters;        /* a call failed, or moved less, that saving depends on */
    int flushed;        /* the new file, after its last byte and before it was renamed */
    int folder_flushed; /* afterwards */
};

static const char *file;
static char **command;
static int faults;
static long runs;

static void give_up(const char *what)
{
    fprintf(stderr, "stops: %s: %s\n", what, strerror(errno));
    exit(1);
}

struct bytes {
    unsigned char *at;
    size_t count;
    int is_there;
};

static struct bytes read_all(const char *name)
{
    struct bytes b = {NULL, 0, 0};
    FILE *f = strcmp(name, "-") == 0 ? NULL : fopen(name, "rb");
    if (f == NULL) {
        return b;
    }
    b.is_there = 1;
    b.at = malloc(1 << 20);
    b.count = fread(b.at, 1, 1 << 20, f);
    fclose(f);
    return b;
}

static int is_same(struct bytes a, struct bytes b)
{
    return a.is_there == b.is_there && a.count == b.count && (a.count == 0 || memcmp(a.at, b.at, a.count) == 0);
}

static struct bytes old_bytes, new_bytes;

static void restore(struct bytes old)
{
    unlink(file);
    if (old.is_there) {
        FILE *f = fopen(file, "wb");
        if (f == NULL || fwrite(old.at, 1, old.count, f) != old.count || fclose(f) != 0) {
            give_up(file);
        }
    }
}

/* How many files stand beside FILE; they are removed. */
static int clear_folder(void)
{
    char path[4096], copy[4096], name[4096];
    int count = 0;
    snprintf(copy, sizeof copy, "%s", file);
    snprintf(name, sizeof name, "%s", file);
    const char *folder = dirname(copy), *own = basename(name);
    DIR *d = opendir(folder);
    for (struct dirent *e = d == NULL ? NULL : readdir(d); e != NULL; e = readdir(d)) {
        if (strcmp(e->d_name, ".") != 0 && strcmp(e->d_name, "..") != 0 && strcmp(e->d_name, own) != 0) {
            count++;
            if (snprintf(path, sizeof path, "%s/%s", folder, e->d_name) < (int)sizeof path) {
                unlink(path);
            }
        }
    }
    if (d != NULL) {
        closedir(d);
    }
    return count;
}

/* Becomes the program: it writes nowhere. */
static void become_quiet(void)
{
    int nowhere = open("/dev/null", O_RDWR);
    dup2(nowhere, 0);
    dup2(nowhere, 1);
    dup2(nowhere, 2);
    for (int fd = 3; fd < 64; fd++) {
        close(fd);
    }
}

static void become_program(const struct plan *plan)
{
    if (!plan->is_plain) {
        become_quiet();
    }
    if (plan->manner == LIMIT) {
        struct rlimit limit = {(rlim_t)plan->at, (rlim_t)plan->at};
        setrlimit(RLIMIT_FSIZE, &limit);
        signal(SIGXFSZ, plan->ignores ? SIG_IGN : SIG_DFL);
    }
    ptrace(PTRACE_TRACEME, 0, NULL, NULL);
    execv(command[0], command);
    _exit(127);
}

static const struct {
    long number;
    const char *name;
} names[] = {
    {SYS_read, "read"}, {SYS_write, "write"}, {SYS_open, "open"}, {SYS_openat, "openat"}, {SYS_close, "close"}, {SYS_fsync, "fsync"},
    {SYS_rename, "rename"}, {SYS_unlink, "unlink"}, {SYS_statx, "statx"}, {SYS_getrandom, "getrandom"}, {SYS_exit_group, "exit_group"},
};

static void list(long call, const struct user_regs_struct *r)
{
    fprintf(stderr, "%ld ", call);
    for (size_t i = 0; i < sizeof names / sizeof *names; i++) {
        if ((unsigned long long)names[i].number == r->orig_rax) {
            fprintf(stderr, "%s %lld\n", names[i].name, (long long)r->rax);
            return;
        }
    }
    fprintf(stderr, "%lld %lld\n", (long long)r->orig_rax, (long long)r->rax);
}

static int is_rename(unsigned long long call)
{
    return call == SYS_rename || call == SYS_renameat || call == SYS_renameat2;
}

/* Whether saving depends on a call that fails by this error: all that opens, reads, looks at a name, writes the new file, flushes, renames. What opens,
 * writes or flushes is made again where a signal interrupts it. What a close says of a file that was flushed is lost, since the standard library does not tell it. */
static int does_matter(const struct user_regs_struct *r, int new_fd, int error)
{
    switch (r->orig_rax) {
    case SYS_read:
    case SYS_statx:
    case SYS_fchmod:
    case SYS_fchown:
        return 1;
    case SYS_open:
    case SYS_openat:
    case SYS_fsync:
    case SYS_fdatasync:
        return error != EINTR;
    case SYS_write:
        return error != EINTR && new_fd >= 0 && (int)r->rdi == new_fd;
    default:
        return is_rename(r->orig_rax);
    }
}

/* Runs the program as planned. `loaded` is the last call by which it is loaded, so far as that is known. */
static struct seen run(const struct plan *plan, long loaded)
{
    struct seen seen = {0};
    int status, inside = 0, signal = 0, new_fd = -1, is_dirty = 0, is_full = 0, spoilt = 0;
    runs++;
    pid_t child = fork();
    if (child < 0) {
        give_up("fork");
    }
    if (child == 0) {
        become_program(plan);
    }
    waitpid(child, &status, 0);
    if (!WIFSTOPPED(status)) {
        fprintf(stderr, "stops: %s cannot be run, or not be traced here\n", command[0]);
        exit(1);
    }
    ptrace(PTRACE_SETOPTIONS, child, NULL, (void *)(long)(PTRACE_O_TRACESYSGOOD | PTRACE_O_EXITKILL));
    for (;;) {
        struct user_regs_struct r;
        if (ptrace(PTRACE_SYSCALL, child, NULL, (void *)(long)signal) < 0 && errno != ESRCH) {
            give_up("ptrace");
        }
        if (waitpid(child, &status, 0) != child || !WIFSTOPPED(status)) {
            break;
        }
        signal = 0;
        if (WSTOPSIG(status) != (SIGTRAP | 0x80)) {
            signal = WSTOPSIG(status);
            continue;
        }
        if (ptrace(PTRACE_GETREGS, child, NULL, &r) < 0) {
            continue;
        }
        inside = !inside;
        if (inside) {
            int is_here = ++seen.calls == plan->at && plan->manner != LIMIT, is_write = r.orig_rax == SYS_write && (int)r.rdi == new_fd;
            if (is_here && plan->manner == KILL_BEFORE) {
                kill(child, SIGKILL);
            }
            if (is_here && plan->manner == TAKEN) {
                restore(new_bytes);
            }
            if (r.orig_rax == SYS_statx) {
                seen.looked = seen.calls;
            }
            spoilt = (is_here && plan->manner == FAIL) || (is_full && is_write);
            if (spoilt) {
                seen.matters |= seen.calls > loaded && does_matter(&r, new_fd, plan->error);
                r.orig_rax = (unsigned long long)-1;
                ptrace(PTRACE_SETREGS, child, NULL, &r);
            }
            if (is_here && plan->manner == FULL && is_write && r.rdx > 1) {
                r.rdx = 1;
                is_full = 1;
                ptrace(PTRACE_SETREGS, child, NULL, &r);
            }
            continue;
        }
        if (plan->manner == LIST) {
            list(seen.calls, &r);
        }
        if (spoilt) {
            r.rax = (unsigned long long)-(plan->manner == FULL ? ENOSPC : plan->error);
            ptrace(PTRACE_SETREGS, child, NULL, &r);
        } else if ((long long)r.rax >= 0) {
            if (r.orig_rax == SYS_munmap) {
                seen.loaded = seen.calls;
            }
            if ((r.orig_rax == SYS_openat && (r.rdx & O_CREAT)) || (r.orig_rax == SYS_open && (r.rsi & O_CREAT))) {
                new_fd = (int)r.rax;
            } else if (r.orig_rax == SYS_write && (int)r.rdi == new_fd) {
                is_dirty = 1;
                seen.written = seen.calls;
            } else if (r.orig_rax == SYS_write && (int)r.rdi == 1 && r.rax > 0) {
                seen.answered = 1;
            } else if (r.orig_rax == SYS_fsync && (int)r.rdi == new_fd) {
                is_dirty = 0;
            } else if (r.orig_rax == SYS_fsync && seen.renamed != 0) {
                seen.folder_flushed = 1;
            } else if (r.orig_rax == SYS_close && (int)r.rdi == new_fd) {
                new_fd = -1;
            } else if (is_rename(r.orig_rax)) {
                seen.renamed = seen.calls;
                seen.flushed = !is_dirty;
            }
        }
        if (seen.calls == plan->at && plan->manner == KILL_AFTER) {
            kill(child, SIGKILL);
        }
    }
    seen.killed = WIFSIGNALED(status);
    seen.status = seen.killed ? 100 : WEXITSTATUS(status);
    seen.told_complaint = seen.status == 2;
    seen.told_success = seen.status == 0;
    return seen;
}

static void fault(const struct plan *plan, const char *what)
{
    faults++;
    fprintf(stderr, "stops: %s", manner_names[plan->manner]);
    if (plan->manner != WHOLE) {
        fprintf(stderr, " %ld", plan->at);
    }
    if (plan->manner == FAIL) {
        fprintf(stderr, " by %s", strerror(plan->error));
    }
    fprintf(stderr, ": %s:", what);
    for (char **word = command; *word != NULL; word++) {
        fprintf(stderr, " %s", *word);
    }
    fprintf(stderr, "\n");
}

/* A run, and what has to hold after it. */
static struct seen try(const struct plan *plan, long loaded)
{
    restore(old_bytes);
    struct seen seen = run(plan, loaded);
    struct bytes now = read_all(file);
    int left = clear_folder();
    if (!is_same(now, seen.renamed != 0 ? new_bytes : old_bytes)) {
        fault(plan, is_same(now, new_bytes) || is_same(now, old_bytes) ? "the other state" : "neither the old state nor the new one");
    }
    if (seen.told_success && !is_same(now, new_bytes)) {
        fault(plan, "success is told, and the file is not the new one");
    }
    if (seen.told_success && seen.matters) {
        fault(plan, "success is told, though a call failed");
    }
    if (seen.answered && (seen.matters || !is_same(now, new_bytes))) {
        fault(plan, "an answer, though it is not saved");
    }
    if (!seen.killed && seen.matters && !seen.told_complaint && seen.calls > loaded) {
        fault(plan, "no complaint");
    }
    if (!seen.killed && left != 0) {
        fault(plan, "a file is left beside");
    }
    free(now.at);
    return seen;
}

/* Every way to disturb the program. */
static void try_all(void)
{
    static const int errors[] = {ENOSPC, EIO, EINTR};
    static const long limits[] = {0, 1, 19, 20, 21, 500, 1024, 32768, 65535};
    struct plan plan = {.manner = WHOLE};
    struct seen whole = try(&plan, 0);
    if (!whole.told_success || whole.renamed == 0) {
        fault(&plan, "no success");
    }
    if (!whole.flushed) {
        fault(&plan, "the new file is not flushed before it is renamed");
    }
    if (!whole.folder_flushed) {
        fault(&plan, "the folder is not flushed");
    }
    for (long at = 1; at <= whole.calls && faults < 20; at++) {
        plan = (struct plan){.manner = KILL_BEFORE, .at = at};
        try(&plan, whole.loaded);
        plan = (struct plan){.manner = KILL_AFTER, .at = at};
        try(&plan, whole.loaded);
        for (size_t e = 0; at > whole.loaded && e < sizeof errors / sizeof *errors; e++) {
            plan = (struct plan){.manner = FAIL, .at = at, .error = errors[e]};
            try(&plan, whole.loaded);
        }
        if (at > whole.loaded) {
            plan = (struct plan){.manner = FULL, .at = at};
            try(&plan, whole.loaded);
        }
    }
    for (size_t l = 0; l < sizeof limits / sizeof *limits; l++) {
        for (int ignores = 0; ignores < 2; ignores++) {
            plan = (struct plan){.manner = LIMIT, .at = limits[l], .ignores = ignores};
            try(&plan, whole.loaded);
        }
    }
}

/* Another makes FILE, before each call up to the last look. */
static void try_taken(void)
{
    struct plan plan = {.manner = WHOLE};
    new_bytes = (struct bytes){(unsigned char *)"another's", 9, 1};
    unlink(file);
    struct seen whole = run(&plan, 0);
    if (!whole.told_success || whole.looked < whole.written) {
        fault(&plan, "no success, or no look once the new file is written");
    }
    for (long at = 1; at <= whole.looked; at++) {
        plan = (struct plan){.manner = TAKEN, .at = at};
        unlink(file);
        struct seen seen = run(&plan, 0);
        struct bytes now = read_all(file);
        if (!seen.told_complaint || clear_folder() != 0 || !is_same(now, new_bytes)) {
            fault(&plan, "no complaint, a file beside, or another's file is replaced");
        }
        free(now.at);
    }
    unlink(file);
}

int main(int argc, char **argv)
{
    struct plan plan = {.manner = LIST, .is_plain = 1};
    if (argc > 2 && strcmp(argv[1], "list") == 0) {
        command = argv + 2;
        return run(&plan, 0).status;
    }
    if (argc > 4 && strcmp(argv[1], "fail") == 0) {
        plan = (struct plan){.manner = FAIL, .at = atol(argv[2]), .error = atoi(argv[3]), .is_plain = 1};
        command = argv + 4;
        return run(&plan, 0).status;
    }
    if (argc > 3 && strcmp(argv[1], "keeps") == 0) {
        file = argv[2];
        command = argv + 3;
        try_taken();
        printf("%ld\n", runs);
        return faults != 0;
    }
    if (argc > 5 && strcmp(argv[1], "saves") == 0) {
        file = argv[2];
        old_bytes = read_all(argv[3]);
        new_bytes = read_all(argv[4]);
        command = argv + 5;
        try_all();
        restore(old_bytes);
        printf("%ld\n", runs);
        return faults != 0;
    }
    fprintf(stderr, "stops list | fail N ERRNO | keeps FILE | saves FILE OLD NEW, then PROGRAM WORD..\n");
    return 1;
}
