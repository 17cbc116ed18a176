// The calls of a trace, made for real: what the player and exported tests share.
//
// Instructions come line by line, as numalab/linux/instructions.py writes them. Each process of the trace is a child, which gets the
// lines of its own calls through a pipe and leaves its answer in memory that all share: a pipe back would need a page of its own, which a
// process cannot get where its nodes are only for movable pages.
#define _GNU_SOURCE
#include <ctype.h>
#include <dirent.h>
#include <errno.h>
#include <fcntl.h>
#include <linux/capability.h>
#include <poll.h>
#include <sched.h>
#include <setjmp.h>
#include <signal.h>
#include <stdarg.h>
#include <stdbool.h>
#include <stdint.h>
#include <stdio.h>
#include <stdlib.h>
#include <string.h>
#include <sys/eventfd.h>
#include <sys/mman.h>
#include <sys/prctl.h>
#include <sys/stat.h>
#include <sys/syscall.h>
#include <sys/uio.h>
#include <sys/wait.h>
#include <unistd.h>

enum { PAGE = 4096, MOST_ENTRIES = 16384, MOST_PROCESSES = 256, MOST_SEGMENTS = 1024, MOST_PINS = 256, MOST_NODES = 64 };
enum { BUFFER = 1 << 20, UNWRITTEN = -9999, PATIENCE = 60, NO_PID = 0x3ffffff };
#define TIME_LIMIT_OF_OFFLINE 10

struct process {
    unsigned number; // as the trace has it; 0 where there is none
    pid_t pid, confined; // confined is the pid that its cpuset is named after, or 0
    int to, done;
};

enum outcome { DONE, GONE, LATE };

static struct process processes[MOST_PROCESSES];
static int segments[MOST_SEGMENTS];

// A process that fills a node with pages of a source, and the pipes through which it is told to look for room again.
static struct {
    pid_t pid;
    int to, from;
    unsigned long source;
} fillers[MOST_NODES];
static int pins[MOST_PINS][2];
static bool away[MOST_NODES];
static char line[BUFFER], *answer;
static size_t told; // how long the answer is so far
static void *pages[MOST_ENTRIES];
static int nodes[MOST_ENTRIES], statuses[MOST_ENTRIES];
static unsigned long own_low = ~0UL; // the lowest address at which the player itself has something
static sigjmp_buf fault;
static pid_t own_pid;
static const char *everywhere = "-"; // the nodes for a process that may use all nodes of the trace; - without a cpuset
static bool compacted; // whether the kernel has compacted memory by the time of a vmstat

// What is made of this ends the play, and says why: each front has its own.
static void give_up(const char *why) __attribute__((noreturn));
static void stop(const char *what) __attribute__((noreturn));

// ---- texts

static const char *error_name(int error)
{
    static const struct { int error; const char *name; } names[] = {
        {EPERM, "EPERM"}, {ENOENT, "ENOENT"}, {ESRCH, "ESRCH"}, {EIO, "EIO"}, {E2BIG, "E2BIG"}, {EBADF, "EBADF"}, {EAGAIN, "EAGAIN"},
        {ENOMEM, "ENOMEM"}, {EACCES, "EACCES"}, {EFAULT, "EFAULT"}, {EBUSY, "EBUSY"}, {EEXIST, "EEXIST"}, {ENODEV, "ENODEV"},
        {EINVAL, "EINVAL"}, {ENFILE, "ENFILE"}, {EMFILE, "EMFILE"}, {ENOSPC, "ENOSPC"}, {ENOSYS, "ENOSYS"},
    };
    for (size_t at = 0; at < sizeof names / sizeof *names; at++)
        if (names[at].error == error)
            return names[at].name;
    return "UNKNOWN";
}

static void say_nothing(void)
{
    told = 0;
    answer[0] = 0;
}

// Adds to the answer, which keeps room for what is put around it.
static void say(const char *form, ...)
{
    va_list words;
    va_start(words, form);
    int length = vsnprintf(answer + told, BUFFER - 64 - told, form, words);
    va_end(words);
    told += (size_t)length < BUFFER - 64 - told ? (size_t)length : 0;
}

// Ends the play, for want of something. A child leaves the reason where its parent finds it.
static void stop(const char *what)
{
    static char why[1024];
    snprintf(why, sizeof why, "%s: %s", what, strerror(errno));
    if (getpid() == own_pid)
        give_up(why);
    say_nothing();
    say("%s", why);
    _exit(3);
}

// Ends the play with the reason that a child has left.
static void stop_for_child(const char *what)
{
    give_up(*answer ? answer : what);
}

// Puts a count before what was said.
static void say_before(unsigned long count, const char *between)
{
    static char held[BUFFER];
    memcpy(held, answer, told + 1);
    say_nothing();
    say("%lu%s%s", count, between, held);
}

static void say_result(long result)
{
    if (result < 0)
        say("error %s", error_name(errno));
    else
        say("ok");
}

// The next word of the line that is being read.
static char *words;
static char *word(void)
{
    char *found = strtok_r(NULL, " \n", &words);
    return found ? found : (char *)"";
}

static unsigned long number(void)
{
    return strtoul(word(), NULL, 0);
}

static void write_text(const char *path, const char *text)
{
    int file = open(path, O_WRONLY | O_CLOEXEC);
    if (file < 0 || write(file, text, strlen(text)) < 0)
        stop(path);
    close(file);
}

static void write_all(int file, const char *text)
{
    for (size_t left = strlen(text); left;) {
        ssize_t done = write(file, text, left);
        if (done < 0)
            return; // The other end is gone, which the answer will show.
        text += done;
        left -= (size_t)done;
    }
}

// Reads to the end of a line, and says whether one came within some seconds.
static bool read_line(int file, char *to, int seconds)
{
    size_t length = 0;
    while (length + 1 < BUFFER) {
        struct pollfd wait = {.fd = file, .events = POLLIN};
        if (poll(&wait, 1, seconds < 0 ? -1 : seconds * 1000) <= 0)
            return false;
        ssize_t got = read(file, to + length, BUFFER - 1 - length);
        if (got <= 0)
            return false;
        length += (size_t)got;
        to[length] = 0;
        if (to[length - 1] == '\n') {
            to[length - 1] = 0;
            return true;
        }
    }
    return false;
}

// ---- what a process of the trace does

static void on_fault(int number_of_signal)
{
    (void)number_of_signal;
    siglongjmp(fault, 1);
}

static void do_read(void)
{
    if (sigsetjmp(fault, 1)) {
        say_nothing();
        say("error EFAULT");
        return;
    }
    const volatile unsigned char *from = (void *)number();
    size_t length = number();
    for (size_t at = 0; at < length; at++)
        say("%02x", from[at]);
}

static void do_write(void)
{
    if (sigsetjmp(fault, 1)) {
        say("error EFAULT");
        return;
    }
    volatile unsigned char *to = (void *)number();
    const char *data = word();
    unsigned byte;
    for (size_t at = 0; sscanf(data + 2 * at, "%2x", &byte) == 1; at++)
        to[at] = (unsigned char)byte;
    say("ok");
}

static void do_map(void)
{
    void *at = (void *)number();
    size_t length = number() * PAGE;
    unsigned long segment = number(), shared = number();
    int flags = MAP_FIXED_NOREPLACE | MAP_NORESERVE | (shared ? MAP_SHARED : MAP_PRIVATE | MAP_ANONYMOUS);
    void *got = mmap(at, length, PROT_READ | PROT_WRITE, flags, shared ? segments[segment] : -1, 0);
    if (got == MAP_FAILED)
        say_result(-1);
    else
        say("segment=%lu", segment);
}

static void do_attach(void)
{
    void *at = (void *)number();
    int file = segments[number()];
    off_t offset = (off_t)(number() * PAGE);
    size_t length = number() * PAGE;
    void *got = mmap(at, length, PROT_READ | PROT_WRITE, MAP_FIXED_NOREPLACE | MAP_NORESERVE | MAP_SHARED, file, offset);
    say_result(got == MAP_FAILED ? -1 : 0);
}

static void do_unmap(void)
{
    void *at = (void *)number();
    say_result(munmap(at, number() * PAGE));
}

// A pin is a pipe that holds the page.
static void do_pin(void)
{
    struct iovec part = {(void *)number(), 1};
    int *pin = pins[number() % MOST_PINS];
    if (pipe2(pin, O_CLOEXEC) < 0)
        say_result(-1);
    else
        say_result(vmsplice(pin[1], &part, 1, 0));
}

static void do_unpin(void)
{
    int *pin = pins[number() % MOST_PINS];
    close(pin[0]);
    say_result(close(pin[1]));
}

static void say_statuses(long result, unsigned long count)
{
    if (result < 0) {
        say_result(result);
        return;
    }
    say("%ld:", result);
    for (unsigned long at = 0; at < count; at++)
        say(statuses[at] == UNWRITTEN ? " -" : " %d", statuses[at]);
}

static void do_move_pages(bool query)
{
    pid_t pid = (pid_t)number();
    int flags = (int)number();
    unsigned long count = number();
    for (unsigned long at = 0; at < count && at < MOST_ENTRIES; at++) {
        pages[at] = (void *)number();
        nodes[at] = query ? 0 : (int)number();
        statuses[at] = UNWRITTEN;
    }
    long result = syscall(SYS_move_pages, pid, count, pages, query ? NULL : nodes, statuses, flags);
    say_statuses(result, count);
}

static void do_migrate_pages(void)
{
    pid_t pid = (pid_t)number();
    unsigned long from = number(), to = number();
    long result = syscall(SYS_migrate_pages, pid, 8 * sizeof from + 1, &from, &to);
    if (result < 0)
        say_result(result);
    else
        say("%ld", result);
}

static void do_mbind(void)
{
    void *at = (void *)number();
    unsigned long length = number(), mode = number(), mask = number(), flags = number();
    long result = syscall(SYS_mbind, at, length, mode, mask ? &mask : NULL, mask ? 8 * sizeof mask + 1 : 0, flags);
    if (result < 0)
        say_result(result);
    else
        say("%ld", result);
}

// The pages of a range at which this process has something, by address.
static unsigned long say_range(int map, unsigned long first, unsigned long end)
{
    unsigned long found = 0;
    for (unsigned long at = first; at < end; at += PAGE) {
        uint64_t entry = 0;
        if (pread(map, &entry, sizeof entry, (off_t)(at / PAGE * sizeof entry)) != sizeof entry || !(entry >> 63))
            continue;
        void *page = (void *)at;
        int status = UNWRITTEN;
        syscall(SYS_move_pages, 0, 1, &page, NULL, &status, 0);
        if (status >= 0)
            say(" %08lx=%d", at, status);
        else
            say(" %08lx=zero", at);
        found++;
    }
    return found;
}

static void do_pagemap(void)
{
    FILE *maps = fopen("/proc/self/maps", "re");
    int map = open("/proc/self/pagemap", O_RDONLY | O_CLOEXEC);
    if (!maps || map < 0) {
        say_result(-1);
        return;
    }
    unsigned long first, end, found = 0;
    while (fscanf(maps, "%lx-%lx%*[^\n]", &first, &end) == 2)
        if (first < own_low)
            found += say_range(map, first, end);
    fclose(maps);
    close(map);
    say_before(found, ":");
}

// One line of numa_maps, with the fields that a report has. Lines are separated by ; on the way to the player.
static void say_area(char *text)
{
    unsigned long counts[MOST_NODES] = {0}, sum = 0, most = 0, node, count;
    char *rest = text, *address = strtok_r(rest, " \n", &rest), *policy = strtok_r(rest, " \n", &rest), *field;
    const char *many = "", *joint = !strcmp(policy, "weighted") ? "-" : "";
    while ((field = strtok_r(rest, " \n", &rest))) {
        if (*field == '(' || !strncmp(field, "interleave", 10))
            many = field; // prefer (many):1, weighted interleave:1
        if (sscanf(field, "N%lu=%lu", &node, &count) == 2 && node < MOST_NODES)
            sum += counts[node] = count;
        sscanf(field, "mapmax=%lu", &most);
    }
    say(";%s %s%s%s", address, policy, joint, many);
    if (!sum)
        return;
    say(" anon=%lu", sum);
    if (most > 1)
        say(" mapmax=%lu", most);
    for (node = 0; node < MOST_NODES; node++)
        if (counts[node])
            say(" N%lu=%lu", node, counts[node]);
    say(" kernelpagesize_kB=4");
}

static void do_numa_maps(void)
{
    static char text[PAGE];
    FILE *maps = fopen("/proc/self/numa_maps", "re");
    unsigned long found = 0;
    if (!maps) {
        say_result(-1);
        return;
    }
    while (fgets(text, sizeof text, maps)) {
        if (strtoul(text, NULL, 16) < own_low) {
            say_area(text);
            found++;
        }
    }
    fclose(maps);
    say_before(found, "");
}

static void perform(const char *call)
{
    static const struct { const char *name; void (*act)(void); } acts[] = {
        {"read", do_read}, {"write", do_write}, {"map", do_map}, {"attach", do_attach}, {"unmap", do_unmap}, {"pin", do_pin},
        {"unpin", do_unpin}, {"migrate_pages", do_migrate_pages}, {"mbind", do_mbind}, {"pagemap", do_pagemap},
        {"numa_maps", do_numa_maps},
    };
    say_nothing();
    if (!strcmp(call, "move_pages") || !strcmp(call, "query"))
        do_move_pages(*call == 'q');
    for (size_t at = 0; at < sizeof acts / sizeof *acts; at++)
        if (!strcmp(call, acts[at].name))
            acts[at].act();
}

// Who a process is: its user, and its privilege, which is CAP_SYS_NICE and, unless it has that alone, CAP_SYS_PTRACE.
static void become(unsigned long user, unsigned long privilege)
{
    struct __user_cap_header_struct head = {_LINUX_CAPABILITY_VERSION_3, 0};
    struct __user_cap_data_struct sets[2] = {{0}};
    if (privilege >= 1)
        sets[0].effective |= 1U << CAP_SYS_NICE;
    if (privilege >= 2)
        sets[0].effective |= 1U << CAP_SYS_PTRACE;
    sets[0].permitted = sets[0].effective;
    prctl(PR_SET_KEEPCAPS, 1);
    if (user && (setresgid((gid_t)user, (gid_t)user, (gid_t)user) < 0 || setresuid((uid_t)user, (uid_t)user, (uid_t)user) < 0))
        stop("setresuid");
    if (user && syscall(SYS_capset, &head, sets) < 0)
        stop("capset");
    prctl(PR_SET_DUMPABLE, 1); // A change of user clears this, and then others of the same user may no longer look.
}

// Unmaps the pages that the kernel gives to each process: they cannot move, and migrate_pages would count them.
static void leave_vdso(void)
{
    char text[512];
    unsigned long first, end;
    FILE *maps = fopen("/proc/self/maps", "re");
    while (maps && fgets(text, sizeof text, maps)) {
        if (strstr(text, "[vdso]") && sscanf(text, "%lx-%lx", &first, &end) == 2)
            munmap((void *)first, end - first);
    }
    if (maps)
        fclose(maps);
}

// Adds the numbers of a list such as 0-3,8 to a set of processors.
static void add_listed(const char *list, cpu_set_t *set)
{
    for (char *rest = (char *)list; isdigit((unsigned char)*rest);) {
        unsigned long first = strtoul(rest, &rest, 10), last = *rest == '-' ? strtoul(rest + 1, &rest, 10) : first;
        for (; first <= last && first < CPU_SETSIZE; first++)
            CPU_SET(first, set);
        rest += *rest == ',';
    }
}

// The processors of a node that this process may use.
static cpu_set_t processors_of(unsigned long node)
{
    char path[96], list[PAGE] = "";
    cpu_set_t there, usable;
    CPU_ZERO(&there);
    CPU_ZERO(&usable);
    snprintf(path, sizeof path, "/sys/devices/system/node/node%lu/cpulist", node);
    FILE *file = fopen(path, "re");
    if (file && fgets(list, sizeof list, file))
        add_listed(list, &there);
    if (file)
        fclose(file);
    sched_getaffinity(0, sizeof usable, &usable);
    CPU_AND(&there, &there, &usable);
    return there;
}

static void live(int from, int done, unsigned long user, unsigned long privilege, unsigned long home)
{
    cpu_set_t where = processors_of(home);
    if (sched_setaffinity(0, sizeof where, &where) < 0)
        stop("no processor of a process's home node may be used");
    syscall(SYS_set_mempolicy, 0, NULL, 0); // whatever the policy is that the player was started under
    struct sigaction act = {.sa_handler = on_fault, .sa_flags = SA_NODEFER};
    sigaction(SIGSEGV, &act, NULL);
    sigaction(SIGBUS, &act, NULL);
    write_text("/proc/self/oom_score_adj", "1000");
    prctl(PR_SET_THP_DISABLE, 1, 0, 0, 0);
    prctl(PR_SET_PDEATHSIG, SIGKILL);
    leave_vdso();
    become(user, privilege);
    words = line; // What a call writes to is there before the first one.
    *line = 0;
    say_nothing();
    eventfd_write(done, 1);
    while (read_line(from, line, -1)) {
        words = line;
        perform(word());
        eventfd_write(done, 1);
    }
    _exit(0);
}

// ---- the player

// Pages moved, pages that failed to move, and pages that the kernel isolated to make room of its own accord.
struct totals {
    long moved, failed, compacted;
};

static struct totals before_all;

static struct totals read_totals(void)
{
    struct totals found = {0};
    char name[64];
    long value;
    FILE *file = fopen("/proc/vmstat", "re");
    while (file && fscanf(file, "%63s %ld", name, &value) == 2) {
        if (!strcmp(name, "pgmigrate_success"))
            found.moved = value;
        if (!strcmp(name, "pgmigrate_fail"))
            found.failed = value;
        if (!strcmp(name, "compact_isolated"))
            found.compacted = value;
    }
    if (file)
        fclose(file);
    return found;
}

// What the player itself moves does not count.
static void leave_out(struct totals before)
{
    struct totals now = read_totals();
    before_all.moved += now.moved - before.moved;
    before_all.failed += now.failed - before.failed;
}

// Waits until the kernel moves no pages of its own accord.
static void wait_for_rest(void)
{
    for (int tries = 0, still = 0; tries < 40 && still < 3; tries++) {
        struct totals before = read_totals();
        usleep(20000);
        struct totals now = read_totals();
        still = now.moved == before.moved && now.compacted == before.compacted ? still + 1 : 0;
    }
}

static struct process *process_of(unsigned long asked)
{
    for (int at = 0; at < MOST_PROCESSES; at++)
        if (asked && processes[at].number == asked)
            return &processes[at];
    return NULL;
}

static void path_of_cpuset(char *path, size_t size, pid_t pid, const char *file)
{
    snprintf(path, size, "/sys/fs/cgroup/numatrace-%d%s", pid, file);
}

// Removes the cpuset of a process that has ended, which takes the kernel a moment.
static void remove_cpuset(pid_t pid)
{
    char path[128];
    path_of_cpuset(path, sizeof path, pid, "");
    for (int tries = 0; tries < 50 && rmdir(path) < 0 && errno == EBUSY; tries++)
        usleep(2000);
}

static void bury(struct process *process)
{
    if (process->pid) {
        kill(process->pid, SIGKILL);
        waitpid(process->pid, NULL, 0);
    }
    if (process->confined)
        remove_cpuset(process->confined);
    close(process->to);
    close(process->done);
    process->number = 0;
}

// Waits until a process has written its answer.
static enum outcome wait_for(struct process *process)
{
    struct pollfd wait = {.fd = process->done, .events = POLLIN};
    eventfd_t value;
    for (int tries = 0; tries < PATIENCE * 20; tries++) {
        if (poll(&wait, 1, 50) > 0)
            return eventfd_read(process->done, &value) == 0 ? DONE : LATE;
        if (waitpid(process->pid, NULL, WNOHANG) == process->pid) {
            process->pid = 0;
            return GONE;
        }
    }
    return LATE;
}

// Puts a process that has not changed its user yet into a cpuset of these nodes.
static void confine(struct process *process, const char *allowed)
{
    char path[128], text[32];
    path_of_cpuset(path, sizeof path, process->pid, "");
    if (mkdir(path, 0755) < 0)
        stop(path);
    process->confined = process->pid;
    path_of_cpuset(path, sizeof path, process->pid, "/cpuset.mems");
    write_text(path, allowed);
    path_of_cpuset(path, sizeof path, process->pid, "/cgroup.procs");
    snprintf(text, sizeof text, "%d", process->pid);
    write_text(path, text);
}

static void start_process(struct process *process)
{
    int down[2];
    unsigned long user = number(), privilege = number(), home = number();
    const char *allowed = word();
    if (*allowed == '-')
        allowed = everywhere;
    if (geteuid() != 0)
        user = 0; // Only root can have others.
    process->confined = 0;
    process->done = eventfd(0, EFD_CLOEXEC);
    if (pipe2(down, O_CLOEXEC) < 0 || process->done < 0)
        stop("pipe");
    process->pid = fork();
    if (process->pid < 0)
        stop("fork");
    if (process->pid == 0) {
        close(down[1]);
        char go;
        if (read(down[0], &go, 1) != 1)
            _exit(0);
        live(down[0], process->done, user, privilege, home);
    }
    close(down[0]);
    process->to = down[1];
    struct totals before = read_totals();
    if (*allowed != '-')
        confine(process, allowed);
    leave_out(before);
    say_nothing();
    write_all(process->to, "\n");
    if (wait_for(process) != DONE)
        stop_for_child("a process did not start");
    say_nothing();
    say("ok");
}

static void do_spawn(void)
{
    unsigned long asked = number();
    for (int at = 0; at < MOST_PROCESSES; at++) {
        if (!processes[at].number) {
            processes[at].number = (unsigned)asked;
            start_process(&processes[at]);
            return;
        }
    }
    say("error EAGAIN");
}

static void do_exit(void)
{
    struct process *process = process_of(number());
    if (process)
        bury(process);
    say(process ? "ok" : "error ESRCH");
}

// ---- full nodes: a process takes all that is free, by first touches while there is plenty, then by moves up to the watermark

static unsigned long free_pages_of(unsigned long node)
{
    char path[96], text[256];
    unsigned long kilobytes = 0;
    snprintf(path, sizeof path, "/sys/devices/system/node/node%lu/meminfo", node);
    FILE *file = fopen(path, "re");
    while (file && fgets(text, sizeof text, file))
        sscanf(text, "Node %*u MemFree: %lu", &kilobytes);
    if (file)
        fclose(file);
    return kilobytes / 4;
}

static void touch_on(unsigned long node, unsigned long count)
{
    unsigned long mask = 1UL << node;
    char *at = mmap(NULL, count * PAGE, PROT_READ | PROT_WRITE, MAP_PRIVATE | MAP_ANONYMOUS, -1, 0);
    if (at == MAP_FAILED || syscall(SYS_mbind, at, count * PAGE, 1, &mask, 8 * sizeof mask + 1, 0) < 0)
        stop("a node cannot be filled");
    for (unsigned long page = 0; page < count; page++)
        at[page * PAGE] = 1;
}

// Moves some pages to the node, and says whether there was room for them.
static bool moved_to(unsigned long node, unsigned long source, unsigned long count)
{
    unsigned long mask = 1UL << source;
    char *at = mmap(NULL, count * PAGE, PROT_READ | PROT_WRITE, MAP_PRIVATE | MAP_ANONYMOUS, -1, 0);
    if (at == MAP_FAILED || syscall(SYS_mbind, at, count * PAGE, 1, &mask, 8 * sizeof mask + 1, 0) < 0)
        stop("a node cannot be filled");
    for (unsigned long page = 0; page < count; page++) {
        at[page * PAGE] = 1;
        pages[page] = at + page * PAGE;
        nodes[page] = (int)node;
    }
    return syscall(SYS_move_pages, 0, count, pages, nodes, statuses, 2) == 0;
}

// Moves pages to the node until there is no room for another.
static void top_up(unsigned long node, unsigned long source)
{
    while (moved_to(node, source, 1))
        continue;
}

// Fills a node, and again whenever it is told to, because the kernel finds some room from time to time.
static void fill(unsigned long node, unsigned long source, int from, int to)
{
    prctl(PR_SET_PDEATHSIG, SIGKILL);
    prctl(PR_SET_THP_DISABLE, 1, 0, 0, 0);
    write_text("/proc/self/oom_score_adj", "-1000");
    unsigned long there = free_pages_of(node);
    if (there > 2048)
        touch_on(node, there - 2048);
    while (moved_to(node, source, 32))
        continue;
    for (int tries = 0; tries < 3; tries++) {
        top_up(node, source);
        usleep(30000);
    }
    write_all(to, "ok\n");
    while (read_line(from, line, -1)) {
        top_up(node, source);
        write_all(to, "ok\n");
    }
    _exit(0);
}

static void start_filler(unsigned long node, unsigned long source)
{
    struct totals before = read_totals();
    int down[2], up[2];
    if (pipe2(down, O_CLOEXEC) < 0 || pipe2(up, O_CLOEXEC) < 0)
        stop("pipe");
    say_nothing();
    fillers[node].pid = fork();
    if (fillers[node].pid == 0) {
        close(down[1]);
        fill(node, source, down[0], up[1]);
    }
    close(down[0]);
    close(up[1]);
    fillers[node].to = down[1];
    fillers[node].from = up[0];
    fillers[node].source = source;
    if (!read_line(up[0], answer, PATIENCE))
        stop_for_child("a node was not filled");
    wait_for_rest();
    leave_out(before);
    before_all.compacted += read_totals().compacted - before.compacted;
}

static void do_fill(void)
{
    unsigned long node = number() % MOST_NODES;
    start_filler(node, number());
}

static void drain(unsigned long node)
{
    if (!fillers[node].pid)
        return;
    kill(fillers[node].pid, SIGKILL);
    waitpid(fillers[node].pid, NULL, 0);
    close(fillers[node].to);
    close(fillers[node].from);
    fillers[node].pid = 0;
}

// Fills nodes that must be full again, before a call for which it matters.
static void keep_full(void)
{
    for (unsigned long node = 0; node < MOST_NODES; node++) {
        if (!fillers[node].pid)
            continue;
        struct totals before = read_totals();
        say_nothing();
        write_all(fillers[node].to, "again\n");
        if (!read_line(fillers[node].from, answer, PATIENCE))
            stop_for_child("a node was not filled");
        leave_out(before);
    }
}

// ---- calls

// The nodes of a process's pages of the player itself, which migrate_pages moves as well.
static unsigned long own_pages(pid_t pid, void **found, int *where)
{
    char path[64], text[512];
    unsigned long first, end, count = 0;
    snprintf(path, sizeof path, "/proc/%d/maps", pid);
    FILE *maps = fopen(path, "re");
    while (maps && fgets(text, sizeof text, maps)) {
        if (sscanf(text, "%lx-%lx", &first, &end) != 2 || first < own_low)
            continue;
        for (unsigned long at = first; at < end && count < MOST_ENTRIES; at += PAGE)
            found[count++] = (void *)at;
    }
    if (maps)
        fclose(maps);
    if (!count || syscall(SYS_move_pages, pid, count, found, NULL, where, 0) != 0)
        return 0;
    return count;
}

static void ask(struct process *process, const char *sent)
{
    write_all(process->to, sent);
    enum outcome outcome = wait_for(process);
    if (outcome == DONE)
        return;
    bury(process);
    say_nothing();
    say(outcome == GONE ? "killed" : "hangs");
}

// The nodes that a file lists after some words at the beginning of a line, as bits.
static unsigned long listed_nodes(const char *path, const char *begin)
{
    char text[PAGE];
    unsigned long bits = 0;
    FILE *file = fopen(path, "re");
    while (file && fgets(text, sizeof text, file)) {
        if (strncmp(text, begin, strlen(begin)))
            continue;
        cpu_set_t set;
        CPU_ZERO(&set);
        add_listed(text + strlen(begin) + strspn(text + strlen(begin), " \t"), &set);
        for (unsigned long node = 0; node < MOST_NODES; node++)
            bits |= CPU_ISSET(node, &set) ? 1UL << node : 0;
    }
    if (file)
        fclose(file);
    return bits;
}

static unsigned long nodes_allowed(pid_t pid)
{
    char path[64];
    snprintf(path, sizeof path, "/proc/%d/status", pid);
    return listed_nodes(path, "Mems_allowed_list:");
}

// Which of the nodes in a set comes where a node comes in another, as the kernel counts round.
static int counterpart(int node, unsigned long from, unsigned long to)
{
    int place = __builtin_popcountl(from & ((1UL << node) - 1)) % __builtin_popcountl(to);
    while (place--)
        to &= to - 1;
    return __builtin_ctzl(to);
}

// Where migrate_pages moves a page that is on some node, and in how many moves: node by node, as do_migrate_pages goes.
static int goes_to(int node, unsigned long from, unsigned long to, long *moves)
{
    *moves = 0;
    for (unsigned long left = from; left && to;) {
        int source = -1, target = 0;
        for (unsigned long rest = left; rest; rest &= rest - 1) {
            int one = __builtin_ctzl(rest), other = counterpart(one, from, to);
            if (one == other || (__builtin_popcountl(from) != __builtin_popcountl(to) && to >> one & 1))
                continue;
            source = one;
            target = other;
            if (!(left >> other & 1))
                break;
        }
        if (source < 0)
            break;
        left &= ~(1UL << source);
        if (node == source) {
            node = target;
            ++*moves;
        }
    }
    return node;
}

// Moves the player's own pages of a process to a node that migrate_pages leaves alone, if the process may use one: where it is full, it is
// filled again after that.
static void set_aside(pid_t pid, unsigned long from, unsigned long to)
{
    static int where[MOST_ENTRIES];
    unsigned long usable = listed_nodes("/sys/devices/system/node/has_memory", "") & nodes_allowed(pid), found = 0;
    long moves;
    int node = -1;
    for (int one = 0; one < MOST_NODES; one++)
        if (usable >> one & 1 && (goes_to(one, from, to, &moves), !moves) && (node < 0 || fillers[node].pid))
            node = one;
    if (node < 0)
        return;
    unsigned long count = own_pages(pid, pages, where);
    for (unsigned long at = 0; at < count; at++) {
        if (where[at] >= 0 && (goes_to(where[at], from, to, &moves), moves)) {
            pages[found] = pages[at];
            nodes[found++] = node;
        }
    }
    if (!found)
        return;
    bool full = fillers[node].pid;
    if (full)
        drain((unsigned long)node);
    struct totals before = read_totals();
    syscall(SYS_move_pages, pid, found, pages, nodes, statuses, geteuid() == 0 ? 4 : 2);
    leave_out(before);
    if (full)
        start_filler((unsigned long)node, fillers[node].source);
}

// migrate_pages, with the player's own pages out of its way, or else left out of the totals.
static void ask_to_migrate(struct process *process, struct process *target, const char *sent, unsigned long from, unsigned long to)
{
    static int before[MOST_ENTRIES], after[MOST_ENTRIES];
    long moves;
    to &= nodes_allowed(process->pid);
    if (target) {
        set_aside(target->pid, from, to);
        keep_full(); // A full node may have lost some pages by that.
    }
    unsigned long count = target ? own_pages(target->pid, pages, before) : 0;
    say_nothing();
    ask(process, sent);
    if (!count || own_pages(target->pid, pages, after) != count)
        return;
    for (unsigned long at = 0; at < count; at++)
        if (before[at] >= 0 && goes_to(before[at], from, to, &moves) == after[at])
            before_all.moved += moves;
}

// Sends a call to its process, with the real pids of the processes that it names.
static void hand_on(const char *call)
{
    static char sent[BUFFER];
    struct process *process = process_of(number());
    if (!process) {
        say("error ESRCH");
        return;
    }
    if (strcmp(call, "move_pages") && strcmp(call, "query") && strcmp(call, "migrate_pages")) {
        snprintf(sent, sizeof sent, "%s %s\n", call, words ? words : "");
        ask(process, sent);
        return;
    }
    unsigned long asked = number();
    struct process *target = asked ? process_of(asked) : process;
    snprintf(sent, sizeof sent, "%s %d %s\n", call, !asked ? 0 : target ? target->pid : NO_PID, words ? words : "");
    if (*call == 'm' && call[1] == 'i') {
        unsigned long from = number(), to = number();
        ask_to_migrate(process, target, sent, from, to);
    } else
        ask(process, sent);
}

static void do_vmstat(void)
{
    struct totals now = read_totals();
    compacted = now.compacted != before_all.compacted;
    say("pgmigrate_success %ld pgmigrate_fail %ld", now.moved - before_all.moved, now.failed - before_all.failed);
}

// ---- nodes that go and come

static bool set_blocks(unsigned long node, const char *state)
{
    char path[128], block[512];
    bool well = true;
    snprintf(path, sizeof path, "/sys/devices/system/node/node%lu", node);
    DIR *folder = opendir(path);
    for (struct dirent *entry; folder && (entry = readdir(folder));) {
        if (strncmp(entry->d_name, "memory", 6) || !isdigit((unsigned char)entry->d_name[6]))
            continue;
        snprintf(block, sizeof block, "%s/%s/state", path, entry->d_name);
        int file = open(block, O_WRONLY | O_CLOEXEC);
        if (file < 0 || (write(file, state, strlen(state)) < 0 && errno != EINVAL))
            well = false;
        if (file >= 0)
            close(file);
    }
    if (folder)
        closedir(folder);
    return folder && well;
}

static void on_alarm(int number_of_signal)
{
    (void)number_of_signal;
}

// Waits until cpusets have lost a node, or have it, which comes a moment after the node itself: that of this process stands for all.
static void wait_for_cpusets(unsigned long node, bool there)
{
    for (int tries = 0; tries < 200 && (nodes_allowed(own_pid) >> node & 1) != there; tries++)
        usleep(10000);
}

static void do_offline(void)
{
    unsigned long node = number();
    int status = 0;
    pid_t helper = fork();
    if (helper == 0) {
        struct sigaction act = {.sa_handler = on_alarm};
        sigaction(SIGALRM, &act, NULL);
        alarm(TIME_LIMIT_OF_OFFLINE);
        _exit(set_blocks(node, "offline") ? 0 : 1);
    }
    waitpid(helper, &status, 0);
    away[node] = status == 0;
    if (!away[node])
        set_blocks(node, "online_movable");
    wait_for_cpusets(node, !away[node]);
    wait_for_rest(); // Pages move with cpusets.
    say(away[node] ? "ok" : "error EBUSY");
}

static bool bring_back(unsigned long node)
{
    away[node] = false;
    bool well = set_blocks(node, "online_movable");
    wait_for_cpusets(node, true);
    return well;
}

static void do_online(void)
{
    bool well = bring_back(number());
    wait_for_rest();
    say(well ? "ok" : "error EIO");
}

// ---- a trace

static void do_shared(void)
{
    unsigned long segment = number(), count = number();
    int file = memfd_create("segment", MFD_CLOEXEC);
    if (segment >= MOST_SEGMENTS || file < 0 || ftruncate(file, (off_t)(count * PAGE)) < 0)
        stop("memfd_create");
    segments[segment] = file;
}

static void forget_all(void)
{
    for (int at = 0; at < MOST_PROCESSES; at++) {
        if (processes[at].number)
            bury(&processes[at]);
    }
    for (unsigned long node = 0; node < MOST_NODES; node++) {
        drain(node);
        if (away[node])
            bring_back(node);
    }
    for (int at = 0; at < MOST_SEGMENTS; at++) {
        if (segments[at])
            close(segments[at]);
        segments[at] = 0;
    }
}

// Makes what a line asks for before a step, and says whether that was all.
static bool prepare(const char *first)
{
    if (!strcmp(first, "shared"))
        do_shared();
    else if (!strcmp(first, "fill"))
        do_fill();
    else if (!strcmp(first, "drain"))
        drain(number());
    else
        return !*first;
    return true;
}

// Makes a step, whose answer is then there; returns its name.
static const char *play_step(const char *call)
{
    compacted = false;
    say_nothing();
    if (!strcmp(call, "say")) {
        call = word();
        say("%s", words ? words : "");
        answer[strcspn(answer, "\n")] = 0;
    } else if (!strcmp(call, "spawn"))
        do_spawn();
    else if (!strcmp(call, "exit"))
        do_exit();
    else if (!strcmp(call, "vmstat"))
        do_vmstat();
    else if (!strcmp(call, "offline"))
        do_offline();
    else if (!strcmp(call, "online"))
        do_online();
    else {
        if (strcmp(call, "numa_maps") && strcmp(call, "pagemap"))
            keep_full();
        say_nothing();
        hand_on(call);
    }
    return call;
}

static void begin(void)
{
    own_pid = getpid();
    answer = mmap(NULL, BUFFER, PROT_READ | PROT_WRITE, MAP_SHARED | MAP_ANONYMOUS, -1, 0);
    if (answer == MAP_FAILED)
        stop("mmap");
    memset(answer, 0, BUFFER);
    FILE *maps = fopen("/proc/self/maps", "re");
    if (!maps || fscanf(maps, "%lx", &own_low) != 1)
        stop("/proc/self/maps");
    fclose(maps);
}
