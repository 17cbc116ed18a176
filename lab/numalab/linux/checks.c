#include <sys/utsname.h>

// ---- the test: each step is made, and its answer compared with the expected one

// What each form of report has.
static void plan(unsigned count);
static void remark(const char *what);
static void pass(const char *name);
static void fail(const char *name);
static void skip(const char *name, const char *why);
static void skip_all(const char *why) __attribute__((noreturn));
static void finish(void) __attribute__((noreturn));

enum { SPARE_PAGES = 2048, STEPS = sizeof steps / sizeof *steps };
static unsigned at_step; // the step that is being made
static bool planned, enabled_cpusets;
static char lack[512];

// How many pages the kernel has moved that nobody asked it to move. What it compacts is seen by calls.c.
static long moved_unasked(void)
{
    static const char *const names[] = {"numa_pages_migrated", "pgdemote_kswapd", "pgdemote_direct", "pgdemote_khugepaged",
                                        "pgdemote_proactive"};
    char name[64];
    long value, sum = 0;
    FILE *file = fopen("/proc/vmstat", "re");
    while (file && fscanf(file, "%63s %ld", name, &value) == 2)
        for (size_t at = 0; at < sizeof names / sizeof *names; at++)
            sum += strcmp(name, names[at]) ? 0 : value;
    if (file)
        fclose(file);
    return sum;
}

// ---- what the machine lacks

static bool lacks(const char *form, ...)
{
    va_list values;
    va_start(values, form);
    vsnprintf(lack, sizeof lack, form, values);
    va_end(values);
    return true;
}

// The first line of a file, or of a file of /proc the rest of the line that begins with a word.
static bool read_text(const char *path, const char *begin, char *to, size_t size)
{
    bool found = false;
    FILE *file = fopen(path, "re");
    *to = 0;
    while (file && !found && fgets(to, (int)size, file))
        found = !strncmp(to, begin, strlen(begin));
    if (file)
        fclose(file);
    if (!found)
        return false;
    memmove(to, to + strlen(begin), strlen(to + strlen(begin)) + 1);
    to += strspn(to, " \t");
    to[strcspn(to, "\n")] = 0;
    return true;
}

// Numbers such as 0-3,8 as bits, as far as there are bits.
static unsigned long bits_of(const char *list)
{
    unsigned long bits = 0;
    cpu_set_t set;
    CPU_ZERO(&set);
    add_listed(list + strspn(list, " \t"), &set);
    for (unsigned long node = 0; node < MOST_NODES; node++)
        bits |= CPU_ISSET(node, &set) ? 1UL << node : 0;
    return bits;
}

static unsigned long first_bits(unsigned long count)
{
    return count < MOST_NODES ? (1UL << count) - 1 : ~0UL;
}

static bool lacks_nodes(void)
{
    char text[PAGE];
    if (!read_text("/sys/devices/system/node/has_memory", "", text, sizeof text))
        return lacks("this kernel has no NUMA");
    unsigned long there = bits_of(text), wanted = first_bits(about.nodes);
    if ((there & wanted) != wanted)
        return lacks("the test has %lu node%s, and this machine has memory on %s", about.nodes, about.nodes == 1 ? "" : "s", text);
    if (there & about.beyond)
        return lacks("the test names a node beyond its own %lu, and this machine has it: memory is on %s", about.nodes, text);
    if (read_text("/proc/self/status", "Mems_allowed_list:", text, sizeof text) && (bits_of(text) & wanted) != wanted)
        return lacks("the test has %lu node%s, and this program may use %s", about.nodes, about.nodes == 1 ? "" : "s", text);
    return false;
}

static bool lacks_processors(void)
{
    for (unsigned long node = 0; node < about.nodes; node++) {
        cpu_set_t there = processors_of(node);
        if (about.homes >> node & 1 && !CPU_COUNT(&there))
            return lacks("a process is at home on node %lu, which has no processor that this program may use", node);
    }
    return false;
}

// Whether the machine has its nodes in another order of distance than the test.
static bool lacks_order(void)
{
    long there[MOST_NODES];
    for (unsigned long node = 0; node < about.nodes; node++) {
        char path[96], text[PAGE], *rest = text;
        const unsigned *row = distances + node * about.nodes;
        snprintf(path, sizeof path, "/sys/devices/system/node/node%lu/distance", node);
        if (!read_text(path, "", text, sizeof text))
            return lacks("there is no %s", path);
        for (unsigned long other = 0; other < about.nodes; other++)
            there[other] = strtol(rest, &rest, 10);
        for (unsigned long one = 0; one < about.nodes; one++)
            for (unsigned long other = 0; other < about.nodes; other++)
                if ((row[one] < row[other]) != (there[one] < there[other]))
                    return lacks("of nodes %lu and %lu another is nearer to node %lu than in the test", one, other, node);
    }
    return false;
}

// Whether memory of a node that must go is where the kernel keeps what cannot move.
static bool lacks_movable(void)
{
    char path[512], text[PAGE];
    for (unsigned long node = 0; node < about.nodes; node++) {
        unsigned blocks = 0, fixed = 0;
        snprintf(path, sizeof path, "/sys/devices/system/node/node%lu", node);
        DIR *folder = about.offline >> node & 1 ? opendir(path) : NULL;
        for (struct dirent *entry; folder && (entry = readdir(folder));) {
            if (strncmp(entry->d_name, "memory", 6) || !isdigit((unsigned char)entry->d_name[6]))
                continue;
            snprintf(path, sizeof path, "/sys/devices/system/node/node%lu/%.64s/valid_zones", node, entry->d_name);
            fixed += read_text(path, "", text, sizeof text) && strncmp(text, "Movable", 7);
            blocks++;
        }
        if (folder)
            closedir(folder);
        if (about.offline >> node & 1 && (!blocks || fixed))
            return lacks("node %lu cannot go offline: its memory is not movable", node);
    }
    return false;
}

static bool lacks_memory(void)
{
    for (unsigned long node = 0; node < about.nodes; node++) {
        unsigned long there = free_pages_of(node);
        if (there < frames[node] + SPARE_PAGES)
            return lacks("node %lu has %lu free pages, and the test wants %lu", node, there, frames[node] + SPARE_PAGES);
    }
    return false;
}

static bool set_controllers(const char *change)
{
    int file = open("/sys/fs/cgroup/cgroup.subtree_control", O_WRONLY | O_CLOEXEC);
    bool well = file >= 0 && write(file, change, strlen(change)) > 0;
    if (file >= 0)
        close(file);
    return well;
}

static bool lacks_cpusets(void)
{
    char text[PAGE];
    if (geteuid() != 0)
        return lacks("only root can keep processes to the test's nodes");
    if (!read_text("/sys/fs/cgroup/cgroup.controllers", "", text, sizeof text) || !strstr(text, "cpuset"))
        return lacks("there are no cpusets of cgroup v2 in /sys/fs/cgroup");
    if (read_text("/sys/fs/cgroup/cgroup.subtree_control", "", text, sizeof text) && strstr(text, "cpuset"))
        return false;
    enabled_cpusets = set_controllers("+cpuset");
    return !enabled_cpusets && lacks("cpusets of cgroup v2 cannot be made in /sys/fs/cgroup");
}

// Keeps processes to the test's nodes where the machine has more.
static bool lacks_cpusets_where_needed(void)
{
    static char list[32];
    char text[PAGE];
    read_text("/sys/devices/system/node/has_memory", "", text, sizeof text);
    bool more = bits_of(text) & ~first_bits(about.nodes);
    if (more) {
        snprintf(list, sizeof list, "0-%lu", about.nodes - 1);
        everywhere = list;
    }
    return (more || about.cpusets) && lacks_cpusets();
}

// Whether a call that asks for nothing is forbidden, as a container's filter may do.
static bool lacks_call(const char *name, long result)
{
    if (result >= 0 || (errno != EPERM && errno != ENOSYS))
        return false;
    return lacks("%s(2) is %s here", name, errno == EPERM ? "forbidden" : "missing");
}

static bool lacks_calls(void)
{
    return lacks_call("move_pages", syscall(SYS_move_pages, 0, 0, NULL, NULL, NULL, 0)) ||
           lacks_call("migrate_pages", syscall(SYS_migrate_pages, 0, 0, NULL, NULL)) ||
           lacks_call("mbind", syscall(SYS_mbind, NULL, 0, 0, NULL, 0, 0));
}

static bool lacks_something(void)
{
    const char *asked = getenv("NUMATRACE_DISTURB");
    if (sysconf(_SC_PAGESIZE) != PAGE)
        return lacks("pages have %ld bytes here, and %d in the test", sysconf(_SC_PAGESIZE), PAGE);
    if (lacks_nodes() || lacks_calls() || lacks_processors() || lacks_order())
        return true;
    if (own_low < about.end)
        return lacks("the program itself is at %#lx, where the test has areas: compile it with -static-pie, or -fPIE -pie", own_low);
    if (*about.root && geteuid() != 0)
        return lacks("only root can run it: %s", about.root);
    if (*about.disturbs && (!asked || strcmp(asked, "1")))
        return lacks("%s: NUMATRACE_DISTURB=1 allows it", about.disturbs);
    return lacks_movable() || lacks_memory() || lacks_cpusets_where_needed();
}

// ---- answers

// Whether a word is a whole number, which may have a sign.
static bool is_number(const char *text, size_t length)
{
    size_t sign = length && *text == '-';
    return length > sign && strspn(text + sign, "0123456789") >= length - sign;
}

// Whether a word is as expected, where - is not checked, ? is any number, and =? any node.
static bool word_fits(const char *expected, size_t length, const char *told, size_t told_length)
{
    if (length == 1 && *expected == '-')
        return told_length > 0;
    if (length == 1 && *expected == '?')
        return is_number(told, told_length);
    if (length > 1 && !strncmp(expected + length - 2, "=?", 2))
        return told_length >= length && !strncmp(expected, told, length - 1) && is_number(told + length - 1, told_length - length + 1);
    return length == told_length && !strncmp(expected, told, length);
}

// Whether an answer is as expected. N? stands for the pages of an area by nodes.
static bool fits(const char *expected, const char *told)
{
    for (;;) {
        size_t length = strcspn(expected, " ;"), told_length = strcspn(told, " ;");
        if (length == 2 && !strncmp(expected, "N?", 2)) {
            if (*told != 'N')
                return false;
            while (told[told_length] == ' ' && told[told_length + 1] == 'N')
                told_length += 1 + strcspn(told + told_length + 1, " ;");
        } else if (!word_fits(expected, length, told, told_length))
            return false;
        expected += length;
        told += told_length;
        if (*expected != *told || !*expected)
            return *expected == *told;
        expected++;
        told++;
    }
}

// An answer, with a line for each area that it lists.
static void remark_answer(const char *who, const char *answered)
{
    static char text[BUFFER];
    for (bool first = true; first || *answered; first = false) {
        int length = (int)strcspn(answered, ";");
        snprintf(text, sizeof text, "  %-9s %.*s", first ? who : "", length, answered);
        remark(text);
        answered += length + (answered[length] == ';');
    }
}

// ---- steps

static void check_step(const struct step *step, long unasked)
{
    bool well = fits(step->expected, answer), counts = !strncmp(step->expected, "pgmigrate_success ", 18);
    if (step->remark)
        remark(step->remark);
    if (well)
        pass(step->name);
    else if (counts && (compacted || moved_unasked() != unasked))
        skip(step->name, "the kernel has moved pages by itself");
    else {
        fail(step->name);
        remark_answer("expected", step->expected);
        remark_answer("answered", answer);
    }
}

// Makes what the lines for a step say, and checks the answer.
static void make_step(const struct step *step, long unasked)
{
    const char *next;
    for (const char *text = step->instructions; *text; text = next) {
        size_t length = strcspn(text, "\n");
        next = text + length + (text[length] == '\n');
        memcpy(line, text, length);
        line[length] = 0;
        words = line;
        char *first = word();
        if (!prepare(first))
            play_step(word());
    }
    if (step->unchecked)
        skip(step->name, step->unchecked);
    else
        check_step(step, unasked);
}

static void clean_up(void)
{
    forget_all();
    if (enabled_cpusets)
        set_controllers("-cpuset");
    enabled_cpusets = false;
}

// Leaves the machine as it was where the test is interrupted.
static void on_end(int number_of_signal)
{
    if (getpid() == own_pid)
        clean_up();
    _exit(128 + number_of_signal);
}

static void clean_up_at_signals(void)
{
    static const int signals[] = {SIGINT, SIGTERM, SIGHUP};
    struct sigaction act = {.sa_handler = on_end};
    for (size_t at = 0; at < sizeof signals / sizeof *signals; at++)
        sigaction(signals[at], &act, NULL);
}

// Skips what is left, where something is missing that only shows when it is used.
static void give_up(const char *why)
{
    static char kept[1024];
    snprintf(kept, sizeof kept, "%s", why);
    clean_up();
    if (!planned)
        skip_all(kept);
    for (; at_step < STEPS; at_step++)
        skip(steps[at_step].name, kept);
    finish();
}

static void remark_kernel(void)
{
    char text[256];
    struct utsname name;
    uname(&name);
    snprintf(text, sizeof text, "%s: the answers expected are those of %s; this is Linux %s", about.trace, about.answers, name.release);
    remark(text);
}

static void run_test(void)
{
    begin();
    clean_up_at_signals();
    if (lacks_something())
        give_up(lack);
    plan(STEPS);
    planned = true;
    remark_kernel();
    wait_for_rest();
    before_all = read_totals();
    long unasked = moved_unasked();
    for (at_step = 0; at_step < STEPS; at_step++)
        make_step(&steps[at_step], unasked);
    clean_up();
}
