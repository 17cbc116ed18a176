// The player: makes the calls of a trace for real (calls.c), and prints what the kernel answers as a report, with nodes in place of frames.
//
// Standard input has the instructions. As process 1 of a guest the player mounts what it needs, reads /program, writes the report to the
// second serial line, and turns the machine off.
#include "calls.c"
#include <sys/mount.h>
#include <sys/reboot.h>
#include <sys/utsname.h>
#include <termios.h>

static FILE *report;

static void give_up(const char *why)
{
    fprintf(stderr, "player: %s\n", why);
    if (own_pid == 1) {
        sync();
        reboot(RB_POWER_OFF);
    }
    exit(3);
}

static void print_step(const char *step, const char *call)
{
    if (compacted)
        fprintf(report, "# compacted %s\n", step);
    fprintf(report, "%s %s ", step, call);
    for (char *at = answer; *at; at++)
        fputc(*at == ';' && !strcmp(call, "numa_maps") ? '\n' : *at, report);
    fputc('\n', report);
    fflush(report);
}

static void play_line(void)
{
    char *first = word();
    if (!strcmp(first, "trace")) {
        forget_all();
        before_all = read_totals();
        fprintf(report, "# trace %s\n", word());
    } else if (!prepare(first)) {
        char *call = word();
        print_step(first, play_step(call));
    }
}

static void play(FILE *program)
{
    struct utsname name;
    uname(&name);
    begin();
    fprintf(report, "# Linux %s\n", name.release);
    while (fgets(line, sizeof line, program)) {
        words = line;
        play_line();
    }
    forget_all();
    fprintf(report, "# end\n");
    fflush(report);
}

// ---- a guest

static void mount_all(void)
{
    mkdir("/proc", 0755);
    mkdir("/sys", 0755);
    mkdir("/dev", 0755);
    if (mount("proc", "/proc", "proc", 0, NULL) < 0 || mount("sysfs", "/sys", "sysfs", 0, NULL) < 0)
        stop("mount");
    if (mount("devtmpfs", "/dev", "devtmpfs", 0, NULL) < 0 || mount("cgroup2", "/sys/fs/cgroup", "cgroup2", 0, NULL) < 0)
        stop("mount");
    write_text("/sys/fs/cgroup/cgroup.subtree_control", "+cpuset");
}

static FILE *serial_line(void)
{
    struct termios raw;
    int file = open("/dev/ttyS1", O_WRONLY | O_NOCTTY | O_CLOEXEC);
    if (file < 0 || tcgetattr(file, &raw) < 0)
        stop("/dev/ttyS1");
    cfmakeraw(&raw);
    tcsetattr(file, TCSANOW, &raw);
    return fdopen(file, "w");
}

static void be_init(void)
{
    mount_all();
    if (access("/sys/devices/system/node/has_memory", F_OK) < 0)
        stop("this kernel has no NUMA");
    unsigned long nodes_there = listed_nodes("/sys/devices/system/node/has_memory", "");
    for (unsigned long node = 0; node < MOST_NODES; node++)
        if (nodes_there >> node & 1)
            wait_for_cpusets(node, true); // Nodes that can go come late in a boot.
    FILE *program = fopen("/program", "re");
    report = serial_line();
    if (!program || !report)
        stop("/program");
    play(program);
    tcdrain(fileno(report));
    reboot(RB_POWER_OFF);
    for (;;)
        pause();
}

int main(void)
{
    own_pid = getpid();
    if (own_pid == 1)
        be_init();
    report = stdout;
    play(stdin);
    return 0;
}
