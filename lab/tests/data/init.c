// The first process of a guest that runs exported tests: all files of /tests, one after another, with their output on the second serial line.
#define _GNU_SOURCE
#include <dirent.h>
#include <fcntl.h>
#include <signal.h>
#include <stdio.h>
#include <stdlib.h>
#include <string.h>
#include <sys/mount.h>
#include <sys/reboot.h>
#include <sys/stat.h>
#include <sys/wait.h>
#include <termios.h>
#include <unistd.h>

static int run(const char *name)
{
    char path[512];
    int status = 0;
    snprintf(path, sizeof path, "/tests/%s", name);
    pid_t pid = fork();
    if (pid == 0) {
        execl(path, path, (char *)NULL);
        _exit(127);
    }
    for (int tries = 0; tries < 3000; tries++, usleep(20000))
        if (waitpid(pid, &status, WNOHANG) == pid)
            return WIFEXITED(status) ? WEXITSTATUS(status) : 128;
    kill(pid, SIGKILL);
    waitpid(pid, NULL, 0);
    return 129;
}

int main(void)
{
    struct dirent **names;
    struct termios raw;
    mkdir("/proc", 0755);
    mkdir("/sys", 0755);
    mkdir("/dev", 0755);
    mount("proc", "/proc", "proc", 0, NULL);
    mount("sysfs", "/sys", "sysfs", 0, NULL);
    mount("devtmpfs", "/dev", "devtmpfs", 0, NULL);
    mount("cgroup2", "/sys/fs/cgroup", "cgroup2", 0, NULL);
    int line = open("/dev/ttyS1", O_WRONLY | O_NOCTTY);
    tcgetattr(line, &raw);
    cfmakeraw(&raw);
    tcsetattr(line, TCSANOW, &raw);
    dup2(line, 1);
    setenv("NUMATRACE_DISTURB", "1", 1);
    int count = scandir("/tests", &names, NULL, alphasort);
    for (int at = 0; at < count; at++) {
        if (names[at]->d_name[0] == '.')
            continue;
        printf("# trace %s\n", names[at]->d_name);
        fflush(stdout);
        int status = run(names[at]->d_name);
        printf("# status %d\n", status);
        fflush(stdout);
    }
    printf("# end\n");
    fflush(stdout);
    tcdrain(line);
    reboot(RB_POWER_OFF);
    return 0;
}
