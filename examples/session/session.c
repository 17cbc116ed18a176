/* Plays a trace step by step from C: moves two pages to another node, and prints the reply to each step.
 *
 *     cc -std=c99 -D_POSIX_C_SOURCE=200809L -o session examples/session/session.c
 *     ./session crates/numatrace_session/out/numatrace_session
 */
#include <signal.h>
#include <stdio.h>
#include <stdlib.h>
#include <string.h>
#include <sys/types.h>
#include <sys/wait.h>
#include <unistd.h>

/* Two nodes of four frames each: node 0 owns frames 0 to 3, node 1 frames 4 to 7. */
static const char top[] = "{\"version\":1,\"machine\":{\"nodes\":[4,4],\"distance\":[[10,20],[20,10]]}}";

/* A process at home on node 0 writes two pages, which takes two frames there. Then both move to node 1. */
static const char *const steps[] = {
    "{\"op\":\"spawn\",\"pid\":1,\"uid\":100,\"home\":0,\"allowed\":[0,1]}",
    "{\"op\":\"map\",\"pid\":1,\"addr\":65536,\"pages\":2}",
    "{\"op\":\"write\",\"pid\":1,\"addr\":65536,\"data\":\"61\"}",
    "{\"op\":\"write\",\"pid\":1,\"addr\":69632,\"data\":\"62\"}",
    "{\"op\":\"move_pages\",\"caller\":1,\"pid\":0,\"pages\":[65536,69632],\"nodes\":[1,1],\"flags\":2}",
    "{\"op\":\"pagemap\",\"pid\":1}",
};

/* A session: the program, and the ends of the two pipes to it. */
struct session {
    pid_t pid;
    FILE *to, *from;
};

static void stop(const char *what)
{
    fprintf(stderr, "session: %s\n", what);
    exit(1);
}

/* Sends a line, without keeping it in a buffer: the program replies once it has the whole line. */
static void send_line(const struct session *session, const char *line)
{
    if (fprintf(session->to, "%s\n", line) < 0 || fflush(session->to) != 0)
        stop("the program takes no more lines");
}

/* Starts the program, and sends it the top of the trace, which has no reply. */
static struct session open_session(const char *program)
{
    struct session session;
    int to[2], from[2];

    signal(SIGPIPE, SIG_IGN); /* so that a program that has ended is an error of fflush */
    if (pipe(to) != 0 || pipe(from) != 0 || (session.pid = fork()) < 0)
        stop("there are no more pipes or processes");
    if (session.pid == 0) {
        dup2(to[0], STDIN_FILENO);
        dup2(from[1], STDOUT_FILENO);
        close(to[0]);
        close(to[1]);
        close(from[0]);
        close(from[1]);
        execlp(program, program, (char *)NULL);
        _exit(127);
    }
    close(to[0]);
    close(from[1]);
    session.to = fdopen(to[1], "w");
    session.from = fdopen(from[0], "r");
    if (session.to == NULL || session.from == NULL)
        stop("there is no memory");
    send_line(&session, top);
    return session;
}

/* Makes a step, and prints the reply: lines up to an empty one. Where it is no step, the line is "fault: " and what is wrong. */
static void make_step(const struct session *session, const char *step)
{
    char *line = NULL;
    size_t size = 0;

    send_line(session, step);
    for (;;) {
        if (getline(&line, &size, session->from) < 0)
            stop("the program has ended");
        if (strcmp(line, "\n") == 0)
            break;
        fputs(line, stdout);
    }
    free(line);
}

/* Ends the program by ending its input, and returns its exit status. */
static int close_session(struct session *session)
{
    int status;

    fclose(session->to);
    fclose(session->from);
    if (waitpid(session->pid, &status, 0) < 0 || !WIFEXITED(status))
        stop("the program did not end by itself");
    return WEXITSTATUS(status);
}

int main(int count, char **words)
{
    struct session session;
    size_t k;

    if (count != 2)
        stop("its argument is the path of the program numatrace_session");
    session = open_session(words[1]);
    for (k = 0; k < sizeof steps / sizeof steps[0]; k++)
        make_step(&session, steps[k]);
    return close_session(&session);
}
