/* A proved program that runs beside this one, in the sandbox, joined by two pipes (docs/LIVE.md, "Records").
 *
 * It gets no argument, no environment but LD_PRELOAD, and no file but its three: commands, answers, and the line that
 * it says at its end. Where this process ends in whatever way, the kernel ends it too. */
#define _GNU_SOURCE
#include "program.h"

#include <errno.h>
#include <fcntl.h>
#include <poll.h>
#include <signal.h>
#include <stdio.h>
#include <stdlib.h>
#include <string.h>
#include <sys/prctl.h>
#include <sys/uio.h>
#include <sys/wait.h>
#include <time.h>
#include <unistd.h>

#include "say.h"

enum {
    FRONT = 5,      /* kind and length */
    MOST_PARTS = 8,
    MOST_LINE = 200 /* of what the program says at its end */
};
#define MOST_ANSWER 0x40000000u

uint32_t number_of(const uint8_t *bytes, int count)
{
    uint32_t number = 0;
    for (int i = count; i--;)
        number = number << 8 | bytes[i];
    return number;
}

uint8_t *put_number(uint8_t *at, uint32_t number, int count)
{
    for (int i = 0; i < count; i++)
        *at++ = (uint8_t)(number >> 8 * i);
    return at;
}

char *program_path(const char *beside)
{
    char own[4096];
    ssize_t size = readlink("/proc/self/exe", own, sizeof own - 1);
    if (size < 0)
        return NULL;
    own[size] = 0;
    *(strrchr(own, '/') + 1) = 0;
    char *path;
    return asprintf(&path, "%s%s", own, beside) < 0 ? NULL : path;
}

/* ---- The beginning */

static _Noreturn void become(const char *path, const char *sandbox, const int files[3], pid_t parent)
{
    char preload[4200];
    snprintf(preload, sizeof preload, "LD_PRELOAD=%s", sandbox);
    char *const words[] = {(char *)path, NULL}, *const surroundings[] = {preload, NULL};
    for (int file = 0; file < 3; file++)
        if (dup2(files[file], file) < 0)
            _exit(127);
    close_range(3, ~0u, 0);
    setsid();
    signal(SIGPIPE, SIG_DFL);
    sigset_t none;
    sigemptyset(&none);
    sigprocmask(SIG_SETMASK, &none, NULL);
    prctl(PR_SET_PDEATHSIG, SIGKILL);
    if (getppid() != parent)
        _exit(127);
    execve(path, words, surroundings);
    dprintf(2, "it doesn't run: %s", strerror(errno));
    _exit(127);
}

/* The files that the program is to have as 0, 1 and 2 stand at the ends of these pipes, all above 2. */
static bool make_pipes(int pipes[3][2])
{
    for (int i = 0; i < 3; i++)
        if (pipe2(pipes[i], O_CLOEXEC) < 0)
            return false;
    return true;
}

static bool can_start(const char *path, const char *sandbox)
{
    if (access(path, X_OK) < 0)
        say("%s can't be run: %s; build it by rt run in its crate's folder, or name another", path, strerror(errno));
    else if (access(sandbox, R_OK) < 0)
        say("the sandbox %s isn't there: make it by make -C tools/live", sandbox);
    else if (strpbrk(sandbox, " :"))
        say("the sandbox %s has a blank or a colon in its path, and LD_PRELOAD takes none such", sandbox);
    else
        return true;
    return false;
}

bool program_start(Program *program, const char *path, const char *sandbox)
{
    const char *slash = strrchr(path, '/');
    *program = (Program){.name = slash ? slash + 1 : path, .to = -1, .from = -1, .line = -1};
    if (!can_start(path, sandbox))
        return false;
    int pipes[3][2];
    if (!make_pipes(pipes)) {
        say("no pipe can be made: %s", strerror(errno));
        return false;
    }
    pid_t parent = getpid();
    program->pid = fork();
    if (program->pid == 0)
        become(path, sandbox, (const int[]){pipes[0][0], pipes[1][1], pipes[2][1]}, parent);
    close(pipes[0][0]);
    close(pipes[1][1]);
    close(pipes[2][1]);
    program->to = pipes[0][1];
    program->from = pipes[1][0];
    program->line = pipes[2][0];
    if (program->pid > 0)
        return true;
    program->pid = 0;
    say("no process can be made: %s", strerror(errno));
    program_end(program);
    return false;
}

/* ---- The end */

/* The line that the program said, without its end. */
static void read_line(const Program *program, char line[MOST_LINE])
{
    struct pollfd here = {.fd = program->line, .events = POLLIN};
    ssize_t size = poll(&here, 1, 0) > 0 ? read(program->line, line, MOST_LINE - 1) : 0;
    line[size > 0 ? size : 0] = 0;
    line[strcspn(line, "\n")] = 0;
}

static void say_end(const Program *program, int status)
{
    char line[MOST_LINE];
    read_line(program, line);
    const char *joint = *line ? ": " : "";
    if (WIFSIGNALED(status) && WTERMSIG(status) == SIGSYS)
        say("%s was ended by its sandbox: it made a call to the system that isn't allowed%s%s", program->name, joint,
            line);
    else if (WIFSIGNALED(status))
        say("%s was ended by signal %d%s%s", program->name, WTERMSIG(status), joint, line);
    else
        say("%s ended by itself, with exit number %d%s%s", program->name, WEXITSTATUS(status), joint, line);
}

static void close_file(int *file)
{
    if (*file >= 0)
        close(*file);
    *file = -1;
}

/* Both its files are closed first, so that it never waits for this process; it has two seconds to end. */
static int wait_for(Program *program)
{
    const struct timespec moment = {0, 10000000};
    int status = 0;
    pid_t ended = 0;
    close_file(&program->to);
    close_file(&program->from);
    for (int moments = 0; ended == 0 && moments < 200; moments++) {
        ended = waitpid(program->pid, &status, WNOHANG);
        if (ended == 0)
            nanosleep(&moment, NULL);
    }
    if (ended == 0) {
        kill(program->pid, SIGKILL);
        while (waitpid(program->pid, &status, 0) < 0 && errno == EINTR)
            ;
    }
    program->pid = 0;
    return status;
}

/* A program that doesn't keep to its protocol is ended. */
static char lose(Program *program, const char *why)
{
    if (program->pid == 0)
        return 0;
    if (why) {
        kill(program->pid, SIGKILL);
        wait_for(program);
        say("%s was ended: %s", program->name, why);
    } else {
        say_end(program, wait_for(program));
    }
    return 0;
}

bool program_is_lost(Program *program)
{
    struct pollfd here = {.fd = program->from, .events = POLLIN};
    if (program->pid && poll(&here, 1, 0) > 0)
        lose(program, here.revents & POLLIN ? "it answers what wasn't asked" : NULL);
    return program->pid == 0;
}

void program_end(Program *program)
{
    if (program->pid)
        wait_for(program);
    close_file(&program->to);
    close_file(&program->from);
    close_file(&program->line);
    free(program->body);
    program->body = NULL;
}

/* ---- Records */

static bool write_all(int file, struct iovec *parts, int count)
{
    while (count) {
        ssize_t done = writev(file, parts, count);
        if (done < 0 && errno == EINTR)
            continue;
        if (done < 0)
            return false;
        for (; count && (size_t)done >= parts->iov_len; parts++, count--)
            done -= (ssize_t)parts->iov_len;
        if (count) {
            parts->iov_base = (uint8_t *)parts->iov_base + done;
            parts->iov_len -= (size_t)done;
        }
    }
    return true;
}

static bool read_all(int file, uint8_t *bytes, size_t size)
{
    while (size) {
        ssize_t done = read(file, bytes, size);
        if (done < 0 && errno == EINTR)
            continue;
        if (done <= 0)
            return false;
        bytes += done;
        size -= (size_t)done;
    }
    return true;
}

static bool make_room(Program *program, size_t size)
{
    if (size <= program->room)
        return true;
    uint8_t *body = realloc(program->body, size);
    if (!body)
        return false;
    program->body = body;
    program->room = size;
    return true;
}

/* Whether the kernel says that the program has a filter for its calls. */
static bool has_filter(pid_t pid)
{
    char name[40], line[100];
    snprintf(name, sizeof name, "/proc/%d/status", (int)pid);
    FILE *file = fopen(name, "re");
    bool has = false;
    while (file && fgets(line, sizeof line, file))
        has = has || strcmp(line, "Seccomp:\t2\n") == 0;
    if (file)
        fclose(file);
    return has;
}

char program_ask(Program *program, char kind, const Part *parts, size_t count)
{
    uint8_t front[FRONT] = {(uint8_t)kind};
    struct iovec pieces[MOST_PARTS + 1] = {{front, FRONT}};
    size_t size = 0;
    if (program->pid == 0)
        return 0;
    for (size_t i = 0; i < count; i++) {
        pieces[i + 1] = (struct iovec){(void *)parts[i].bytes, parts[i].size};
        size += parts[i].size;
    }
    put_number(front + 1, (uint32_t)size, 4);
    if (!write_all(program->to, pieces, (int)count + 1) || !read_all(program->from, front, FRONT))
        return lose(program, NULL);
    program->size = number_of(front + 1, 4);
    if (program->size > MOST_ANSWER || !make_room(program, program->size))
        return lose(program, "its answer is too long");
    if (!read_all(program->from, program->body, program->size))
        return lose(program, NULL);
    if (!program->is_confined && !(program->is_confined = has_filter(program->pid)))
        return lose(program, "its sandbox isn't in force");
    return (char)front[0];
}

const char *program_told(const Program *program, uint32_t skipped)
{
    static char told[61];
    size_t size = program->size > skipped ? program->size - skipped : 0;
    size = size < sizeof told - 1 ? size : sizeof told - 1;
    if (size)
        memcpy(told, program->body + skipped, size);
    told[size] = 0;
    for (char *at = told; *at; at++)
        if (*at < ' ' || *at > '~')
            *at = '?';
    return told;
}
