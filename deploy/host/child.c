#define _GNU_SOURCE
#include "child.h"
#include "say.h"
#include "watch.h"

#include <errno.h>
#include <fcntl.h>
#include <signal.h>
#include <stdlib.h>
#include <string.h>
#include <sys/ioctl.h>
#include <sys/prctl.h>
#include <sys/wait.h>
#include <time.h>
#include <unistd.h>

enum {
    PIPE_SIZE = 1 << 20,    /* takes more in one turn of the loop; the system may refuse it, which does no harm */
    LEAST_READ = 64 << 10   /* the child's output is read into at least so much room */
};

/*
 * In the child: becomes the node program, which ends where the host ends. For each frame it takes and frees many
 * small pieces of memory. This takes less time if the C library keeps up to 200 free pieces of each size at hand,
 * instead of 7.
 */
static void become(int input, int output, pid_t host, char *const arguments[]) {
    sigset_t none;
    sigemptyset(&none);
    sigprocmask(SIG_SETMASK, &none, NULL);
    signal(SIGPIPE, SIG_DFL);
    prctl(PR_SET_PDEATHSIG, SIGKILL);
    if (getppid() != host)
        _exit(1);
    dup2(input, STDIN_FILENO);
    dup2(output, STDOUT_FILENO);
    setenv("GLIBC_TUNABLES", "glibc.malloc.tcache_count=200", false);
    execvp(arguments[0], arguments);
    say("cannot start %s: %s", arguments[0], strerror(errno));
    _exit(127);
}

bool child_start(struct child *child, int epoll, const char *program, const char *file, const char *number,
                 const char *folder) {
    int input[2], output[2];
    uint32_t watched = 0;
    if (pipe2(input, O_CLOEXEC) != 0 || pipe2(output, O_CLOEXEC) != 0) {
        say("cannot make a pipe: %s", strerror(errno));
        return false;
    }
    pid_t host = getpid();
    child->process = fork();
    if (child->process < 0) {
        say("cannot start a process: %s", strerror(errno));
        return false;
    }
    if (child->process == 0) {
        char *const arguments[] = {(char *)program, (char *)file, (char *)number, (char *)folder, NULL};
        become(input[0], output[1], host, arguments);
    }
    close(input[0]);
    close(output[1]);
    child->to = input[1];
    child->from = output[0];
    fcntl(child->to, F_SETFL, O_NONBLOCK);
    fcntl(child->from, F_SETFL, O_NONBLOCK);
    fcntl(child->to, F_SETPIPE_SZ, PIPE_SIZE);
    fcntl(child->from, F_SETPIPE_SZ, PIPE_SIZE);
    return watch(epoll, child->from, FROM_NODE, &watched, EPOLLIN);
}

size_t child_unread(const struct child *child) {
    int unread = 0;
    ioctl(child->to, FIONREAD, &unread);
    return (size_t)unread;
}

bool child_watch(struct child *child, int epoll, bool waits) {
    return watch(epoll, child->to, TO_NODE, &child->to_watched, waits ? EPOLLOUT : 0);
}

void child_write(struct child *child, struct queue *out) {
    if (!queue_write(out, child->to) && errno != EPIPE)
        say("cannot write to the node program: %s", strerror(errno));
}

/* A frame that has begun gets all the room that it needs, so that its bytes are moved once at most. */
enum coming child_read(struct child *child, struct buffer *in, size_t need) {
    size_t length = buffer_length(in), missing = need > length ? need - length : 0;
    size_t least = missing > LEAST_READ ? missing : LEAST_READ;
    size_t room = length + least > KEPT_ROOM ? length + least : KEPT_ROOM;
    if (in->room - in->end < least && !buffer_resize(in, room))
        return HAS_FAILED;
    ssize_t count = read(child->from, in->bytes + in->end, in->room - in->end);
    if (count > 0)
        in->end += (size_t)count;
    if (count >= 0)
        return count == 0 ? HAS_ENDED : FRAMES;
    if (errno == EAGAIN || errno == EINTR)
        return NOTHING;
    say("cannot read from the node program: %s", strerror(errno));
    return HAS_FAILED;
}

void child_stop(struct child *child) {
    close(child->to);
    close(child->from);
    kill(child->process, SIGTERM);
    for (int waits = 0; waits < 500 && waitpid(child->process, &child->status, WNOHANG) == 0; waits++) {
        if (waits == 300)
            kill(child->process, SIGKILL);
        nanosleep(&(struct timespec){.tv_nsec = 10000000}, NULL);
    }
}

void child_say_end(const struct child *child) {
    if (WIFSIGNALED(child->status))
        say("the node program was ended by signal %d", WTERMSIG(child->status));
    else
        say("the node program ended with status %d", WEXITSTATUS(child->status));
}

int child_status(const struct child *child) {
    return WIFEXITED(child->status) && WEXITSTATUS(child->status) == LOG_LOST ? LOG_LOST : 1;
}
