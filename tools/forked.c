/* Many runs of a program under the emulator for one start of it: nearly all of a short run's time is the translation of the loader.
 *
 * With PROGRAM, what is preloaded into the program: before main it waits at the socket that SOCKET names; for each process that comes it forks a
 * child, which takes that process's standard input and output and goes on to main, and then says how the child ended. They are pipes, as
 * `compare` has them: a file would be opened anew, at its start.
 * Without, the process that comes: called as NAME it goes to the socket NAME.socket, and ends as the child did. */
#define _GNU_SOURCE
#include <fcntl.h>
#include <signal.h>
#include <stdio.h>
#include <stdlib.h>
#include <sys/prctl.h>
#include <sys/socket.h>
#include <sys/un.h>
#include <sys/wait.h>
#include <unistd.h>

static struct sockaddr_un address(const char *name, const char *end) {
    struct sockaddr_un a = {.sun_family = AF_UNIX};
    snprintf(a.sun_path, sizeof a.sun_path, "%s%s", name, end);
    return a;
}

static void must(int well, const char *what) {
    if (!well)
        perror(what), _exit(99);
}

#ifdef PROGRAM
static void take(pid_t comer, int descriptor, int how) {
    char path[64];
    snprintf(path, sizeof path, "/proc/%d/fd/%d", (int)comer, descriptor);
    int opened = open(path, how);
    must(opened >= 0 && dup2(opened, descriptor) == descriptor && !close(opened), path);
}

__attribute__((constructor)) static void wait_before_main(void) {
    struct sockaddr_un a = address(getenv("SOCKET"), "_");
    int listener = socket(AF_UNIX, SOCK_STREAM, 0);
    must(!prctl(PR_SET_PDEATHSIG, SIGTERM), "prctl"); /* it ends with whoever started it */
    must(!bind(listener, (struct sockaddr *)&a, sizeof a) && !listen(listener, 16), a.sun_path);
    must(!rename(a.sun_path, getenv("SOCKET")), "rename"); /* under its own name only now that it can be gone to */
    for (;;) {
        pid_t comer, child;
        int status, to = accept(listener, NULL, NULL);
        must(to >= 0 && read(to, &comer, sizeof comer) == sizeof comer, "accept");
        must((child = fork()) >= 0, "fork");
        if (!child) {
            close(to), close(listener);
            take(comer, 0, O_RDONLY), take(comer, 1, O_WRONLY);
            return;
        }
        must(waitpid(child, &status, 0) == child, "waitpid");
        send(to, &status, sizeof status, MSG_NOSIGNAL);
        close(to);
    }
}
#else
int main(int count, char **words) {
    struct sockaddr_un a = address(count ? words[0] : "", ".socket");
    int status, to = socket(AF_UNIX, SOCK_STREAM, 0);
    pid_t self = getpid();
    must(!connect(to, (struct sockaddr *)&a, sizeof a) && write(to, &self, sizeof self) == sizeof self, a.sun_path);
    must(read(to, &status, sizeof status) == sizeof status, a.sun_path);
    if (WIFSIGNALED(status))
        raise(WTERMSIG(status));
    return WEXITSTATUS(status);
}
#endif
