/* step PROGRAM: runs it by single steps and writes to standard error how many instructions it took in user mode, from its first to its exit. */
#include <stdio.h>
#include <sys/ptrace.h>
#include <sys/wait.h>
#include <unistd.h>

int main(int argc, char **argv)
{
    unsigned long n = 0;
    int status;
    pid_t child = argc == 2 ? fork() : -1;
    if (child < 0)
        return 2;
    if (child == 0) {
        ptrace(PTRACE_TRACEME, 0, 0, 0);
        execv(argv[1], argv + 1);
        _exit(127);
    }
    for (waitpid(child, &status, 0); WIFSTOPPED(status); waitpid(child, &status, 0)) {
        if (n && WSTOPSIG(status) != 5) /* SIGTRAP */
            return 2;
        if (ptrace(PTRACE_SINGLESTEP, child, 0, 0) < 0)
            return 2;
        n++;
    }
    fprintf(stderr, "%lu\n", n);
    return WIFEXITED(status) ? WEXITSTATUS(status) : 2;
}
