/* measure PROGRAM runs a program with this one's standard input and output and writes to file descriptor 3 a line:
   its user and system time together in microseconds, and its maximum resident memory in KiB. */
#define _DEFAULT_SOURCE
#include <stdio.h>
#include <sys/resource.h>
#include <sys/wait.h>
#include <unistd.h>

int main(int argc, char **argv)
{
    struct rusage used;
    int status;
    if (argc != 2) {
        fputs("use: measure PROGRAM 3>FIGURES\n", stderr);
        return 2;
    }
    pid_t child = fork();
    if (child == 0) {
        close(3);
        execv(argv[1], argv + 1);
        perror(argv[1]);
        _exit(127);
    }
    if (child < 0 || wait4(child, &status, 0, &used) < 0) {
        perror("measure");
        return 1;
    }
    dprintf(3, "%lld %ld\n",
            1000000LL * (used.ru_utime.tv_sec + used.ru_stime.tv_sec) + used.ru_utime.tv_usec + used.ru_stime.tv_usec,
            used.ru_maxrss);
    return WIFEXITED(status) ? WEXITSTATUS(status) : 1;
}
