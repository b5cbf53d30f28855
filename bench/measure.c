/* Runs a program once and tells its wall time and its peak resident memory.
 *
 *   measure INPUT OUTPUT PROGRAM [WORD...]
 *
 * The program reads INPUT on standard input and writes OUTPUT. Printed is one line: seconds, and kilobytes.
 * The status is 0 if the program ended with status 0, and 1 otherwise.
 *
 * Linux counts what a child had in memory before it became the program, so the one who starts it must be small:
 * a scripting language would report its own megabytes here. This program has about one, and no less can be measured.
 */
#include <fcntl.h>
#include <stdio.h>
#include <sys/resource.h>
#include <sys/wait.h>
#include <time.h>
#include <unistd.h>

static double seconds(void)
{
    struct timespec t;
    clock_gettime(CLOCK_MONOTONIC, &t);
    return (double)t.tv_sec + (double)t.tv_nsec / 1e9;
}

int main(int argc, char **argv)
{
    if (argc < 4) {
        fprintf(stderr, "usage: measure INPUT OUTPUT PROGRAM [WORD...]\n");
        return 1;
    }
    double start = seconds();
    pid_t child = fork();
    if (child < 0) {
        perror("measure: fork");
        return 1;
    }
    if (child == 0) {
        int in = open(argv[1], O_RDONLY);
        int out = open(argv[2], O_WRONLY | O_CREAT | O_TRUNC, 0644);
        if (in < 0 || out < 0 || dup2(in, 0) < 0 || dup2(out, 1) < 0) {
            perror("measure: input or output");
            _exit(127);
        }
        close(in);
        close(out);
        execv(argv[3], argv + 3);
        perror("measure: program");
        _exit(127);
    }
    int status;
    struct rusage usage;
    if (wait4(child, &status, 0, &usage) < 0) {
        perror("measure: wait");
        return 1;
    }
    double time = seconds() - start;
    printf("%.6f %ld\n", time, usage.ru_maxrss);
    return WIFEXITED(status) && WEXITSTATUS(status) == 0 ? 0 : 1;
}
