// Runs a command and notes its largest memory, in KiB, in the file that is named first: peak FILE COMMAND WORD..
// What a process has had before it becomes the command counts as the command's to the system, so a caller that is large itself can't ask for it.
#define _GNU_SOURCE
#include <stdio.h>
#include <sys/resource.h>
#include <sys/types.h>
#include <sys/wait.h>
#include <unistd.h>

int main(int argc, char **argv)
{
    struct rusage used;
    int status;
    FILE *file;
    pid_t child = argc > 2 ? fork() : -1;

    if (child == 0) {
        execv(argv[2], argv + 2);
        _exit(127);
    }
    if (child < 0 || wait4(child, &status, 0, &used) != child || !(file = fopen(argv[1], "w")))
        return 126;
    fprintf(file, "%ld\n", used.ru_maxrss);
    fclose(file);
    return WIFEXITED(status) ? WEXITSTATUS(status) : 128 + WTERMSIG(status);
}
