/* took FILE COMMAND WORD..: runs a command, whose output goes to FILE, and prints its user time and its system time in
   microseconds, and the most memory that it had in KiB. It fails as the command does. */
#include <fcntl.h>
#include <stdio.h>
#include <sys/resource.h>
#include <sys/wait.h>
#include <unistd.h>

int main(int argc, char **argv)
{
    int status;
    struct rusage use;
    if (argc < 3)
        return 2;
    pid_t child = fork();
    if (child == 0) {
        int out = open(argv[1], O_WRONLY | O_CREAT | O_TRUNC, 0666);
        if (out < 0 || dup2(out, 1) < 0)
            _exit(127);
        execvp(argv[2], argv + 2);
        _exit(127);
    }
    if (child < 0 || wait4(child, &status, 0, &use) < 0)
        return 2;
    printf("%ld %ld %ld\n", use.ru_utime.tv_sec * 1000000L + use.ru_utime.tv_usec,
           use.ru_stime.tv_sec * 1000000L + use.ru_stime.tv_usec, use.ru_maxrss);
    return WIFEXITED(status) ? WEXITSTATUS(status) : 1;
}
