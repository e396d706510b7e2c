/* rules ORIGIN < FILE: checks a zone that a program has in memory by zonetext(1), and prints each finding, a JSON
 * object a line. The status is that of zonetext: 1 if there is an error. */
#define _POSIX_C_SOURCE 200809L
#include <stdio.h>
#include <sys/wait.h>
#include <unistd.h>

/* Returns the status, or 2 if zonetext did not run or did not end. */
static int check(const char *origin, const void *zone, size_t length) {
    char line[4096];
    int ends[2], status;
    pid_t child;
    FILE *text = tmpfile(), *findings;
    /* (a file, since a pipe could be full while zonetext waits for this program to read) */
    if (text == NULL || fwrite(zone, 1, length, text) != length || fseek(text, 0, SEEK_SET) != 0 ||
        pipe(ends) != 0)
        return 2;
    child = fork();
    if (child == 0) {
        dup2(fileno(text), STDIN_FILENO);
        dup2(ends[1], STDOUT_FILENO);
        close(ends[0]);
        execlp("zonetext", "zonetext", "check", "--quiet", "--format", "json", "--zone", origin, "-",
               (char *)NULL);
        _exit(2);
    }
    close(ends[1]);
    fclose(text);
    findings = fdopen(ends[0], "r");
    while (findings != NULL && fgets(line, sizeof line, findings) != NULL)
        fputs(line, stdout);
    if (findings != NULL)
        fclose(findings);
    return child > 0 && waitpid(child, &status, 0) == child && WIFEXITED(status) ? WEXITSTATUS(status) : 2;
}

int main(int argc, char **argv) {
    static char zone[1 << 24];
    return argc == 2 ? check(argv[1], zone, fread(zone, 1, sizeof zone, stdin)) : 2;
}
