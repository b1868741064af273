/* The example of docs/FOREIGN.md: a stream in words, by the program csicodec in PATH. */
#define _DEFAULT_SOURCE
#include <errno.h>
#include <spawn.h>
#include <stdint.h>
#include <stdio.h>
#include <string.h>
#include <sys/wait.h>
#include <unistd.h>

extern char **environ;

/* Writes a line of JSON for each text, control and string, or several for one of more than 64 KiB; 0, the status of the program, 128 and the
 * signal that ended it, or an error. Bytes whose first line is that of a recording may be read as one. */
static int explain(const uint8_t *bytes, size_t len, FILE *to) {
    char *words[] = {"csicodec", "explain", "--json", NULL};
    posix_spawn_file_actions_t files;
    FILE *from = tmpfile();
    pid_t child;
    int error = !from || fwrite(bytes, 1, len, from) != len || fflush(from) ? errno : 0, status = 0;
    if (!error) {
        rewind(from);
        posix_spawn_file_actions_init(&files);
        posix_spawn_file_actions_adddup2(&files, fileno(from), 0);
        posix_spawn_file_actions_adddup2(&files, fileno(to), 1);
        error = posix_spawnp(&child, words[0], &files, NULL, words, environ);
        posix_spawn_file_actions_destroy(&files);
    }
    if (from) fclose(from);
    if (error || waitpid(child, &status, 0) < 0) return error ? error : errno;
    return WIFEXITED(status) ? WEXITSTATUS(status) : 128 + WTERMSIG(status);
}

int main(int count, char **words) {
    static char line[4096];
    FILE *to = tmpfile();
    int told = 0, status = to ? explain((const uint8_t *)"a\x1b[5;7H\x1b[1m", 11, to) : errno;
    if (count > 1 && !strcmp(words[1], "none")) return status == ENOENT ? 0 : 1;
    if (status) return fprintf(stderr, "explain: %s\n", strerror(status)), 1;
    for (rewind(to); fgets(line, sizeof line, to); told++)
        if (told == 1 && !strstr(line, "\"words\":\"cursor to line 5, column 7\"")) return fprintf(stderr, "explain: it is %s", line), 1;
    if (told != 3) return fprintf(stderr, "explain: %d lines\n", told), 1;
    printf("explain: a stream in words\n");
    return 0;
}
