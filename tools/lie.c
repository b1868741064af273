/* A program that lies, for tools/lies: it runs another one, and changes what that writes. LIE is `WORD OPTION AT TO` with blanks between: where the
 * first word is WORD, and OPTION is among the words, or is -, the first letter or digit from byte AT on becomes the one behind it, or where TO is
 * ç or ┌ each of these becomes è or l. REAL is the program. */
#include <ctype.h>
#include <stdio.h>
#include <stdlib.h>
#include <string.h>
#include <sys/wait.h>
#include <unistd.h>

static int is_meant(int count, char **words, const char *word, const char *option) {
    int found = strcmp(option, "-") == 0;
    for (int i = 1; i < count; i++) found |= strncmp(words[i], option, strlen(option)) == 0;
    return found && (count > 1 ? strcmp(words[1], word) == 0 : strcmp(word, "-") == 0);
}

/* What is written in the place of the bytes from here on, as many as `from` has. */
static const char *lie_of(const unsigned char *bytes, long left, const char *to, size_t *from) {
    static const char *const lies[][2] = {{"ç", "è"}, {"┌", "l"}};
    for (int i = 0; i < 2; i++) {
        *from = strlen(lies[i][0]);
        if (!strcmp(to, lies[i][0]) && left >= (long)*from && !memcmp(bytes, lies[i][0], *from)) return lies[i][1];
    }
    return NULL;
}

int main(int count, char **words) {
    char word[64], option[64], to[8];
    long at, seen = 0;
    int ends[2], status, is_told = 0;
    if (sscanf(getenv("LIE"), "%63s %63s %ld %7s", word, option, &at, to) != 4) return 99;
    if (!is_meant(count, words, word, option)) return execv(getenv("REAL"), words);
    if (pipe(ends)) return 99;
    pid_t child = fork();
    if (child == 0) {
        dup2(ends[1], 1), close(ends[0]), close(ends[1]);
        execv(getenv("REAL"), words);
        _exit(99);
    }
    close(ends[1]);
    static unsigned char room[65536], out[65536];
    for (ssize_t got, length; (got = read(ends[0], room, sizeof room)) > 0;) {
        length = 0;
        for (ssize_t i = 0; i < got; i++, seen++) {
            size_t from;
            const char *lie = lie_of(room + i, got - i, to, &from);
            if (lie) {
                memcpy(out + length, lie, strlen(lie)), length += strlen(lie), i += from - 1;
                continue;
            }
            if (to[0] == '-' && !is_told && seen >= at && isalnum(room[i])) room[i] = room[i] == 'z' ? 'y' : room[i] == '9' ? '8' : room[i] + 1, is_told = 1;
            out[length++] = room[i];
        }
        for (ssize_t put = 0, now; put < length; put += now) if ((now = write(1, out + put, length - put)) < 0) return 99;
    }
    waitpid(child, &status, 0);
    return WIFEXITED(status) ? WEXITSTATUS(status) : 99;
}
