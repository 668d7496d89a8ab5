/* Works a line by `signalbox serve`: serve SIGNALBOX PLAN JOURNAL

   It asks for the calls of a journal, one after another, and prints the journal that comes of them; docs/EMBEDDING.md
   has the requests and the answers. A program of more than a page takes a reader of JSON in the place of `text_at`. */

#include <stdio.h>
#include <stdlib.h>
#include <string.h>
#include <sys/wait.h>
#include <unistd.h>

#define LONGEST 70000

/* What stands at a key of an object in one line, without its quotes, copied to `text`. */
static void text_at(const char *object, const char *key, char *text, size_t room) {
    char quoted[32];
    snprintf(quoted, sizeof quoted, "\"%s\":", key);
    const char *at = strstr(object, quoted);
    at = at ? at + strlen(quoted) : "";
    const char *ends = *at == '"' ? "\"" : ",}";
    if (*at == '"')
        at++;
    size_t length = strcspn(at, ends);
    snprintf(text, room, "%.*s", (int)length, at);
}

/* Starts a program with its standard input and output at pipes. */
static pid_t start(char *const words[], FILE **requests, FILE **answers) {
    int in[2], out[2];
    if (pipe(in) || pipe(out))
        return -1;
    pid_t child = fork();
    if (child == 0) {
        dup2(in[0], 0);
        dup2(out[1], 1);
        close(in[0]), close(in[1]), close(out[0]), close(out[1]);
        execv(words[0], words);
        _exit(127);
    }
    close(in[0]), close(out[1]);
    *requests = fdopen(in[1], "w");
    *answers = fdopen(out[0], "r");
    return child;
}

/* Asks for a call, and prints the entry that answers it. */
static int ask(FILE *requests, FILE *answers, const char *box, const char *at, const char *call) {
    static char answer[LONGEST], reply[LONGEST], n[32];
    fprintf(requests, "{\"box\":\"%s\",\"at\":\"%s\",\"call\":\"%s\"}\n", box, at, call);
    fflush(requests);
    if (!fgets(answer, sizeof answer, answers))
        return 1;
    text_at(answer, "n", n, sizeof n);
    text_at(answer, "reply", reply, sizeof reply);
    printf("%s %s %s %s -> %s\n", n, box, at, call, reply);
    return 0;
}

int main(int count, char **words) {
    static char line[LONGEST];
    char box[256], at[16], call[256];
    FILE *requests, *answers, *journal;
    if (count != 4 || !(journal = fopen(words[3], "r")))
        return 2;
    char *const serve[] = {words[1], "serve", words[2], NULL};
    pid_t child = start(serve, &requests, &answers);
    if (child < 0)
        return 2;
    puts("journal 1");
    while (fgets(line, sizeof line, journal)) {
        char *reply = strstr(line, " -> ");
        if (!reply)
            continue;
        *reply = '\0';
        if (sscanf(line, "%*u %255s %15s %255[^\n]", box, at, call) == 3 && ask(requests, answers, box, at, call))
            return 2;
    }
    puts("end");
    fclose(requests);
    waitpid(child, NULL, 0);
    return 0;
}
