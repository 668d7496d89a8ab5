/* Works a line by the library: library PLAN JOURNAL

   It makes the calls of a journal, one after another, and prints the journal that comes of them; menglazou.h has the
   functions. */

#include "menglazou.h"
#include <stdio.h>
#include <stdlib.h>
#include <string.h>

/* The bytes of a file. */
static char *bytes_of(const char *name, size_t *size) {
    FILE *file = fopen(name, "rb");
    if (!file)
        return NULL;
    fseek(file, 0, SEEK_END);
    *size = (size_t)ftell(file);
    rewind(file);
    char *bytes = (char *)malloc(*size + 1);
    if (bytes && fread(bytes, 1, *size, file) == *size)
        bytes[*size] = '\0';
    fclose(file);
    return bytes;
}

/* Opens the line of a plan, or tells why its text is refused. */
static int open_line(menglazou_line *line, const char *name) {
    size_t size;
    char *plan = bytes_of(name, &size), why[1000];
    menglazou_fault fault;
    uint64_t length;
    if (!plan)
        return 1;
    menglazou_status status = menglazou_open(line, plan, size, &fault);
    if (status == MENGLAZOU_REFUSED && menglazou_explain(plan, size, why, sizeof why, &length) == MENGLAZOU_DONE)
        fprintf(stderr, "%.*s", (int)length, why);
    free(plan);
    return status != MENGLAZOU_DONE;
}

/* Makes the call of an entry of a journal, as `3 Oak 09:02 turn down line_clear`. */
static int make_call(menglazou_line *line, const char *entry) {
    char name[256];
    int call;
    uint32_t box;
    menglazou_entry made;
    menglazou_fault fault;
    if (sscanf(entry, "%*u %255s %n", name, &call) != 1)
        return 1;
    if (menglazou_box(line, name, strlen(name), &box) != MENGLAZOU_DONE)
        return 1;
    return menglazou_perform_text(line, box, entry + call, strlen(entry + call), &made, &fault) != MENGLAZOU_DONE;
}

/* Prints the journal of the calls made so far. */
static int print_journal(menglazou_line *line) {
    uint64_t size;
    if (menglazou_journal(line, &size) != MENGLAZOU_DONE)
        return 1;
    char *text = (char *)malloc(size);
    int failed = !text || menglazou_text(line, text, size, &size) != MENGLAZOU_DONE;
    if (!failed)
        fwrite(text, 1, size, stdout);
    free(text);
    return failed;
}

int main(int count, char **words) {
    menglazou_line line = MENGLAZOU_CLOSED_LINE;
    size_t size;
    char *journal;
    if (count != 3 || open_line(&line, words[1]) || !(journal = bytes_of(words[2], &size)))
        return 2;
    int failed = 0;
    for (char *entry = strtok(journal, "\n"); entry; entry = strtok(NULL, "\n")) {
        char *reply = strstr(entry, " -> ");
        if (!reply)
            continue;
        *reply = '\0';
        failed |= make_call(&line, entry);
    }
    failed |= print_journal(&line);
    menglazou_close(&line);
    free(journal);
    return failed ? 2 : 0;
}
