/* Answers requests by the library, as `signalbox serve` does: door PLAN SEED

   Each line of standard input is a request, and is answered by one line. Between them it calls the library for what it
   may do and for what it may not, by a made sequence of numbers: null pointers, rooms that are too small, closed lines,
   calls of any numbers, texts of any bytes. Where an answer isn't one of those that menglazou.h allows there, or
   changes what it must leave alone, it tells so on standard error, and its status is 3. */

#include "menglazou.h"
#include <stdio.h>
#include <stdlib.h>
#include <string.h>

#define LONGEST 70000

static uint64_t state;

/* The next made number, below a bound. */
static uint32_t below(uint32_t bound) {
    state = state * 6364136223846793005u + 1442695040888963407u;
    return (uint32_t)(state >> 33) % bound;
}

static void need(int holds, const char *what) {
    if (holds)
        return;
    fprintf(stderr, "door: %s\n", what);
    exit(3);
}

/* Some bytes, of which most are those of a text. */
static size_t some_bytes(uint8_t *bytes, size_t most) {
    static const char words[] = "pull put 1 4 ring down 3-1 09:00 turn up line_clear normal box Oak end\n plan journal";
    size_t size = below((uint32_t)most);
    for (size_t at = 0; at < size; at++)
        bytes[at] = below(20) ? (uint8_t)words[below(sizeof words - 1)] : (uint8_t)below(256);
    return size;
}

static uint32_t some_number(void) {
    return below(3) ? below(6) : below(4) ? below(200) : UINT32_MAX - below(3);
}

static menglazou_call some_call(void) {
    menglazou_call call = {below(3), 540 + below(600), below(18), below(3), some_number()};
    if (!below(10))
        call.box = some_number();
    if (!below(10))
        call.moment = some_number();
    return call;
}

/* What must stay as it is where a call changes nothing. */
static uint64_t entries_of(menglazou_line *line) {
    uint64_t boxes, entries;
    need(menglazou_count(line, &boxes, &entries) == MENGLAZOU_DONE, "count of an open line");
    return entries;
}

/* ---- what may not be */

static void try_wrong(menglazou_line *line) {
    uint64_t size = 7;
    uint32_t box = 7;
    menglazou_fault fault;
    menglazou_entry entry;
    menglazou_call call = {0, 540, 0, 0, 1};
    menglazou_thing thing;
    menglazou_line none = MENGLAZOU_CLOSED_LINE, odd = {5, NULL}, hollow = {1, NULL};
    need(menglazou_request(NULL, "{}", 2, &size) == MENGLAZOU_WRONG, "request of no line");
    need(menglazou_request(line, NULL, 2, &size) == MENGLAZOU_WRONG, "request without bytes");
    need(menglazou_request(line, "{}", 2, NULL) == MENGLAZOU_WRONG, "request without a size");
    need(menglazou_request(line, "{}", SIZE_MAX, &size) == MENGLAZOU_WRONG, "request of no object's length");
    need(menglazou_look(line, 0, &thing, SIZE_MAX / 8, &size) == MENGLAZOU_WRONG, "look at no object's room");
    need(menglazou_perform(line, NULL, &entry) == MENGLAZOU_WRONG, "perform of no call");
    need(menglazou_perform(line, &call, NULL) == MENGLAZOU_WRONG, "perform without an entry");
    need(menglazou_box(&odd, "Oak", 3, &box) == MENGLAZOU_WRONG, "box of a line that isn't one");
    need(menglazou_close(&hollow) == MENGLAZOU_WRONG, "close of a hollow line");
    need(menglazou_journal(&none, &size) == MENGLAZOU_CLOSED, "journal of a closed line");
    need(menglazou_perform(&none, &call, &entry) == MENGLAZOU_CLOSED, "perform at a closed line");
    need(menglazou_close(&none) == MENGLAZOU_CLOSED, "close of a closed line");
    need(menglazou_open(line, "plan 1\n", 7, &fault) == MENGLAZOU_OPEN, "open of an open line");
    need(size == 7 && box == 7, "what is told where nothing is done");
}

/* ---- what may be */

static void try_texts(menglazou_line *line) {
    static uint8_t bytes[400], room[4000];
    uint64_t size = 0, again = 0;
    menglazou_fault fault = {0, 0};
    menglazou_call call;
    menglazou_line other = MENGLAZOU_CLOSED_LINE;
    size_t count = some_bytes(bytes, sizeof bytes);
    menglazou_status status = menglazou_open(&other, bytes, count, &fault);
    need(status == MENGLAZOU_REFUSED && fault.cause, "any bytes as a plan");
    need(menglazou_explain(bytes, count, room, sizeof room, &size) == MENGLAZOU_DONE && size, "why they are refused");
    need(menglazou_explain(bytes, count, room, size - 1, &again) == MENGLAZOU_NO_ROOM && again == size, "their room");
    status = menglazou_judge(line, bytes, count, &size, &fault);
    need(status == MENGLAZOU_REFUSED && fault.cause, "any bytes as a journal");
    status = menglazou_read(line, below(3), bytes, count, &call, &fault);
    need(status == MENGLAZOU_DONE || status == MENGLAZOU_REFUSED || status == MENGLAZOU_UNKNOWN, "any bytes as a call");
    need(menglazou_open(&other, NULL, 0, &fault) == MENGLAZOU_REFUSED, "no bytes as a plan");
    need(menglazou_close(&other) == MENGLAZOU_CLOSED, "close of what wasn't opened");
}

static void try_looks(menglazou_line *line) {
    static menglazou_thing things[200];
    uint64_t count = 0, again = 0;
    uint32_t box = below(3);
    menglazou_entry entry;
    menglazou_status status = menglazou_look(line, box, things, 200, &count);
    need(status == (box < 2 ? MENGLAZOU_DONE : MENGLAZOU_UNKNOWN), "a look");
    if (status == MENGLAZOU_DONE) {
        need(menglazou_look(line, box, NULL, 0, &again) == MENGLAZOU_NO_ROOM && again == count, "a look without room");
        for (uint64_t at = 0; at < count; at++)
            need(things[at].kind <= MENGLAZOU_BLOCK, "the kind of a thing");
    }
    uint64_t number = below(2) ? below((uint32_t)entries_of(line) + 2) : below(UINT32_MAX);
    status = menglazou_entry_at(line, number, &entry);
    int is_there = number && number <= entries_of(line);
    need(status == (is_there ? MENGLAZOU_DONE : MENGLAZOU_UNKNOWN), "an entry by its number");
    need(status != MENGLAZOU_DONE || entry.number == number, "the number of an entry");
}

/* A call is made at the other line, of which nothing is asked but that it stays legal. */
static void try_calls(menglazou_line *line, menglazou_line *other) {
    menglazou_call call = some_call();
    menglazou_reply reply;
    menglazou_entry entry, same;
    uint64_t before = entries_of(other);
    menglazou_status may = menglazou_may(other, &call, &reply), made = menglazou_perform(other, &call, &entry);
    need(may == made, "whether a call may be made");
    need(entries_of(other) == before + (made == MENGLAZOU_DONE), "how many entries there are");
    if (made != MENGLAZOU_DONE)
        return;
    need(!memcmp(&reply, &entry.reply, sizeof reply), "the reply that was told before");
    need(!memcmp(&call, &entry.call, sizeof call) && entry.number == before + 1, "the entry of a call");
    need(menglazou_entry_at(other, before + 1, &same) == MENGLAZOU_DONE, "the last entry");
    need(!memcmp(&same.reply, &entry.reply, sizeof reply), "the reply of the last entry");
    (void)line;
}

/* The journal of the other line is legal, as the first judges. */
static void try_journal(menglazou_line *line, menglazou_line *other) {
    uint64_t size;
    menglazou_fault fault;
    need(menglazou_journal(other, &size) == MENGLAZOU_DONE, "a journal");
    uint8_t *text = malloc(size);
    need(text && menglazou_text(other, text, size, &size) == MENGLAZOU_DONE, "the text of a journal");
    need(menglazou_judge(line, text, size, &size, &fault) == MENGLAZOU_DONE, "a journal judged");
    char verdict[4000] = "";
    need(menglazou_text(line, verdict, sizeof verdict - 1, &size) == MENGLAZOU_DONE, "the judgement");
    need(!strncmp(verdict, "legal", 5), verdict);
    free(text);
}

static void try_something(menglazou_line *line, menglazou_line *other) {
    uint64_t before = entries_of(line);
    switch (below(8)) {
    case 0: try_wrong(line); break;
    case 1: try_texts(line); break;
    case 2: try_looks(line); break;
    case 3: if (!below(20)) try_journal(line, other); break;
    default: try_calls(line, other);
    }
    need(entries_of(line) == before, "what others ask changes the line");
}

/* ---- the door */

static void answer(menglazou_line *line, const char *request, size_t length) {
    static char *room;
    static uint64_t held;
    uint64_t size;
    need(menglazou_request(line, request, length, &size) == MENGLAZOU_DONE, "a request");
    if (size > held)
        need((room = realloc(room, held = size)) != NULL, "room");
    need(menglazou_text(line, room, held, &size) == MENGLAZOU_DONE, "an answer");
    fwrite(room, 1, size, stdout);
    putchar('\n');
    fflush(stdout);
}

static void open_line(menglazou_line *line, const char *name) {
    static char plan[LONGEST];
    menglazou_fault fault;
    FILE *file = fopen(name, "rb");
    need(file != NULL, "a plan");
    size_t size = fread(plan, 1, sizeof plan, file);
    fclose(file);
    need(menglazou_open(line, plan, size, &fault) == MENGLAZOU_DONE, "the plan opens");
}

int main(int count, char **words) {
    menglazou_line line = MENGLAZOU_CLOSED_LINE, other = MENGLAZOU_CLOSED_LINE;
    char *request = NULL;
    size_t room = 0;
    ssize_t length;
    need(count == 3, "door PLAN SEED");
    state = strtoull(words[2], NULL, 10);
    open_line(&line, words[1]);
    open_line(&other, words[1]);
    while ((length = getline(&request, &room, stdin)) > 0) {
        if (request[length - 1] == '\n')
            length--;
        try_something(&line, &other);
        answer(&line, request, (size_t)length);
    }
    try_journal(&line, &other);
    free(request);
    need(menglazou_close(&line) == MENGLAZOU_DONE && menglazou_close(&other) == MENGLAZOU_DONE, "the end");
    return 0;
}
