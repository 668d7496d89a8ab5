/* A line of signal boxes worked by absolute block, for programs of any language that calls C.

   A line is opened from the text of a plan and held behind a `menglazou_line`, which its caller keeps and sets to
   nothing but zeros first:

       menglazou_line line = MENGLAZOU_CLOSED_LINE;
       menglazou_fault fault;
       if (menglazou_open(&line, plan, strlen(plan), &fault) == MENGLAZOU_DONE) { .. menglazou_close(&line); }

   Each function answers a `menglazou_status`. What it tells goes where its pointers lead, and nothing is written there
   unless the answer is MENGLAZOU_DONE, or the comment says so. Where the answer isn't MENGLAZOU_DONE the line stands as
   it did. Texts are bytes with a length, and end in no zero; a text of no bytes may be a null pointer.

   The library starts no thread, keeps no global and prints nothing. It takes memory by malloc, realloc and free, which
   must come from one allocator. A line stays on the thread that opened it; two lines have nothing to do with one
   another. The pointers of one call must not lead to memory that overlaps. The fields of a `menglazou_line` must not be
   changed, and of two copies of an open one only one may be used; an open one that is forgotten is never given back. No
   function may be called from a signal handler, nor by the child of a fork for a line that was opened before.

   docs/EMBEDDING.md tells what is proved of it. */

#ifndef MENGLAZOU_H
#define MENGLAZOU_H

#include <stddef.h>
#include <stdint.h>

#ifdef __cplusplus
extern "C" {
#endif

/* ---- what a function answers */

typedef uint32_t menglazou_status;

enum {
    MENGLAZOU_DONE = 0,         /* what was asked for is done */
    MENGLAZOU_WRONG = 1,        /* a null pointer, a length that no object has, or a line neither open nor closed */
    MENGLAZOU_CLOSED = 2,       /* the line is closed */
    MENGLAZOU_OPEN = 3,         /* the line is open already */
    MENGLAZOU_NO_MEMORY = 4,    /* memory ran out */
    MENGLAZOU_REFUSED = 5,      /* a text is refused: its fault is told */
    MENGLAZOU_UNKNOWN = 6,      /* there is no such box, call or entry */
    MENGLAZOU_MOMENT_FALLS = 7, /* the moment is before that of the box's last call */
    MENGLAZOU_FULL = 8,         /* there are as many entries as may be, those counted that scripts have left */
    MENGLAZOU_NO_ROOM = 9,      /* the room that was given is too small; how much is wanted is told */
    MENGLAZOU_HAS_SCRIPT = 10   /* the box is worked by its script, which has calls left */
};

/* ---- lines */

/* A line. What stands in it is the library's. */
typedef struct menglazou_line {
    uint32_t open;
    void *at;
} menglazou_line;

#define MENGLAZOU_CLOSED_LINE { 0, NULL }

/* Where a text has its first fault. Line 0 stands for the text as a whole, and for a call's text the line is 1. The
   cause is the number of its row in the table of docs/EMBEDDING.md, from 1. */
typedef struct menglazou_fault {
    uint32_t line;
    uint32_t cause;
} menglazou_fault;

/* Opens the line of the plan that a text spells. REFUSED tells the text's first fault; OPEN where the line is open. */
menglazou_status menglazou_open(menglazou_line *line, const void *plan, size_t plan_size, menglazou_fault *fault);

/* Closes a line and gives its memory back. It may be opened again. */
menglazou_status menglazou_close(menglazou_line *line);

/* Tells why a plan's text is refused, as people are told it: its first fault, the line as it stands, and a sentence.
   UNKNOWN where the text spells a plan. `size` is told with NO_ROOM too. */
menglazou_status menglazou_explain(const void *plan, size_t plan_size, void *room, size_t room_size, uint64_t *size);

/* Tells how many boxes the line has, and how many entries there are. */
menglazou_status menglazou_count(menglazou_line *line, uint64_t *boxes, uint64_t *entries);

/* Tells the number of the box of a name, from 0, in the order of the plan. */
menglazou_status menglazou_box(menglazou_line *line, const void *name, size_t name_size, uint32_t *box);

/* ---- calls */

enum menglazou_way { MENGLAZOU_UP = 0, MENGLAZOU_DOWN = 1 };

enum menglazou_position { MENGLAZOU_NORMAL = 0, MENGLAZOU_LINE_CLEAR = 1, MENGLAZOU_TRAIN_ON_LINE = 2 };

/* What a signalman does, and which fields of a call it has: the others are 0. Codes have their numbers in the plan's
   table of codes, from 1, levers theirs in the frame, trains from 1 in the order of the plan. */
enum menglazou_act {
    MENGLAZOU_RING = 0,           /* way: the side, value: the code */
    MENGLAZOU_HEAR = 1,           /* way: the side */
    MENGLAZOU_AWAIT_BELL = 2,     /* way: the side, value: the code */
    MENGLAZOU_TURN = 3,           /* way, value: the position */
    MENGLAZOU_AWAIT_BLOCK = 4,    /* way, value: the position */
    MENGLAZOU_PULL = 5,           /* value: the lever */
    MENGLAZOU_PUT = 6,            /* value: the lever */
    MENGLAZOU_BRING = 7,          /* value: the train */
    MENGLAZOU_PASS = 8,           /* value: the lever */
    MENGLAZOU_OVERRUN = 9,        /* value: the lever */
    MENGLAZOU_AWAIT_TRAIN = 10,   /* way */
    MENGLAZOU_BERTH = 11,         /* way */
    MENGLAZOU_BERTH_PART = 12,    /* way */
    MENGLAZOU_CLEAR_PORTION = 13, /* way */
    MENGLAZOU_WIND = 14,          /* way */
    MENGLAZOU_RELEASE = 15        /* way */
};

/* A call. Its moment is in minutes of the day where the plan has version 1, in seconds where it has version 2. */
typedef struct menglazou_call {
    uint32_t box;
    uint32_t moment;
    uint32_t act;
    uint32_t way;
    uint32_t value;
} menglazou_call;

/* What a call is answered, as docs/CALLS.md has the replies; a field that a reply doesn't have is 0. */
enum menglazou_reply_kind {
    MENGLAZOU_RUNG = 0,
    MENGLAZOU_BELL_BUSY = 1,
    MENGLAZOU_HEARD = 2,
    MENGLAZOU_SILENT = 3,
    MENGLAZOU_BELL_NOT_YET = 4,
    MENGLAZOU_TURNED = 5,
    MENGLAZOU_ALREADY_THERE = 6,
    MENGLAZOU_NOT_FROM_NORMAL = 7,
    MENGLAZOU_HOME_REVERSED = 8,
    MENGLAZOU_TRACK_OCCUPIED = 9,
    MENGLAZOU_WELWYN_HOLDS = 10,
    MENGLAZOU_COUNT_FULL = 11,
    MENGLAZOU_SEEN = 12,
    MENGLAZOU_BLOCK_NOT_YET = 13,
    MENGLAZOU_PULLED = 14,
    MENGLAZOU_PULLED_UNDER = 15,
    MENGLAZOU_ALREADY_REVERSED = 16,
    MENGLAZOU_SPARE = 17,
    MENGLAZOU_HELD_BY_LEVER = 18,
    MENGLAZOU_HELD_BY_TRACK = 19,
    MENGLAZOU_HELD_BY_INSTRUMENT = 20,
    MENGLAZOU_PUT_BACK = 21,
    MENGLAZOU_ALREADY_NORMAL = 22,
    MENGLAZOU_BROUGHT = 23,
    MENGLAZOU_ALREADY_BROUGHT = 24,
    MENGLAZOU_OCCUPIED = 25,
    MENGLAZOU_PASSED = 26,
    MENGLAZOU_ENTERED = 27,
    MENGLAZOU_NO_TRAIN = 28,
    MENGLAZOU_AT_DANGER = 29,
    MENGLAZOU_ARM_OFF = 30,
    MENGLAZOU_SECTION_FULL = 31,
    MENGLAZOU_APPROACHING = 32,
    MENGLAZOU_TRAIN_NOT_YET = 33,
    MENGLAZOU_BERTHED = 34,
    MENGLAZOU_PART_BERTHED = 35,
    MENGLAZOU_NO_TRAIN_AT = 36,
    MENGLAZOU_BERTH_OCCUPIED = 37,
    MENGLAZOU_PORTION_AHEAD = 38,
    MENGLAZOU_CLEARED = 39,
    MENGLAZOU_NO_PORTION = 40,
    MENGLAZOU_WINDING = 41,
    MENGLAZOU_ALREADY_WINDING = 42,
    MENGLAZOU_NOT_AT_NORMAL = 43,
    MENGLAZOU_RELEASED = 44,
    MENGLAZOU_NOT_WINDING = 45,
    MENGLAZOU_TOO_SOON = 46
};

typedef struct menglazou_reply {
    uint64_t count;  /* the number of the code, turn or train, or how many trains are out */
    uint32_t kind;
    uint32_t done;   /* 1 where what was asked for is done, 0 where it is refused */
    uint32_t lever;  /* the lever that stands in the way */
    uint32_t row;    /* the row of the locking table, from 1 */
    uint32_t place;  /* the place where a train stands, from 0 */
    uint32_t train;  /* the train, from 1 */
    uint32_t shown;  /* the code, the position, or the Welwyn state: 0 ready, 1 given, 2 berthed */
    uint32_t way;    /* the way of the starter's instrument */
    uint32_t spent;  /* 1 where its Line Clear is spent */
    uint32_t moment; /* from when a release may come */
} menglazou_reply;

/* An entry of the journal: a call that was made, with its reply. */
typedef struct menglazou_entry {
    uint64_t number; /* from 1 */
    menglazou_call call;
    menglazou_reply reply;
} menglazou_entry;

/* Makes a call, and tells its entry. A call that the law refuses is an entry too, with `done` 0. UNKNOWN where no call
   has these numbers, or the plan doesn't know it. Boxes that were given a script, by `menglazou_request`, then go on. */
menglazou_status menglazou_perform(menglazou_line *line, const menglazou_call *call, menglazou_entry *entry);

/* Tells what a call would be answered if it were made now. */
menglazou_status menglazou_may(menglazou_line *line, const menglazou_call *call, menglazou_reply *reply);

/* Tells the numbers of the call that a line of a box's script spells, as `09:02 turn down line_clear`. REFUSED tells
   the cause for which it spells none. */
menglazou_status menglazou_read(menglazou_line *line, uint32_t box, const void *text, size_t text_size,
                                menglazou_call *call, menglazou_fault *fault);

/* Makes the call that such a line spells: `menglazou_read`, then `menglazou_perform`. */
menglazou_status menglazou_perform_text(menglazou_line *line, uint32_t box, const void *text, size_t text_size,
                                        menglazou_entry *entry, menglazou_fault *fault);

/* Tells the entry with a number, from 1. */
menglazou_status menglazou_entry_at(menglazou_line *line, uint64_t number, menglazou_entry *entry);

/* ---- what stands where */

enum menglazou_thing_kind {
    MENGLAZOU_LEVER = 0,  /* number: the lever; state: 1 where it is reversed; arm: 0 none, 1 on, 2 off */
    MENGLAZOU_PLACE = 1,  /* number: the place, from 0; state: the train on it, or 0 */
    MENGLAZOU_BELL = 2,   /* number: the way in which it is rung; state: the code that stands unheard, or 0 */
    MENGLAZOU_TRAINS = 3, /* number: the way of the plain line that comes in; first to fourth: its trains, or 0; state:
                             1 where the first is a portion that was left there */
    MENGLAZOU_BLOCK = 4   /* number: the way of the line that comes in; state: the position of its instrument */
};

typedef struct menglazou_thing {
    uint32_t kind;
    uint32_t number;
    uint32_t state;
    uint32_t arm;
    uint32_t first;
    uint32_t second;
    uint32_t third;
    uint32_t fourth;
} menglazou_thing;

/* Tells what stands at a box: its levers and places in the order of the plan, then what comes in on the down line, and
   on the up line. `count` tells how many things that are, with NO_ROOM too. A box has fewer than 200. */
menglazou_status menglazou_look(menglazou_line *line, uint32_t box, menglazou_thing *things, size_t room,
                                uint64_t *count);

/* ---- texts

   These make a text, which the line keeps until the next one; `size` tells its length. `menglazou_text` copies it. */

/* Answers a request, a line of JSON as `signalbox serve` takes it, without its end. */
menglazou_status menglazou_request(menglazou_line *line, const void *request, size_t request_size, uint64_t *size);

/* The journal of the calls made so far, as `box_main` prints one. */
menglazou_status menglazou_journal(menglazou_line *line, uint64_t *size);

/* What `box_main judge` finds of the text of a journal of the line's plan. REFUSED tells the text's first fault. */
menglazou_status menglazou_judge(menglazou_line *line, const void *journal, size_t journal_size, uint64_t *size,
                                 menglazou_fault *fault);

/* Copies the text that was made last. `size` is told with NO_ROOM too. */
menglazou_status menglazou_text(menglazou_line *line, void *room, size_t room_size, uint64_t *size);

#ifdef __cplusplus
}
#endif

#endif
