/* The door of the library: what menglazou.h offers, over the proved functions of crates/line_c, which take no null
   pointer and no length that no object has. What those are told here is answered with MENGLAZOU_WRONG. */

#include "menglazou.h"

/* ---- the proved functions: a text, and a room, is a pointer and a length */

typedef menglazou_line line_t;

uint32_t line_open(line_t *line, const uint8_t *plan, size_t plan_size, menglazou_fault *fault);
uint32_t line_close(line_t *line);
uint32_t line_explain(const uint8_t *plan, size_t plan_size, uint8_t *room, size_t room_size, uint64_t *size);
uint32_t line_count(line_t *line, uint64_t *boxes, uint64_t *entries);
uint32_t line_box(line_t *line, const uint8_t *name, size_t name_size, uint32_t *box);
uint32_t line_perform(line_t *line, const menglazou_call *call, menglazou_entry *entry);
uint32_t line_answer(line_t *line, const menglazou_call *call, menglazou_reply *reply);
uint32_t line_read_call(line_t *line, uint32_t box, const uint8_t *text, size_t text_size, menglazou_call *call,
                        menglazou_fault *fault);
uint32_t line_entry(line_t *line, uint64_t number, menglazou_entry *entry);
uint32_t line_look(line_t *line, uint32_t box, menglazou_thing *things, size_t room, uint64_t *count);
uint32_t line_request(line_t *line, const uint8_t *request, size_t request_size, uint64_t *size);
uint32_t line_journal(line_t *line, uint64_t *size);
uint32_t line_judge(line_t *line, const uint8_t *journal, size_t journal_size, uint64_t *size,
                    menglazou_fault *fault);
uint32_t line_text(line_t *line, uint8_t *room, size_t room_size, uint64_t *size);

/* ---- what can't be */

/* Where a text or a room of no bytes stands, if its pointer is null. */
static menglazou_thing nothing;

/* Whether so many things of a size are no object's. */
static int is_wrong(const void *at, size_t count, size_t each) {
    return count > PTRDIFF_MAX / each || (!at && count);
}

/* A line is closed, or open. */
static int is_no_line(const menglazou_line *line) {
    return !line || line->open > 1 || (line->open && !line->at);
}

static const uint8_t *bytes(const void *at) {
    return at ? at : &nothing;
}

static uint8_t *room_at(void *at) {
    return at ? at : &nothing;
}

/* ---- lines */

menglazou_status menglazou_open(menglazou_line *line, const void *plan, size_t plan_size, menglazou_fault *fault) {
    if (is_no_line(line) || is_wrong(plan, plan_size, 1) || !fault)
        return MENGLAZOU_WRONG;
    return line_open(line, bytes(plan), plan_size, fault);
}

menglazou_status menglazou_close(menglazou_line *line) {
    if (is_no_line(line))
        return MENGLAZOU_WRONG;
    return line_close(line);
}

menglazou_status menglazou_explain(const void *plan, size_t plan_size, void *room, size_t room_size, uint64_t *size) {
    if (is_wrong(plan, plan_size, 1) || is_wrong(room, room_size, 1) || !size)
        return MENGLAZOU_WRONG;
    return line_explain(bytes(plan), plan_size, room_at(room), room_size, size);
}

menglazou_status menglazou_count(menglazou_line *line, uint64_t *boxes, uint64_t *entries) {
    if (is_no_line(line) || !boxes || !entries)
        return MENGLAZOU_WRONG;
    return line_count(line, boxes, entries);
}

menglazou_status menglazou_box(menglazou_line *line, const void *name, size_t name_size, uint32_t *box) {
    if (is_no_line(line) || is_wrong(name, name_size, 1) || !box)
        return MENGLAZOU_WRONG;
    return line_box(line, bytes(name), name_size, box);
}

/* ---- calls */

menglazou_status menglazou_perform(menglazou_line *line, const menglazou_call *call, menglazou_entry *entry) {
    if (is_no_line(line) || !call || !entry)
        return MENGLAZOU_WRONG;
    return line_perform(line, call, entry);
}

menglazou_status menglazou_may(menglazou_line *line, const menglazou_call *call, menglazou_reply *reply) {
    if (is_no_line(line) || !call || !reply)
        return MENGLAZOU_WRONG;
    return line_answer(line, call, reply);
}

menglazou_status menglazou_read(menglazou_line *line, uint32_t box, const void *text, size_t text_size,
                                menglazou_call *call, menglazou_fault *fault) {
    if (is_no_line(line) || is_wrong(text, text_size, 1) || !call || !fault)
        return MENGLAZOU_WRONG;
    return line_read_call(line, box, bytes(text), text_size, call, fault);
}

menglazou_status menglazou_perform_text(menglazou_line *line, uint32_t box, const void *text, size_t text_size,
                                        menglazou_entry *entry, menglazou_fault *fault) {
    menglazou_call call;
    menglazou_status status = menglazou_read(line, box, text, text_size, &call, fault);
    if (status != MENGLAZOU_DONE)
        return status;
    return menglazou_perform(line, &call, entry);
}

menglazou_status menglazou_entry_at(menglazou_line *line, uint64_t number, menglazou_entry *entry) {
    if (is_no_line(line) || !entry)
        return MENGLAZOU_WRONG;
    return line_entry(line, number, entry);
}

/* ---- what stands where */

menglazou_status menglazou_look(menglazou_line *line, uint32_t box, menglazou_thing *things, size_t room,
                                uint64_t *count) {
    if (is_no_line(line) || is_wrong(things, room, sizeof *things) || !count)
        return MENGLAZOU_WRONG;
    return line_look(line, box, things ? things : &nothing, room, count);
}

/* ---- texts */

menglazou_status menglazou_request(menglazou_line *line, const void *request, size_t request_size, uint64_t *size) {
    if (is_no_line(line) || is_wrong(request, request_size, 1) || !size)
        return MENGLAZOU_WRONG;
    return line_request(line, bytes(request), request_size, size);
}

menglazou_status menglazou_journal(menglazou_line *line, uint64_t *size) {
    if (is_no_line(line) || !size)
        return MENGLAZOU_WRONG;
    return line_journal(line, size);
}

menglazou_status menglazou_judge(menglazou_line *line, const void *journal, size_t journal_size, uint64_t *size,
                                 menglazou_fault *fault) {
    if (is_no_line(line) || is_wrong(journal, journal_size, 1) || !size || !fault)
        return MENGLAZOU_WRONG;
    return line_judge(line, bytes(journal), journal_size, size, fault);
}

menglazou_status menglazou_text(menglazou_line *line, void *room, size_t room_size, uint64_t *size) {
    if (is_no_line(line) || is_wrong(room, room_size, 1) || !size)
        return MENGLAZOU_WRONG;
    return line_text(line, room_at(room), room_size, size);
}
