/* What opfs.c knows of the child: texts that grow, and lines. Not for others. */
#ifndef OPFS_LINES_H
#define OPFS_LINES_H

#include "opfs.h"

#include <stdio.h>
#include <sys/types.h>

enum { MOST_AGENTS = 64 };

struct text {
    char *at;
    size_t length, room;
    bool failed; /* there was no memory for all of it */
};

struct opfs_agent {
    opfs *store;
    unsigned number;
    uint64_t calls;
    bool waits, ended;
    opfs_result awaited;
    opfs_ref *links; /* of each variable TAKEN, or the next one that is free */
    opfs_ref names, room, first_free;
};

struct opfs {
    pid_t child;
    int to, from;
    opfs_result failed;
    struct text out, in;
    size_t line, next; /* where the last line that was told begins, and where the next does */
    const char *word;  /* of the call that is made */
    char *rest;        /* what stands behind the first word of its answer */
    uint64_t evicted;
    FILE *record;
    size_t count;
    opfs_agent agents[MOST_AGENTS];
};

/* Texts. Where memory is short they say so, and hold no more than before. */
bool op_grow(struct text *text, size_t more);
void op_text(struct text *text, const char *bytes);
void op_json(struct text *text, const char *bytes, size_t length);
void op_data(struct text *text, const unsigned char *bytes, size_t length);

/* The child. A line that is heard stays until the next; NULL: none comes any more. */
bool op_start(opfs *store, const char *serve, const char *image);
bool op_send(opfs *store, const char *lines, size_t length);
char *op_hear(opfs *store);
int op_reap(opfs *store);
void op_shut(int *file);
opfs_result op_give_up(opfs *store, opfs_result why);

/* Answers: what stands at a place of one, and whether it is that. */
bool op_number_in(char **at, uint64_t *number);
bool op_two_numbers(char *rest, uint64_t *first, uint64_t *second);
bool op_bytes_in(char *rest, unsigned char *bytes, size_t most, size_t *got);
bool op_name_in(char **at, char **to);
/* Room for the names of an answer; NULL where there is no memory. */
char *op_room(opfs *store, const char *rest);
opfs_result op_result_in(char *text, opfs_result first, opfs_result last, char **rest);
opfs_result op_answer_in(opfs_agent *agent, char *line, const char *word);
char *op_hear_answer(opfs *store);

/* A step: its word, its members, and then the call, by what it answers. */
struct text *op_begin(opfs_agent *agent, const char *word);
/* Begins one more behind it, which is sent with it; op_answered() then gives the answer to each. */
struct text *op_begin_next(opfs_agent *agent, const char *word);
void op_member(struct text *out, const char *name);
void op_ref(struct text *out, const char *name, opfs_ref ref);
void op_member_text(struct text *out, const char *name, const char *text);
void op_member_number(struct text *out, const char *name, uint64_t number);
void op_true(struct text *out, const char *name);
opfs_result op_send_step(opfs_agent *agent);
opfs_result op_answered(opfs_agent *agent, const char *word);
opfs_result op_number_of(opfs_agent *agent, opfs_result result, uint64_t *number);
opfs_result op_ask(opfs_agent *agent);
opfs_result op_ask_plain(opfs_agent *agent);
opfs_result op_ask_number(opfs_agent *agent, uint64_t *number);
opfs_result op_ask_flag(opfs_agent *agent, bool *flag);
opfs_result op_ask_ref(opfs_agent *agent, opfs_ref *as);
opfs_result op_ask_plain_ref(opfs_agent *agent, opfs_ref *as);
opfs_result op_sure(opfs_agent *agent, bool is_right);

#endif
