/* Lines to the child and from it. */
#define _POSIX_C_SOURCE 200809L
#include "opfs_lines.h"

#include <errno.h>
#include <fcntl.h>
#include <signal.h>
#include <spawn.h>
#include <stdlib.h>
#include <string.h>
#include <sys/wait.h>
#include <time.h>
#include <unistd.h>

extern char **environ;

enum { READ_AT_ONCE = 65536, MOST_LINE = 1 << 18 };
static const opfs_ref TAKEN = UINT32_MAX;

static const char *const NAMES[] = {
    "ok", "TypeError", "NotFoundError", "TypeMismatchError", "InvalidModificationError", "NoModificationAllowedError", "InvalidStateError", "SecurityError",
    "QuotaExceededError", "NameLimit", "MetaFull", "DataFull", "DiskFault", "Stuck", "Unbound", "NoAgent", "Waiting", "Ended", "NotJson", "BadShape",
    "UnknownStep", "TooMany", "NoMemory", "NotStarted", "Gone", "Odd",
};

const char *opfs_name(opfs_result result) {
    return (size_t)result < sizeof NAMES / sizeof *NAMES ? NAMES[result] : "unknown";
}

/* Texts that grow. */

bool op_grow(struct text *text, size_t more) {
    if (text->failed || more > SIZE_MAX / 4 - text->length) return !(text->failed = true);
    size_t room = text->room ? text->room : 4096;
    while (room < text->length + more + 1) room *= 2;
    if (room == text->room) return true;
    char *at = realloc(text->at, room);
    if (!at) return !(text->failed = true);
    text->at = at;
    text->room = room;
    return true;
}

static void put(struct text *text, const char *bytes, size_t length) {
    if (!op_grow(text, length)) return;
    memcpy(text->at + text->length, bytes, length);
    text->length += length;
}

void op_text(struct text *text, const char *bytes) {
    put(text, bytes, strlen(bytes));
}

static void put_number(struct text *text, uint64_t number) {
    char digits[24];
    put(text, digits, (size_t)snprintf(digits, sizeof digits, "%llu", (unsigned long long)number));
}

void op_json(struct text *text, const char *bytes, size_t length) {
    if (!op_grow(text, 6 * length + 2)) return;
    char *to = text->at + text->length;
    *to++ = '"';
    for (size_t i = 0; i < length; i++) {
        unsigned char byte = (unsigned char)bytes[i];
        if (byte < 0x20) {
            to += snprintf(to, 7, "\\u%04x", byte);
            continue;
        }
        if (byte == '"' || byte == '\\') *to++ = '\\';
        *to++ = (char)byte;
    }
    *to++ = '"';
    text->length = (size_t)(to - text->at);
}

/* By arithmetic, without a table, so that a compiler may take many at once. */
static char hex_digit(unsigned value) {
    return (char)(value + '0' + (value > 9 ? 'a' - '0' - 10 : 0));
}

static void put_hex(struct text *text, const unsigned char *bytes, size_t length) {
    if (!op_grow(text, 2 * length)) return;
    char *to = text->at + text->length;
    for (size_t i = 0; i < length; i++) {
        to[2 * i] = hex_digit(bytes[i] >> 4);
        to[2 * i + 1] = hex_digit(bytes[i] & 15u);
    }
    text->length += 2 * length;
}

/* Bytes in the form of a step that is the shortest for them. */
void op_data(struct text *text, const unsigned char *bytes, size_t length) {
    bool is_plain = true, is_same = length > 0;
    for (size_t i = 0; i < length && (is_plain || is_same); i++) {
        is_plain = is_plain && bytes[i] >= 0x20 && bytes[i] < 0x7f;
        is_same = is_same && bytes[i] == bytes[0];
    }
    if (is_same) {
        op_text(text, "{\"fill\":");
        put_number(text, bytes[0]);
        op_text(text, ",\"count\":");
        put_number(text, length);
        op_text(text, "}");
    } else if (is_plain) {
        op_json(text, (const char *)bytes, length);
    } else {
        op_text(text, "{\"hex\":\"");
        put_hex(text, bytes, length);
        op_text(text, "\"}");
    }
}

/* The child. */

void op_shut(int *file) {
    if (*file >= 0) close(*file);
    *file = -1;
}

/* Waits for the child, and gives its status. */
int op_reap(opfs *store) {
    int status = -1;
    while (store->child > 0 && waitpid(store->child, &status, 0) < 0 && errno == EINTR) {}
    store->child = 0;
    return status;
}

/* Leaves the child for good: it is killed where it did not end. */
opfs_result op_give_up(opfs *store, opfs_result why) {
    op_shut(&store->to);
    op_shut(&store->from);
    if (store->child > 0) kill(store->child, SIGKILL);
    op_reap(store);
    if (!store->failed) store->failed = why;
    return store->failed;
}

/* A pipe that no other child gets, above the standard files. */
static bool make_pipe(int ends[2]) {
    int low[2];
    if (pipe(low)) return false;
    for (int i = 0; i < 2; i++) {
        ends[i] = fcntl(low[i], F_DUPFD_CLOEXEC, 3);
        close(low[i]);
    }
    if (ends[0] >= 0 && ends[1] >= 0) return true;
    op_shut(&ends[0]);
    op_shut(&ends[1]);
    return false;
}

/* Starts the program in a group of its own, so that a terminal's interrupt does not end it. */
static bool spawn(opfs *store, const char *serve, const char *image, int input, int output) {
    char *words[] = {(char *)serve, (char *)image, NULL};
    posix_spawn_file_actions_t files;
    posix_spawnattr_t own;
    if (posix_spawn_file_actions_init(&files)) return false;
    if (posix_spawnattr_init(&own)) return posix_spawn_file_actions_destroy(&files), false;
    sigset_t none;
    sigemptyset(&none);
    bool done = !posix_spawn_file_actions_adddup2(&files, input, 0) && !posix_spawn_file_actions_adddup2(&files, output, 1)
        && !posix_spawnattr_setpgroup(&own, 0) && !posix_spawnattr_setsigmask(&own, &none)
        && !posix_spawnattr_setflags(&own, POSIX_SPAWN_SETPGROUP | POSIX_SPAWN_SETSIGMASK)
        && !posix_spawnp(&store->child, serve, &files, &own, words, environ);
    posix_spawnattr_destroy(&own);
    posix_spawn_file_actions_destroy(&files);
    if (!done) store->child = 0;
    return done;
}

bool op_start(opfs *store, const char *serve, const char *image) {
    int heard[2], told[2];
    if (!serve) serve = getenv("OPFS_SERVE");
    if (!serve || !*serve) serve = "opfs_serve";
    if (!make_pipe(heard)) return false;
    if (!make_pipe(told)) return op_shut(&heard[0]), op_shut(&heard[1]), false;
    bool done = spawn(store, serve, image, heard[0], told[1]);
    op_shut(&heard[0]);
    op_shut(&told[1]);
    store->to = heard[1];
    store->from = told[0];
    return done;
}

/* Writes all of it, without the signal that a closed pipe would raise. */
static bool write_all(int file, const char *bytes, size_t length) {
    sigset_t one, before, waiting;
    sigemptyset(&one);
    sigaddset(&one, SIGPIPE);
    sigpending(&waiting);
    if (pthread_sigmask(SIG_BLOCK, &one, &before)) return false;
    ssize_t done = 0;
    while (length > 0 && (done >= 0 || errno == EINTR)) {
        done = write(file, bytes, length);
        bytes += done > 0 ? done : 0;
        length -= done > 0 ? (size_t)done : 0;
    }
    if (done < 0 && errno == EPIPE && !sigismember(&waiting, SIGPIPE)) sigtimedwait(&one, NULL, &(struct timespec){0, 0});
    pthread_sigmask(SIG_SETMASK, &before, NULL);
    return length == 0;
}

bool op_send(opfs *store, const char *lines, size_t length) {
    for (const char *line = lines, *last = lines + length; store->record && line < last;) {
        const char *end = memchr(line, '\n', (size_t)(last - line));
        size_t size = (size_t)((end ? end + 1 : last) - line);
        if (fputs("> ", store->record) >= 0) fwrite(line, 1, size, store->record);
        line += size;
    }
    return write_all(store->to, lines, length);
}

/* Reads more of what the child tells. False at its end. */
static bool read_more(opfs *store) {
    struct text *in = &store->in;
    memmove(in->at, in->at + store->next, in->length - store->next);
    in->length -= store->next;
    store->line = store->next = 0;
    if (in->length > MOST_LINE || !op_grow(in, READ_AT_ONCE)) return op_give_up(store, OPFS_ODD), false;
    ssize_t got;
    do got = read(store->from, in->at + in->length, READ_AT_ONCE);
    while (got < 0 && errno == EINTR);
    if (got <= 0) return false;
    in->length += (size_t)got;
    return true;
}

/* The next line of the child, with a 0 at its end; NULL where none comes any more. */
char *op_hear(opfs *store) {
    struct text *in = &store->in;
    size_t looked = store->next;
    char *end;
    while (!(end = memchr(in->at + looked, '\n', in->length - looked))) {
        looked = in->length - store->next;
        if (!read_more(store)) return NULL;
    }
    *end = 0;
    store->line = store->next;
    store->next = (size_t)(end - in->at) + 1;
    if (store->record) fprintf(store->record, "%s\n", in->at + store->line);
    return in->at + store->line;
}

/* Answers. */

bool op_number_in(char **at, uint64_t *number) {
    if (**at != ' ' || (*at)[1] < '0' || (*at)[1] > '9' || ((*at)[1] == '0' && (*at)[2] >= '0' && (*at)[2] <= '9')) return false;
    errno = 0;
    *number = strtoull(*at + 1, at, 10);
    return errno == 0;
}

bool op_two_numbers(char *rest, uint64_t *first, uint64_t *second) {
    return op_number_in(&rest, first) && op_number_in(&rest, second) && !*rest;
}

/* A digit in lower case; -1 for none. */
static int digit(char c) {
    static const signed char VALUES[256] = {['0'] = 1, 2, 3, 4, 5, 6, 7, 8, 9, 10, ['a'] = 11, 12, 13, 14, 15, 16};
    return VALUES[(unsigned char)c] - 1;
}

bool op_bytes_in(char *rest, unsigned char *bytes, size_t most, size_t *got) {
    uint64_t count;
    if (!op_number_in(&rest, &count) || count > most || strlen(rest) != (count ? 2 * count + 1 : 0) || (count && *rest++ != ' ')) return false;
    for (size_t i = 0; i < count; i++) {
        int high = digit(rest[2 * i]), low = digit(rest[2 * i + 1]);
        if (high < 0 || low < 0) return false;
        bytes[i] = (unsigned char)(high << 4 | low);
    }
    *got = count;
    return true;
}

/* The byte that stands behind a backslash; -1 for none. */
static int escaped(char **at) {
    static const char FROM[] = "\"\\bfnrt", TO[] = "\"\\\b\f\n\r\t";
    char c = *(*at)++, *found = c ? strchr(FROM, c) : NULL;
    if (found) return TO[found - FROM];
    if (c != 'u' || strncmp(*at, "00", 2) || digit((*at)[2]) < 0 || digit((*at)[2]) > 1 || digit((*at)[3]) < 0) return -1;
    *at += 4;
    return digit((*at)[-2]) << 4 | digit((*at)[-1]);
}

char *op_room(opfs *store, const char *rest) {
    store->out.length = 0;
    return op_grow(&store->out, strlen(rest)) ? store->out.at : NULL;
}

bool op_name_in(char **at, char **to) {
    if (*(*at)++ != '"') return false;
    while (**at && **at != '"') {
        int byte = *(*at)++;
        if (byte == '\\' && (byte = escaped(at)) < 0) return false;
        *(*to)++ = (char)byte;
    }
    return **at == '"' && (*at)++;
}

/* Whether a refusal carries what it has to. */
static bool carries(opfs_result refusal, char *rest) {
    static const char *const LOCKS[] = {" open", " taken-exclusive", " taken-shared", " taken-read-only"};
    uint64_t number;
    if (refusal == OPFS_QUOTA_EXCEEDED || refusal == OPFS_META_FULL || refusal == OPFS_DATA_FULL)
        return op_number_in(&rest, &number) && op_number_in(&rest, &number) && op_number_in(&rest, &number) && !*rest;
    for (size_t i = 0; refusal == OPFS_NO_MODIFICATION && i < 4; i++) {
        char *behind = rest + strlen(LOCKS[i]);
        if (!strncmp(rest, LOCKS[i], strlen(LOCKS[i])) && op_number_in(&behind, &number) && !*behind) return true;
    }
    return refusal != OPFS_NO_MODIFICATION && !*rest;
}

/* The result of a name, with what stands behind it. OPFS_ODD where it is none of these. */
opfs_result op_result_in(char *text, opfs_result first, opfs_result last, char **rest) {
    size_t length = strcspn(text, " ");
    *rest = text + length;
    for (opfs_result it = first; it <= last; it++)
        if (strlen(NAMES[it]) == length && !memcmp(NAMES[it], text, length)) return it;
    return OPFS_ODD;
}

/* What the line says of a call of the agent; its number is counted. */
opfs_result op_answer_in(opfs_agent *agent, char *line, const char *word) {
    char front[64], *rest;
    int length = snprintf(front, sizeof front, "%u.%llu %s ", agent->number, (unsigned long long)agent->calls + 1, word);
    if (strncmp(line, front, (size_t)length)) return OPFS_ODD;
    opfs_result result = op_result_in(line + length, OPFS_OK, OPFS_UNBOUND, &rest);
    if (result != OPFS_OK && (result == OPFS_ODD || !carries(result, rest))) return OPFS_ODD;
    agent->calls++;
    agent->store->rest = rest;
    return result;
}

/* Hears the line of an answer, behind those of what was cleared for it. */
char *op_hear_answer(opfs *store) {
    char *line = op_hear(store);
    while (line && !strncmp(line, "evict ", 6)) {
        store->evicted++;
        line = op_hear(store);
    }
    if (!line) op_give_up(store, OPFS_GONE);
    return line;
}

/* Steps. */

static struct text *put_word(opfs_agent *agent, const char *word) {
    struct text *out = &agent->store->out;
    put_number(out, agent->number);
    op_text(out, " {\"do\":\"");
    op_text(out, word);
    op_text(out, "\"");
    return out;
}

struct text *op_begin(opfs_agent *agent, const char *word) {
    agent->store->out.length = 0;
    agent->store->out.failed = false;
    agent->store->word = word;
    return put_word(agent, word);
}

struct text *op_begin_next(opfs_agent *agent, const char *word) {
    op_text(&agent->store->out, "}\n");
    return put_word(agent, word);
}

void op_member(struct text *out, const char *name) {
    op_text(out, ",\"");
    op_text(out, name);
    op_text(out, "\":");
}

void op_ref(struct text *out, const char *name, opfs_ref ref) {
    op_member(out, name);
    op_text(out, "\"v");
    put_number(out, ref);
    op_text(out, "\"");
}

void op_member_text(struct text *out, const char *name, const char *text) {
    op_member(out, name);
    op_json(out, text, strlen(text));
}

void op_member_number(struct text *out, const char *name, uint64_t number) {
    op_member(out, name);
    put_number(out, number);
}

void op_true(struct text *out, const char *name) {
    op_member(out, name);
    op_text(out, "true");
}

opfs_result op_send_step(opfs_agent *agent) {
    opfs *store = agent->store;
    if (store->failed) return store->failed;
    if (agent->ended) return OPFS_ENDED;
    if (agent->waits) return OPFS_WAITING;
    op_text(&store->out, "}\n");
    if (store->out.failed) return OPFS_NO_MEMORY;
    return op_send(store, store->out.at, store->out.length) ? OPFS_OK : op_give_up(store, OPFS_GONE);
}

/* What the child answers to a step that was sent. */
opfs_result op_answered(opfs_agent *agent, const char *word) {
    opfs *store = agent->store;
    char *line = op_hear_answer(store);
    if (!line) return store->failed;
    opfs_result result = strncmp(line, "? ", 2) ? op_answer_in(agent, line, word) : op_result_in(line + 2, OPFS_NO_AGENT, OPFS_TOO_MANY, &store->rest);
    return result == OPFS_ODD ? op_give_up(store, OPFS_ODD) : result;
}

/* Makes the call that was put together. */
opfs_result op_ask(opfs_agent *agent) {
    opfs_result result = op_send_step(agent);
    return result ? result : op_answered(agent, agent->store->word);
}

/* The call is done, and its answer is right or odd. */
opfs_result op_sure(opfs_agent *agent, bool is_right) {
    return is_right ? OPFS_OK : op_give_up(agent->store, OPFS_ODD);
}

opfs_result op_ask_plain(opfs_agent *agent) {
    opfs_result result = op_ask(agent);
    return result ? result : op_sure(agent, !*agent->store->rest);
}

opfs_result op_number_of(opfs_agent *agent, opfs_result result, uint64_t *number) {
    return result ? result : op_sure(agent, op_number_in(&agent->store->rest, number) && !*agent->store->rest);
}

opfs_result op_ask_number(opfs_agent *agent, uint64_t *number) {
    return op_number_of(agent, op_ask(agent), number);
}

opfs_result op_ask_flag(opfs_agent *agent, bool *flag) {
    opfs_result result = op_ask(agent);
    if (result) return result;
    *flag = !strcmp(agent->store->rest, " true");
    return op_sure(agent, *flag || !strcmp(agent->store->rest, " false"));
}

/* A variable that is free; 0 where there is no memory. */
static opfs_ref take(opfs_agent *agent) {
    opfs_ref ref = agent->first_free;
    if (!ref && agent->names + 1 >= agent->room) {
        opfs_ref room = agent->room ? 2 * agent->room : 16, *links = realloc(agent->links, room * sizeof *links);
        if (!links) return 0;
        agent->links = links;
        agent->room = room;
    }
    if (!ref) ref = ++agent->names;
    else agent->first_free = agent->links[ref];
    agent->links[ref] = TAKEN;
    return ref;
}

void opfs_drop(opfs_agent *agent, opfs_ref ref) {
    if (!ref || ref > agent->names || agent->links[ref] != TAKEN) return;
    agent->links[ref] = agent->first_free;
    agent->first_free = ref;
}

/* Makes a call that binds a variable. */
opfs_result op_ask_ref(opfs_agent *agent, opfs_ref *as) {
    opfs_ref ref = take(agent);
    if (!ref) return OPFS_NO_MEMORY;
    op_ref(&agent->store->out, "as", ref);
    opfs_result result = op_ask(agent);
    if (result) opfs_drop(agent, ref);
    else *as = ref;
    return result;
}

opfs_result op_ask_plain_ref(opfs_agent *agent, opfs_ref *as) {
    opfs_result result = op_ask_ref(agent, as);
    return result ? result : op_sure(agent, !*agent->store->rest);
}
