// Replays a log of calls from standard input on a memory pool of zeros and writes its text to standard output.
//
// The pool's bytes are tiled by blocks, each with a header of 8 bytes: its size and its owner, 4 bytes each, lowest
// first. The queue has 32 places and an order, FIFO or by priority. Nothing else is kept between calls: each call tests
// the whole state, in one walk over the headers that also finds the block or the free run sought.
#define _POSIX_C_SOURCE 200809L
#include <errno.h>
#include <stdbool.h>
#include <stddef.h>
#include <stdint.h>
#include <stdlib.h>
#include <string.h>
#include <unistd.h>

#define TASKS 32
#define HEADER 8
#define MIN_BLOCK 12
#define MAX_POOL 65536
#define MAX_LOG 65536
#define MAX_LEFT (UINT32_C(1) << 31) // ticks left, one more than the greatest limit
#define FOREVER UINT32_MAX           // ticks left of a wait without limit
#define NOWHERE SIZE_MAX             // no place of a header
#define NO_NEED SIZE_MAX             // no free run is as large
#define BEST 1                       // the best priority
#define WORST 16                     // the worst priority

enum code {
    E_OK = 0,
    WAITING = 1,
    E_SYS = -5,
    E_PAR = -17,
    E_ID = -18,
    E_CTX = -25,
    E_OBJ = -41,
    E_RLWAI = -49,
    E_TMOUT = -50,
};

struct pool {
    uint8_t *bytes;
    size_t len;
};

// A waiting request. An unused place of the queue is all zeros.
struct entry {
    uint32_t task;
    uint32_t size; // as asked
    uint32_t left; // ticks left
    uint32_t priority;
};

// How requests stand in the queue: as they came, or best priority first and those of equal priority as they came.
enum order { FIFO = 0, PRIORITY = 1 };

struct queue {
    uint32_t order; // an enum order
    struct entry places[TASKS];
};

// What a get or a poll asks. A limit of -1 waits forever, 0 does not wait, n > 0 ends in tick n + 1 after the call.
struct request {
    uint32_t task;
    uint32_t size;
    uint32_t priority;
    int32_t limit;
};

// A task whose wait a call ended.
struct woken {
    uint32_t task;
    enum code code;
    size_t offset;
};

struct answer {
    enum code code;
    size_t offset;
    size_t woken_count;
    struct woken woken[TASKS];
};

// What the walk over the headers of a sound pool finds.
struct survey {
    size_t place;    // header of the block or free run sought, or NOWHERE
    size_t start;    // header of the free run that ends at that place; the place itself if none does
    size_t greatest; // size of the greatest free run, or 0
};

// ---- headers

static uint32_t read_u32(const uint8_t *bytes)
{
    return (uint32_t)bytes[0] | (uint32_t)bytes[1] << 8 | (uint32_t)bytes[2] << 16 | (uint32_t)bytes[3] << 24;
}

static void write_u32(uint8_t *bytes, uint32_t value)
{
    bytes[0] = (uint8_t)value;
    bytes[1] = (uint8_t)(value >> 8);
    bytes[2] = (uint8_t)(value >> 16);
    bytes[3] = (uint8_t)(value >> 24);
}

static size_t size_at(struct pool pool, size_t place)
{
    return read_u32(pool.bytes + place);
}

static uint32_t owner_at(struct pool pool, size_t place)
{
    return read_u32(pool.bytes + place + 4);
}

static void write_header(struct pool pool, size_t place, size_t size, uint32_t owner)
{
    write_u32(pool.bytes + place, (uint32_t)size);
    write_u32(pool.bytes + place + 4, owner);
}

// ---- blocks

static bool is_pool_length(size_t len)
{
    return len >= MIN_BLOCK && len <= MAX_POOL && len % 4 == 0;
}

// Bytes that a request of this size takes.
static size_t need_of(uint32_t size)
{
    return ((size_t)size + 3) / 4 * 4 + HEADER;
}

// Tests the pool and looks for the first free run of at least `need` bytes and for the live block at `wanted`; a
// caller seeks at most one of them. Answers whether the pool is sound.
static bool survey_pool(struct pool pool, size_t need, size_t wanted, struct survey *survey)
{
    size_t found = NOWHERE;
    size_t start = NOWHERE;
    size_t greatest = 0;
    size_t at = 0;
    size_t free_start = 0; // where the free run that ends at `at` begins; `at` if none does

    if (!is_pool_length(pool.len))
        return false;
    // MIN_BLOCK bytes or more are left. A block that ends past the pool ends the loop, at another place than pool.len.
    while (at <= pool.len - MIN_BLOCK) {
        const size_t size = size_at(pool, at);
        const uint32_t owner = owner_at(pool, at);
        if (size < MIN_BLOCK || size > MAX_POOL || size % 4 != 0 || owner > TASKS)
            return false;
        if (owner != 0) {
            if (at == wanted) {
                found = at;
                start = free_start;
            }
            free_start = at + size;
        } else {
            if (free_start < at)
                return false;
            if (size > greatest)
                greatest = size;
            if (size >= need && found == NOWHERE)
                found = start = at;
        }
        at += size;
    }
    *survey = (struct survey){found, start, greatest};
    return at == pool.len;
}

// The first free run of at least `need` bytes of a sound pool, or NOWHERE.
static size_t first_fit(struct pool pool, size_t need)
{
    size_t size;

    for (size_t at = 0; at < pool.len; at += size) {
        size = size_at(pool, at);
        if (owner_at(pool, at) == 0 && size >= need)
            return at;
    }
    return NOWHERE;
}

// Gives the free run at `place` to a task. A rest of MIN_BLOCK bytes or more stays free. Answers the block's offset.
static size_t grant(struct pool pool, size_t place, size_t need, uint32_t task)
{
    const size_t size = size_at(pool, place);
    const size_t rest = size - need;

    if (rest >= MIN_BLOCK) {
        write_header(pool, place, need, task);
        write_header(pool, place + need, rest, 0);
    } else {
        write_header(pool, place, size, task);
    }
    return place + HEADER;
}

// Frees the live block at `place`, joined with a free run behind it and one before it that begins at `start`. The
// headers swallowed become zero. Answers the size of the run.
static size_t free_block(struct pool pool, size_t place, size_t start)
{
    const size_t behind = place + size_at(pool, place);
    size_t end = behind;

    if (behind < pool.len && owner_at(pool, behind) == 0) {
        end += size_at(pool, behind);
        write_header(pool, behind, 0, 0);
    }
    if (start < place)
        write_header(pool, place, 0, 0);
    write_header(pool, start, end - start, 0);
    return end - start;
}

// ---- queue

static bool is_task(uint32_t task)
{
    return task >= 1 && task <= TASKS;
}

static bool is_size(uint32_t size, size_t len)
{
    return size >= 1 && size <= len - HEADER;
}

static bool is_priority(uint32_t priority)
{
    return priority >= BEST && priority <= WORST;
}

static bool is_order(uint32_t order)
{
    return order == FIFO || order == PRIORITY;
}

static bool is_entry(const struct entry *entry, size_t len)
{
    const bool is_left = entry->left >= 1 && (entry->left <= MAX_LEFT || entry->left == FOREVER);

    return is_task(entry->task) && is_size(entry->size, len) && is_left && is_priority(entry->priority);
}

// Whether the order and the entries are allowed, no task stands twice, a priority queue stands best first, and the
// places behind the last entry are all zeros.
static bool is_queue_sound(const struct queue *queue, size_t len)
{
    const bool by_priority = queue->order == PRIORITY;
    uint32_t best = BEST; // best priority that the next entry may have
    uint32_t tasks = 0;   // bit n - 1 stands for task n
    uint32_t bits = 0;
    size_t i = 0;

    if (!is_order(queue->order))
        return false;
    for (; i < TASKS && queue->places[i].task != 0; i++) {
        const struct entry *entry = &queue->places[i];
        if (!is_entry(entry, len) || entry->priority < best)
            return false;
        if (by_priority)
            best = entry->priority;
        const uint32_t task = UINT32_C(1) << (entry->task - 1);
        if (tasks & task)
            return false;
        tasks |= task;
    }
    for (; i < TASKS; i++) {
        const struct entry *entry = &queue->places[i];
        bits |= entry->task | entry->size | entry->left | entry->priority;
    }
    return bits == 0;
}

// The place of a task's entry, or TASKS. Task 0 gives the place behind the last entry.
static size_t find_task(const struct queue *queue, uint32_t task)
{
    size_t i = 0;

    while (i < TASKS && queue->places[i].task != task)
        i++;
    return i;
}

// Whether a request of this priority comes before everybody who waits. The head of a sound queue decides.
static bool is_next(const struct queue *queue, uint32_t priority)
{
    const struct entry *head = &queue->places[0];

    return head->task == 0 || (queue->order == PRIORITY && head->priority > priority);
}

// Puts an entry behind the others; in a priority queue only behind those of better or equal priority.
static void join(struct queue *queue, struct entry entry)
{
    struct entry *places = queue->places;
    size_t i = find_task(queue, 0);

    if (queue->order == PRIORITY) {
        for (; i > 0 && places[i - 1].priority > entry.priority; i--)
            places[i] = places[i - 1];
    }
    places[i] = entry;
}

static void remove_entries(struct queue *queue, size_t first, size_t count)
{
    struct entry *places = queue->places;

    if (count == 0)
        return;
    memmove(places + first, places + first + count, (TASKS - first - count) * sizeof *places);
    memset(places + TASKS - count, 0, count * sizeof *places);
}

static void wake(struct answer *answer, uint32_t task, enum code code, size_t offset)
{
    answer->woken[answer->woken_count++] = (struct woken){task, code, offset};
}

// Takes one tick from every limited wait. Those that reach none leave.
static void expire(struct queue *queue, struct answer *answer)
{
    struct entry *places = queue->places;
    size_t kept = 0;
    size_t i = 0;

    for (; i < TASKS && places[i].task != 0; i++) {
        struct entry *entry = &places[i];
        if (entry->left == 1) {
            wake(answer, entry->task, E_TMOUT, 0);
            continue;
        }
        if (entry->left != FOREVER)
            entry->left--;
        if (kept < i)
            places[kept] = *entry;
        kept++;
    }
    memset(places + kept, 0, (i - kept) * sizeof *places);
}

// ---- calls

// Tests pool and queue, and seeks as survey_pool does. The head, if any, must fit no free run.
static bool inspect(struct pool pool, const struct queue *queue, size_t need, size_t wanted, struct survey *survey)
{
    const struct entry *head = &queue->places[0];

    if (!survey_pool(pool, need, wanted, survey) || !is_queue_sound(queue, pool.len))
        return false;
    return head->task == 0 || need_of(head->size) > survey->greatest;
}

static void answer_with(struct answer *answer, enum code code, size_t offset)
{
    answer->code = code;
    answer->offset = offset;
    answer->woken_count = 0;
}

// Serves the queue from its head up to the first request that does not fit. No free run is larger than `most`.
static void serve(struct pool pool, struct queue *queue, size_t most, struct answer *answer)
{
    size_t served = 0;

    for (; served < TASKS && queue->places[served].task != 0; served++) {
        const struct entry *head = &queue->places[served];
        const size_t need = need_of(head->size);
        if (need > most)
            break;
        const size_t place = first_fit(pool, need);
        if (place == NOWHERE)
            break;
        wake(answer, head->task, E_OK, grant(pool, place, need, head->task));
    }
    remove_entries(queue, 0, served);
}

static enum code create(struct pool pool, uint32_t order, struct queue *queue)
{
    memset(queue, 0, sizeof *queue);
    if (!is_pool_length(pool.len) || !is_order(order))
        return E_PAR;
    write_header(pool, 0, pool.len, 0);
    queue->order = order;
    return E_OK;
}

// The tests of a request in a sound state.
static enum code judge(const struct queue *queue, size_t len, struct request request)
{
    if (!is_task(request.task))
        return E_ID;
    if (!is_size(request.size, len) || request.limit < -1 || !is_priority(request.priority))
        return E_PAR;
    if (find_task(queue, request.task) < TASKS)
        return E_CTX;
    return E_OK;
}

static void get(struct pool pool, struct queue *queue, struct request request, struct answer *answer)
{
    const size_t need = need_of(request.size);
    struct survey survey;

    if (!inspect(pool, queue, need, NOWHERE, &survey)) {
        answer_with(answer, E_SYS, 0);
        return;
    }
    const enum code code = judge(queue, pool.len, request);
    if (code != E_OK) {
        answer_with(answer, code, 0);
    } else if (survey.place != NOWHERE && is_next(queue, request.priority)) {
        answer_with(answer, E_OK, grant(pool, survey.place, need, request.task));
    } else if (request.limit == 0) {
        answer_with(answer, E_TMOUT, 0);
    } else {
        const uint32_t left = request.limit == -1 ? FOREVER : (uint32_t)request.limit + 1;
        join(queue, (struct entry){request.task, request.size, left, request.priority});
        answer_with(answer, WAITING, 0);
    }
}

static void release(struct pool pool, struct queue *queue, size_t offset, struct answer *answer)
{
    const size_t wanted = offset < HEADER ? NOWHERE : offset - HEADER;
    struct survey survey;

    if (!inspect(pool, queue, NO_NEED, wanted, &survey)) {
        answer_with(answer, E_SYS, 0);
        return;
    }
    if (survey.place == NOWHERE) {
        answer_with(answer, E_PAR, 0);
        return;
    }
    answer_with(answer, E_OK, 0);
    const size_t run = free_block(pool, survey.place, survey.start);
    serve(pool, queue, run > survey.greatest ? run : survey.greatest, answer);
}

static void cancel(struct pool pool, struct queue *queue, uint32_t task, struct answer *answer)
{
    struct survey survey;

    if (!inspect(pool, queue, NO_NEED, NOWHERE, &survey)) {
        answer_with(answer, E_SYS, 0);
        return;
    }
    if (!is_task(task)) {
        answer_with(answer, E_ID, 0);
        return;
    }
    const size_t place = find_task(queue, task);
    if (place == TASKS) {
        answer_with(answer, E_OBJ, 0);
        return;
    }
    answer_with(answer, E_OK, 0);
    remove_entries(queue, place, 1);
    wake(answer, task, E_RLWAI, 0);
    serve(pool, queue, survey.greatest, answer);
}

static void tick(struct pool pool, struct queue *queue, struct answer *answer)
{
    struct survey survey;

    if (!inspect(pool, queue, NO_NEED, NOWHERE, &survey)) {
        answer_with(answer, E_SYS, 0);
        return;
    }
    answer_with(answer, E_OK, 0);
    expire(queue, answer);
    serve(pool, queue, survey.greatest, answer);
}

// ---- log

// A get or poll without a priority has the worst. The mark of a priority pool stands only directly after the length.
enum kind { GET = 1, POLL, RELEASE, CANCEL, TICK, PRIORITY_GET, PRIORITY_POLL, PRIORITY_POOL };

#define MAX_LIMIT_FIELD (UINT32_C(1) << 31)

// The rest of a log.
struct reader {
    const uint8_t *at;
    const uint8_t *end;
};

struct record {
    uint32_t kind;
    uint32_t fields[4];
};

// Reads a number of seven-bit groups, lowest first. False if it is cut off, not in its shortest form or above 2^32 - 1.
static bool read_number(struct reader *log, uint32_t *value)
{
    uint32_t sum = 0;

    for (unsigned shift = 0; log->at < log->end; shift += 7) {
        const uint8_t byte = *log->at++;
        if (shift == 28 && byte > 15)
            return false;
        sum |= (uint32_t)(byte & 0x7F) << shift;
        if (byte < 0x80) {
            *value = sum;
            return byte != 0 || shift == 0;
        }
    }
    return false;
}

// False if the record is bad.
static bool read_record(struct reader *log, struct record *record)
{
    static const size_t field_counts[] = {
        [GET] = 3, [POLL] = 2, [RELEASE] = 1, [CANCEL] = 1, [TICK] = 0, [PRIORITY_GET] = 4, [PRIORITY_POLL] = 3,
    };

    if (!read_number(log, &record->kind) || record->kind < GET || record->kind > PRIORITY_POLL)
        return false;
    for (size_t i = 0; i < field_counts[record->kind]; i++) {
        if (!read_number(log, &record->fields[i]))
            return false;
    }
    const bool has_limit = record->kind == GET || record->kind == PRIORITY_GET;
    return !has_limit || record->fields[2] <= MAX_LIMIT_FIELD;
}

// Takes the mark of a priority pool if the rest of the log begins with it. A number below 128 is a single byte.
static enum order read_order(struct reader *log)
{
    if (log->at == log->end || *log->at != PRIORITY_POOL)
        return FIFO;
    log->at++;
    return PRIORITY;
}

// A limit field is the limit plus 1.
static int32_t limit_of(uint32_t field)
{
    return (int32_t)((int64_t)field - 1);
}

// Makes the call of a record.
static void call(const struct record *record, struct pool pool, struct queue *queue, struct answer *answer)
{
    const uint32_t *fields = record->fields;

    switch (record->kind) {
    case GET:
        get(pool, queue, (struct request){fields[0], fields[1], WORST, limit_of(fields[2])}, answer);
        break;
    case POLL:
        get(pool, queue, (struct request){fields[0], fields[1], WORST, 0}, answer);
        break;
    case RELEASE:
        release(pool, queue, fields[0], answer);
        break;
    case CANCEL:
        cancel(pool, queue, fields[0], answer);
        break;
    case PRIORITY_GET:
        get(pool, queue, (struct request){fields[0], fields[1], fields[3], limit_of(fields[2])}, answer);
        break;
    case PRIORITY_POLL:
        get(pool, queue, (struct request){fields[0], fields[1], fields[2], 0}, answer);
        break;
    default:
        tick(pool, queue, answer);
        break;
    }
}

// ---- text

#define TEXT_SPACE 65536
#define LONGEST_LINE 64
#define LONGEST_STEP ((1 + TASKS + 1) * LONGEST_LINE) // an answer, the tasks it woke, and the last line

// Text that is gathered before it is written.
struct text {
    size_t end;
    char bytes[TEXT_SPACE];
};

static bool flush(struct text *text)
{
    size_t done = 0;

    while (done < text->end) {
        const ssize_t count = write(STDOUT_FILENO, text->bytes + done, text->end - done);
        if (count < 0 && errno != EINTR)
            return false;
        if (count > 0)
            done += (size_t)count;
    }
    text->end = 0;
    return true;
}

static void put_string(struct text *text, const char *string)
{
    const size_t len = strlen(string);

    memcpy(text->bytes + text->end, string, len);
    text->end += len;
}

static void put_char(struct text *text, char c)
{
    text->bytes[text->end++] = c;
}

static void put_number(struct text *text, size_t value)
{
    char digits[20];
    size_t count = 0;

    do {
        digits[count++] = (char)('0' + value % 10);
        value /= 10;
    } while (value != 0);
    while (count > 0)
        put_char(text, digits[--count]);
}

static void put_code(struct text *text, enum code code)
{
    const int number = code;

    if (number < 0)
        put_char(text, '-');
    put_number(text, (size_t)abs(number));
}

static void put_result(struct text *text, enum code code, size_t offset)
{
    put_code(text, code);
    put_char(text, ' ');
    put_number(text, offset);
    put_char(text, '\n');
}

static void put_answer(struct text *text, const struct answer *answer)
{
    put_result(text, answer->code, answer->offset);
    for (size_t i = 0; i < answer->woken_count; i++) {
        const struct woken *woken = &answer->woken[i];
        put_string(text, "w ");
        put_number(text, woken->task);
        put_char(text, ' ');
        put_result(text, woken->code, woken->offset);
    }
}

// A number between two strings.
static void put_line(struct text *text, const char *before, size_t number, const char *behind)
{
    put_string(text, before);
    put_number(text, number);
    put_string(text, behind);
}

// ---- program

static bool read_input(uint8_t *bytes, size_t space, size_t *len)
{
    *len = 0;
    while (*len < space) {
        const ssize_t count = read(STDIN_FILENO, bytes + *len, space - *len);
        if (count == 0)
            return true;
        if (count < 0 && errno != EINTR)
            return false;
        if (count > 0)
            *len += (size_t)count;
    }
    return true;
}

// Plays the records from log.at on. Answers whether all text but the last part could be written.
static bool play(const uint8_t *start, struct reader log, struct pool pool, struct queue *queue, struct text *text)
{
    struct record record;
    struct answer answer;
    size_t records = 0;

    while (log.at < log.end) {
        const size_t place = (size_t)(log.at - start);
        if (text->end > TEXT_SPACE - LONGEST_STEP && !flush(text))
            return false;
        if (!read_record(&log, &record)) {
            put_line(text, "bad log at ", place, "\n");
            return true;
        }
        call(&record, pool, queue, &answer);
        put_answer(text, &answer);
        records++;
    }
    put_line(text, "end ", records, " records\n");
    return true;
}

static bool replay(const uint8_t *start, size_t len, struct text *text)
{
    static uint8_t buffer[MAX_POOL];
    struct reader log = {start, start + len};
    struct queue queue;
    uint32_t number;

    if (len > MAX_LOG) {
        put_string(text, "log too long\n");
        return true;
    }
    if (!read_number(&log, &number)) {
        put_line(text, "bad log at ", 0, "\n");
        return true;
    }
    const struct pool pool = {buffer, number};
    const enum code code = create(pool, read_order(&log), &queue);
    if (code != E_OK) {
        put_string(text, "pool refused ");
        put_code(text, code);
        put_char(text, '\n');
        return true;
    }
    put_line(text, "pool ", pool.len, "\n");
    return play(start, log, pool, &queue, text);
}

int main(void)
{
    static uint8_t input[MAX_LOG + 1];
    static struct text text;
    size_t len;

    if (!read_input(input, sizeof input, &len) || !replay(input, len, &text) || !flush(&text))
        return EXIT_FAILURE;
    return EXIT_SUCCESS;
}
