/*
 * Checks of the calls of seats.h at their bounds. Prints a line for each check that fails, then
 * how many there were. Status 1 if one failed.
 *
 * What a message says, and which refusal comes first, is worked out here a second time from
 * docs/FORMATS.md and docs/REFUSALS.md (decode, wanted), so that two readers check each other.
 * A few cases are spelled out in numbers besides, so that not everything hangs on that.
 *
 * All areas come from malloc in exactly the size that is told: valgrind sees a call that reads or
 * writes one element too many.
 */
#include "seats.h"

#include <inttypes.h>
#include <stdarg.h>
#include <stdbool.h>
#include <stdio.h>
#include <stdlib.h>
#include <string.h>

/* ---- Counting checks */

static unsigned long checks;
static unsigned long failures;

/* What is being tried, for the line of a check that fails. */
static char subject[120];

static void trying(const char *format, ...)
{
    va_list values;
    va_start(values, format);
    vsnprintf(subject, sizeof subject, format, values);
    va_end(values);
}

static void check(bool holds, const char *format, ...)
{
    checks++;
    if (holds)
        return;
    failures++;
    printf("%s: ", subject);
    va_list values;
    va_start(values, format);
    vprintf(format, values);
    va_end(values);
    printf("\n");
}

/* ---- Areas */

/*
 * An area of exactly so many bytes. The calls take no null pointer, so one of 0 bytes needs an
 * address too; the C library may refuse that, and then this test says so and stops.
 */
static void *area(size_t size)
{
    void *start = malloc(size);
    if (start == NULL) {
        fprintf(stderr, "host/test: no area of %zu bytes\n", size);
        exit(2);
    }
    return start;
}

static void *copied(const void *from, size_t size)
{
    void *start = area(size);
    memcpy(start, from, size);
    return start;
}

/* What the areas to be written hold before a call. No message here says these numbers. */
static uint64_t field_before(size_t i)
{
    return UINT64_C(0xa5a5a5a5a5a5a500) + i;
}

static uint32_t part_before(size_t i)
{
    return UINT32_C(0x5a5a5a00) + (uint32_t)i;
}

/* ---- Messages: writing them, and the second reader */

enum {
    LONGEST = 3124,             /* bytes of the longest message */
    LATEST_BITS = 40,           /* of clocks and times */
    ENTRIES_ROOM = 65           /* one entry more than there may be, so that too many can be tried */
};

struct entry {
    uint64_t seat;
    uint64_t word;
    uint32_t mark;
    uint32_t timestamp[SEATS_MOST_REPLICAS];
};

struct contents {
    uint8_t form;
    uint8_t kind;
    uint8_t n;
    uint8_t sender;
    uint32_t group;
    uint16_t count;
    uint64_t clock;
    uint32_t timestamp[SEATS_MOST_REPLICAS];
    struct entry entries[ENTRIES_ROOM];
};

struct message {
    size_t len;
    uint8_t bytes[SEATS_MESSAGE_ROOM];
};

static void put(struct message *message, uint64_t number, size_t width)
{
    for (size_t i = 0; i < width; i++)
        message->bytes[message->len++] = (uint8_t)(number >> (8 * i));
}

static uint64_t get(const uint8_t *bytes, size_t at, size_t width)
{
    uint64_t number = 0;
    for (size_t i = 0; i < width; i++)
        number += (uint64_t)bytes[at + i] << (8 * i);
    return number;
}

static size_t entry_size(size_t n)
{
    return 20 + 4 * n;
}

static size_t entries_at(size_t n)
{
    return 24 + 4 * n;
}

static struct message encode(const struct contents *contents)
{
    struct message message = {0};
    size_t n = contents->n;
    put(&message, contents->form, 1);
    put(&message, contents->kind, 1);
    put(&message, n, 1);
    put(&message, contents->sender, 1);
    put(&message, contents->group, 4);
    put(&message, contents->count, 2);
    put(&message, 24, 2);
    put(&message, entries_at(n), 2);
    put(&message, entries_at(n) + contents->count * entry_size(n), 2);
    put(&message, contents->clock, 8);
    for (size_t p = 0; p < n; p++)
        put(&message, contents->timestamp[p], 4);
    for (size_t i = 0; i < contents->count; i++) {
        const struct entry *entry = &contents->entries[i];
        put(&message, entry->seat, 8);
        put(&message, entry->word, 8);
        put(&message, entry->mark, 4);
        for (size_t p = 0; p < n; p++)
            put(&message, entry->timestamp[p], 4);
    }
    return message;
}

static bool keeps_its_rule(const struct entry *entry, const struct contents *contents)
{
    uint64_t most = contents->kind == SEATS_COUNTS ? UINT32_MAX : UINT16_MAX;
    bool zeros = true, under = true;
    for (size_t p = 0; p < contents->n; p++) {
        zeros = zeros && entry->timestamp[p] == 0;
        under = under && entry->timestamp[p] <= contents->timestamp[p];
    }
    switch (entry->mark) {
    case SEATS_VALUE:
        return entry->word <= most && zeros;
    case SEATS_TOMBSTONE:
        return entry->word >> LATEST_BITS == 0 && under;
    default:
        return false;
    }
}

/* What bytes say if they are a message of this kind, or by which number they are refused. */
static uint8_t decode(uint8_t kind, const uint8_t *bytes, size_t len, struct contents *contents)
{
    memset(contents, 0, sizeof *contents);
    if (len < 24)
        return 20;
    contents->form = bytes[0];
    contents->kind = bytes[1];
    contents->n = bytes[2];
    contents->sender = bytes[3];
    if (contents->form != 1)
        return 21;
    size_t n = contents->n;
    if (contents->kind != kind || n == 0 || n > SEATS_MOST_REPLICAS || contents->sender >= n)
        return 22;
    contents->group = (uint32_t)get(bytes, 4, 4);
    contents->count = (uint16_t)get(bytes, 8, 2);
    size_t length = entries_at(n) + contents->count * entry_size(n);
    bool laid_out = contents->count <= SEATS_MOST_ENTRIES && get(bytes, 10, 2) == 24
        && get(bytes, 12, 2) == entries_at(n) && get(bytes, 14, 2) == length && len == length;
    if (!laid_out)
        return 23;
    contents->clock = get(bytes, 16, 8);
    if (contents->clock >> LATEST_BITS != 0)
        return 24;
    for (size_t p = 0; p < n; p++)
        contents->timestamp[p] = (uint32_t)get(bytes, 24 + 4 * p, 4);
    bool rising = true, lawful = true;
    for (size_t i = 0; i < contents->count; i++) {
        struct entry *entry = &contents->entries[i];
        size_t at = entries_at(n) + i * entry_size(n);
        entry->seat = get(bytes, at, 8);
        entry->word = get(bytes, at + 8, 8);
        entry->mark = (uint32_t)get(bytes, at + 16, 4);
        for (size_t p = 0; p < n; p++)
            entry->timestamp[p] = (uint32_t)get(bytes, at + 20 + 4 * p, 4);
        rising = rising && (i == 0 || entry[-1].seat < entry->seat);
        lawful = lawful && keeps_its_rule(entry, contents);
    }
    if (!rising)
        return 25;
    return lawful ? 0 : 26;
}

/* ---- The readers: one call, checked against what is wanted of it */

struct call {
    bool entry;             /* seats_read_entry, and not seats_read_head */
    uint8_t kind;
    const uint8_t *bytes;
    size_t len;
    size_t index;           /* of the entry */
    size_t fields_len;
    size_t timestamp_len;
};

/* A call's answer, and how many elements it has written at the front of each area, and which. */
struct outcome {
    uint8_t answer;
    size_t fields_set;
    uint64_t fields[SEATS_HEAD_FIELDS];
    size_t parts_set;
    uint32_t timestamp[SEATS_MOST_REPLICAS];
};

static struct outcome refused(uint8_t answer)
{
    return (struct outcome){.answer = answer};
}

static struct outcome wanted(const struct call *call)
{
    struct contents contents;
    if (call->kind != SEATS_COUNTS && call->kind != SEATS_PORTS)
        return refused(62);
    uint8_t refusal = decode(call->kind, call->bytes, call->len, &contents);
    if (refusal != 0)
        return refused(refusal);
    if (call->entry && call->index >= contents.count)
        return refused(61);
    if (call->fields_len < (call->entry ? 3 : 5) || call->timestamp_len < contents.n)
        return refused(60);

    struct outcome outcome = {.parts_set = contents.n};
    if (call->entry) {
        const struct entry *entry = &contents.entries[call->index];
        outcome.fields_set = 3;
        outcome.fields[0] = entry->seat;
        outcome.fields[1] = entry->mark;
        outcome.fields[2] = entry->word;
        memcpy(outcome.timestamp, entry->timestamp, sizeof outcome.timestamp);
    } else {
        outcome.fields_set = 5;
        outcome.fields[0] = contents.n;
        outcome.fields[1] = contents.sender;
        outcome.fields[2] = contents.group;
        outcome.fields[3] = contents.clock;
        outcome.fields[4] = contents.count;
        memcpy(outcome.timestamp, contents.timestamp, sizeof outcome.timestamp);
    }
    return outcome;
}

/* Makes a call and checks its answer, each element of its areas, and that the message stays. */
static uint8_t checked(const struct call *call, const struct outcome *want)
{
    const char *name = call->entry ? "seats_read_entry" : "seats_read_head";
    uint8_t *bytes = copied(call->bytes, call->len);
    uint64_t *fields = area(call->fields_len * sizeof *fields);
    uint32_t *timestamp = area(call->timestamp_len * sizeof *timestamp);
    for (size_t i = 0; i < call->fields_len; i++)
        fields[i] = field_before(i);
    for (size_t i = 0; i < call->timestamp_len; i++)
        timestamp[i] = part_before(i);

    uint8_t answer = call->entry
        ? seats_read_entry(call->kind, bytes, call->len, call->index,
                           fields, call->fields_len, timestamp, call->timestamp_len)
        : seats_read_head(call->kind, bytes, call->len,
                          fields, call->fields_len, timestamp, call->timestamp_len);

    check(answer == want->answer, "%s answers %u and not %u", name, answer, want->answer);
    bool as_wanted = true;
    for (size_t i = 0; i < call->fields_len; i++)
        as_wanted = as_wanted && fields[i] == (i < want->fields_set ? want->fields[i] : field_before(i));
    check(as_wanted, "%s leaves other fields than it should", name);
    as_wanted = true;
    for (size_t i = 0; i < call->timestamp_len; i++)
        as_wanted = as_wanted && timestamp[i] == (i < want->parts_set ? want->timestamp[i] : part_before(i));
    check(as_wanted, "%s leaves another timestamp than it should", name);
    check(memcmp(bytes, call->bytes, call->len) == 0, "%s changes the message", name);

    free(timestamp);
    free(fields);
    free(bytes);
    return answer;
}

static uint8_t try_call(const struct call *call)
{
    struct outcome want = wanted(call);
    return checked(call, &want);
}

/* With areas that are exactly large enough for every message. */
static struct call head_call(uint8_t kind, const uint8_t *bytes, size_t len)
{
    return (struct call){.kind = kind, .bytes = bytes, .len = len,
                         .fields_len = 5, .timestamp_len = 7};
}

static struct call entry_call(uint8_t kind, const uint8_t *bytes, size_t len, size_t index)
{
    return (struct call){.entry = true, .kind = kind, .bytes = bytes, .len = len, .index = index,
                         .fields_len = 3, .timestamp_len = 7};
}

static uint8_t try_head(uint8_t kind, const uint8_t *bytes, size_t len)
{
    struct call call = head_call(kind, bytes, len);
    return try_call(&call);
}

static uint8_t try_entry(uint8_t kind, const uint8_t *bytes, size_t len, size_t index)
{
    struct call call = entry_call(kind, bytes, len, index);
    return try_call(&call);
}

/* ---- The messages that are tried */

static const uint32_t some_timestamp[SEATS_MOST_REPLICAS] = {1, 0, UINT32_MAX, 2, 0x80000000u, 3, 4};

/* Two values with a tombstone between them, so that the first and the last entry are values. */
static struct contents three_entries_contents(uint8_t kind, uint8_t n)
{
    struct contents contents = {
        .form = 1, .kind = kind, .n = n, .sender = (uint8_t)(n - 1), .group = 0x12345678u,
        .count = 3, .clock = UINT64_C(0xffffffffff),
        .entries = {
            {.seat = 0, .word = 0xffff, .mark = SEATS_VALUE},
            {.seat = UINT64_C(0x0123456789abcdef), .word = UINT64_C(0xffffffffff), .mark = SEATS_TOMBSTONE},
            {.seat = UINT64_MAX, .word = kind == SEATS_COUNTS ? UINT32_MAX : 0x8001, .mark = SEATS_VALUE},
        },
    };
    memcpy(contents.timestamp, some_timestamp, sizeof contents.timestamp);
    memcpy(contents.entries[1].timestamp, some_timestamp, sizeof some_timestamp);
    return contents;
}

static struct message three_entries(uint8_t kind, uint8_t n)
{
    struct contents contents = three_entries_contents(kind, n);
    return encode(&contents);
}

static struct message no_entries(uint8_t n)
{
    struct contents contents = {.form = 1, .kind = SEATS_COUNTS, .n = n};
    return encode(&contents);
}

/* Seven replicas and 64 entries, values and tombstones in turn. */
static struct message longest(void)
{
    struct contents contents = {
        .form = 1, .kind = SEATS_PORTS, .n = SEATS_MOST_REPLICAS, .sender = 6, .group = UINT32_MAX,
        .count = SEATS_MOST_ENTRIES, .clock = 1000,
    };
    memcpy(contents.timestamp, some_timestamp, sizeof contents.timestamp);
    for (size_t i = 0; i < SEATS_MOST_ENTRIES; i++) {
        struct entry *entry = &contents.entries[i];
        entry->seat = 1000 * (i + 1);
        entry->word = 10 * i;
        entry->mark = i % 2 == 0 ? SEATS_VALUE : SEATS_TOMBSTONE;
        if (entry->mark == SEATS_TOMBSTONE)
            entry->timestamp[i % SEATS_MOST_REPLICAS] = some_timestamp[i % SEATS_MOST_REPLICAS];
    }
    return encode(&contents);
}

/* ---- seats_compare */

static uint8_t compare(const uint32_t *first, size_t first_len, const uint32_t *second, size_t second_len)
{
    uint32_t *one = copied(first, first_len * sizeof *first);
    uint32_t *other = copied(second, second_len * sizeof *second);
    uint8_t answer = seats_compare(one, first_len, other, second_len);
    free(other);
    free(one);
    return answer;
}

/* Checks two timestamps of n parts both ways round. */
static void check_pair(const uint32_t *first, const uint32_t *second, size_t n, uint8_t want)
{
    uint8_t turned = (uint8_t)((want & 1) << 1 | want >> 1);
    uint8_t answer = compare(first, n, second, n);
    check(answer == want, "seats_compare answers %u and not %u", answer, want);
    answer = compare(second, n, first, n);
    check(answer == turned, "seats_compare, turned round, answers %u and not %u", answer, turned);
}

static void test_compare_lengths(void)
{
    static const uint32_t zeros[9];
    for (size_t a = 0; a <= 9; a++) {
        for (size_t b = 0; b <= 9; b++) {
            trying("timestamps of %zu and %zu parts", a, b);
            uint8_t want = a == b && a >= 1 && a <= 7 ? SEATS_EQUAL : SEATS_REFUSED_PARTS;
            uint8_t answer = compare(zeros, a, zeros, b);
            check(answer == want, "seats_compare answers %u and not %u", answer, want);
        }
    }
}

/* Two timestamps of n parts that differ in part p alone, or in parts p and q. */
static void test_compare_parts(size_t n, size_t p, uint32_t low, uint32_t high)
{
    uint32_t first[7] = {5, 0, 4294967295u, 7, 1, 0x80000000u, 9};
    uint32_t second[7];
    memcpy(second, first, sizeof second);
    trying("%zu parts, equal", n);
    check_pair(first, second, n, SEATS_EQUAL);

    first[p] = low;
    second[p] = high;
    trying("%zu parts, %" PRIu32 " and %" PRIu32 " in part %zu", n, low, high, p);
    check_pair(first, second, n, SEATS_FIRST_AT_OR_UNDER);

    for (size_t q = 0; q < n; q++) {
        if (q == p)
            continue;
        uint32_t kept = first[q];
        first[q] = high;
        second[q] = low;
        trying("%zu parts, %" PRIu32 " and %" PRIu32 " in part %zu, turned round in part %zu", n, low, high, p, q);
        check_pair(first, second, n, SEATS_INCOMPARABLE);
        first[q] = second[q] = kept;
    }
}

static void test_compare(void)
{
    test_compare_lengths();
    for (size_t n = 1; n <= 7; n++) {
        for (size_t p = 0; p < n; p++) {
            test_compare_parts(n, p, 0, 1);
            test_compare_parts(n, p, 4294967294u, 4294967295u);
            test_compare_parts(n, p, 0, 4294967295u);
            test_compare_parts(n, p, 0x7fffffffu, 0x80000000u);
        }
    }
    /* Areas that are only read may be the same one. */
    trying("a timestamp and itself");
    check(seats_compare(some_timestamp, 7, some_timestamp, 7) == SEATS_EQUAL, "it is not equal");
}

/* ---- The readers */

/* The example of docs/FORMATS.md, byte for byte, and what it says. */
static void test_spelled_out(void)
{
    static const uint8_t bytes[] = {
        0x01, 0x01, 0x02, 0x00, 0x07, 0x00, 0x00, 0x00, 0x01, 0x00, 0x18, 0x00, 0x20, 0x00, 0x3c, 0x00,
        0x14, 0x00, 0x00, 0x00, 0x00, 0x00, 0x00, 0x00, 0x01, 0x00, 0x00, 0x00, 0x00, 0x00, 0x00, 0x00,
        0x64, 0x00, 0x00, 0x00, 0x00, 0x00, 0x00, 0x00, 0x05, 0x00, 0x00, 0x00, 0x00, 0x00, 0x00, 0x00,
        0x01, 0x00, 0x00, 0x00, 0x00, 0x00, 0x00, 0x00, 0x00, 0x00, 0x00, 0x00,
    };
    trying("the example of the format");
    struct call call = head_call(SEATS_COUNTS, bytes, sizeof bytes);
    struct outcome want = {.fields_set = 5, .fields = {2, 0, 7, 20, 1}, .parts_set = 2, .timestamp = {1, 0}};
    checked(&call, &want);
    call = entry_call(SEATS_COUNTS, bytes, sizeof bytes, 0);
    want = (struct outcome){.fields_set = 3, .fields = {100, 1, 5}, .parts_set = 2, .timestamp = {0, 0}};
    checked(&call, &want);
    call.index = 1;
    want = refused(61);
    checked(&call, &want);
    call.timestamp_len = 1;
    checked(&call, &want);
    call.index = 0;
    want = refused(60);
    checked(&call, &want);
    call.kind = SEATS_PORTS;
    want = refused(22);
    checked(&call, &want);
    call.len = 23;
    want = refused(20);
    checked(&call, &want);
    call.kind = 3;
    want = refused(62);
    checked(&call, &want);
}

/* Areas of every length from nothing to more than enough, and every entry, one past the last, and far past it. */
static void test_areas(const char *name, const struct message *message, uint8_t kind)
{
    size_t count = (size_t)get(message->bytes, 8, 2);
    size_t size = entry_size(message->bytes[2]);
    const size_t past[] = {count, count + 1, 255, 256, 65536, (size_t)UINT32_MAX + 1, SIZE_MAX / size + 1, SIZE_MAX};
    uint8_t past_answer = kind == message->bytes[1] ? SEATS_REFUSED_INDEX : SEATS_REFUSED_ORIGIN;
    for (size_t fields_len = 0; fields_len <= 8; fields_len++) {
        for (size_t timestamp_len = 0; timestamp_len <= 9; timestamp_len++) {
            trying("%s, areas of %zu and %zu", name, fields_len, timestamp_len);
            struct call call = {.kind = kind, .bytes = message->bytes, .len = message->len,
                                .fields_len = fields_len, .timestamp_len = timestamp_len};
            try_call(&call);
            call.entry = true;
            for (call.index = 0; call.index < count; call.index++)
                try_call(&call);
            for (size_t i = 0; i < sizeof past / sizeof past[0]; i++) {
                call.index = past[i];
                check(try_call(&call) == past_answer, "index %zu is answered otherwise", call.index);
            }
        }
    }
}

static void test_kinds(const struct message *message)
{
    for (unsigned kind = 0; kind <= UINT8_MAX; kind++) {
        trying("a message of kind %u, read as kind %u", message->bytes[1], kind);
        uint8_t answer = try_head((uint8_t)kind, message->bytes, message->len);
        bool known = kind == SEATS_COUNTS || kind == SEATS_PORTS;
        check((answer == 62) == !known, "the answer is %u", answer);
        check((answer == 0) == (known && kind == message->bytes[1]), "the answer is %u", answer);
        try_entry((uint8_t)kind, message->bytes, message->len, 0);
        /* The kind comes first, whatever else is wrong. */
        struct call call = {.kind = (uint8_t)kind, .bytes = message->bytes, .len = 0};
        check(try_call(&call) == (known ? 20 : 62), "and without bytes it is not the kind that counts");
    }
}

static void test_truncated(const char *name, const struct message *message)
{
    uint8_t kind = message->bytes[1];
    for (size_t len = 0; len < message->len; len++) {
        trying("%s, its first %zu bytes", name, len);
        uint8_t answer = try_head(kind, message->bytes, len);
        check(answer >= 20 && answer <= 26, "the answer is %u", answer);
        check(try_entry(kind, message->bytes, len, 0) == answer, "the two readers differ");
    }
    trying("%s", name);
    check(try_head(kind, message->bytes, message->len) == 0, "it is refused");
}

/* A message with more bytes behind it. 65,536 more leave the lower half of the length as it was. */
static void test_lengthened(const char *name, const struct message *message)
{
    static const size_t more[] = {1, 4, 65535, 65536};
    uint8_t kind = message->bytes[1];
    for (size_t i = 0; i < sizeof more / sizeof more[0]; i++) {
        size_t len = message->len + more[i];
        uint8_t *bytes = area(len);
        memset(bytes, 0, len);
        memcpy(bytes, message->bytes, message->len);
        trying("%s and %zu bytes more", name, more[i]);
        check(try_head(kind, bytes, len) == 23, "it is not refused for its length");
        check(try_entry(kind, bytes, len, 0) == 23, "its entry is not refused for its length");
        free(bytes);
    }
}

/*
 * Whatever a byte has been changed to: the message is read or refused, never anything else, and all
 * calls agree on which. Of 64 entries only the first, every ninth and so the last are read, for the
 * time that it takes under valgrind.
 */
static void check_damaged(uint8_t kind, const struct message *message)
{
    uint8_t answer = try_head(kind, message->bytes, message->len);
    check(answer == 0 || (answer >= 20 && answer <= 26), "the answer is %u", answer);
    size_t count = (size_t)get(message->bytes, 8, 2);
    check(try_entry(kind, message->bytes, message->len, count) == (answer == 0 ? 61 : answer),
          "one past the last entry is answered otherwise");
    if (answer != 0)
        return;
    size_t step = count == SEATS_MOST_ENTRIES ? 9 : 1;
    for (size_t index = 0; index < count; index += step)
        check(try_entry(kind, message->bytes, message->len, index) == 0, "entry %zu is not read", index);
}

/* Changes every single byte of a message by each of these changes. */
static void test_damaged(const char *name, struct message message, unsigned least, unsigned most)
{
    uint8_t kind = message.bytes[1];
    for (size_t at = 0; at < message.len; at++) {
        uint8_t kept = message.bytes[at];
        for (unsigned change = least; change <= most; change++) {
            message.bytes[at] = (uint8_t)(kept ^ change);
            trying("%s, with %u in byte %zu", name, message.bytes[at], at);
            check_damaged(kind, &message);
        }
        message.bytes[at] = kept;
    }
}

static void check_refused(const char *name, const struct contents *contents, uint8_t want)
{
    struct message message = encode(contents);
    trying("%s", name);
    uint8_t answer = try_head(contents->kind, message.bytes, message.len);
    check(answer == want, "the answer is %u and not %u", answer, want);
    answer = try_entry(contents->kind, message.bytes, message.len, 0);
    check(answer == want, "the answer for its first entry is %u and not %u", answer, want);
}

/* What one changed byte does not show. */
static void test_refused(void)
{
    struct contents contents = three_entries_contents(SEATS_COUNTS, 2);
    contents.entries[1].seat = contents.entries[0].seat;
    check_refused("equal seats", &contents, 25);
    contents.entries[0].mark = 3;
    check_refused("another mark before equal seats", &contents, 25);
    contents.clock = UINT64_C(1) << LATEST_BITS;
    check_refused("a late clock before equal seats", &contents, 24);

    contents = three_entries_contents(SEATS_PORTS, 7);
    contents.entries[2].word = 0x10000;
    check_refused("a count where ports should be", &contents, 26);

    contents = (struct contents){.form = 1, .kind = SEATS_COUNTS, .n = 1, .count = ENTRIES_ROOM};
    for (size_t i = 0; i < ENTRIES_ROOM; i++)
        contents.entries[i] = (struct entry){.seat = i, .mark = SEATS_VALUE};
    check_refused("65 entries", &contents, 23);
    contents.count--;
    check_refused("64 entries are not refused", &contents, 0);
}

static void test_every_entry(const char *name, const struct message *message)
{
    uint8_t kind = message->bytes[1];
    size_t count = (size_t)get(message->bytes, 8, 2);
    for (size_t index = 0; index < count; index++) {
        trying("%s, entry %zu", name, index);
        check(try_entry(kind, message->bytes, message->len, index) == 0, "it is not read");
    }
    trying("%s, one past its last entry", name);
    check(try_entry(kind, message->bytes, message->len, count) == 61, "there is no such entry");
}

static void test_readers(void)
{
    test_spelled_out();
    for (uint8_t n = 1; n <= SEATS_MOST_REPLICAS; n++) {
        char name[40];
        struct message message = no_entries(n);
        snprintf(name, sizeof name, "no entries, n is %u", n);
        test_areas(name, &message, SEATS_COUNTS);
        test_truncated(name, &message);
        test_lengthened(name, &message);

        message = three_entries(SEATS_COUNTS, n);
        snprintf(name, sizeof name, "three counts, n is %u", n);
        test_areas(name, &message, SEATS_COUNTS);
        test_areas(name, &message, SEATS_PORTS);
        test_truncated(name, &message);
        test_every_entry(name, &message);
    }

    test_refused();
    struct message counts = three_entries(SEATS_COUNTS, 2);
    struct message ports = three_entries(SEATS_PORTS, 3);
    test_kinds(&counts);
    test_kinds(&ports);
    test_lengthened("three counts", &counts);
    test_damaged("three counts", counts, 1, 255);
    test_damaged("three sets of ports", ports, 1, 255);

    struct message long_one = longest();
    trying("the longest message");
    check(long_one.len == LONGEST, "it has %zu bytes", long_one.len);
    test_every_entry("the longest message", &long_one);
    test_truncated("the longest message", &long_one);
    test_lengthened("the longest message", &long_one);
    test_damaged("the longest message", long_one, 1, 1);
}

int main(void)
{
    test_compare();
    test_readers();
    printf("host/test: %lu checks, %lu failed\n", checks, failures);
    return failures == 0 ? EXIT_SUCCESS : EXIT_FAILURE;
}
