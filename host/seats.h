/*
 * Timestamps and gossip messages, for programs in C and C++.
 *
 * The code behind these calls is the crate host, which is proved: see docs/HOST.md.
 * docs/FORMATS.md has the message format, docs/REFUSALS.md the refusals.
 *
 * What each call promises
 *
 *   - It answers a number and comes back, whatever the numbers and the contents of the areas are.
 *   - It reads nothing but the areas that it is given, and writes nothing but what its comment says.
 *   - Where it answers a refusal it has written nothing.
 *   - It keeps nothing and allocates nothing. So there is nothing to open or to close, and calls on
 *     areas of their own may run in several threads at once.
 *
 * What the caller owes
 *
 * An area is a pointer and the length behind it, which counts elements, not bytes. For each area,
 * until the call is back:
 *
 *   - All its elements are there to be read, or to be written where the pointer is not const, and
 *     nobody else writes to them.
 *   - The pointer is aligned for its type, and not null, not even where the length is 0.
 *   - An area to be written overlaps no other area of the call. Areas that are only read may overlap.
 *
 * Nothing else is owed: a message may come from anybody, and a length, an index or a kind may be
 * any number of its type.
 */
#ifndef SEATS_H
#define SEATS_H

#include <stddef.h>
#include <stdint.h>

#ifdef __cplusplus
extern "C" {
#endif

/* Sizes that are enough for every message. */
enum {
    SEATS_MOST_REPLICAS = 7,    /* parts of a timestamp */
    SEATS_MOST_ENTRIES = 64,    /* entries of a message */
    SEATS_MESSAGE_ROOM = 3320   /* bytes of a message: none has more than 3,124 */
};

/* Kinds of values. */
enum {
    SEATS_COUNTS = 1,           /* 0 to 4,294,967,295 */
    SEATS_PORTS = 2             /* 0 to 65,535, one bit a port */
};

/* The fields that seats_read_head writes, by their index. */
enum {
    SEATS_HEAD_N,               /* number of replicas, 1 to 7 */
    SEATS_HEAD_SENDER,          /* the replica that sent it, below n */
    SEATS_HEAD_GROUP,           /* group number, below 2^32 */
    SEATS_HEAD_CLOCK,           /* the sender's clock, below 2^40 */
    SEATS_HEAD_ENTRIES,         /* number of entries, 0 to 64 */
    SEATS_HEAD_FIELDS           /* how many fields there are */
};

/* The fields that seats_read_entry writes, by their index. */
enum {
    SEATS_ENTRY_SEAT,           /* the seat's name */
    SEATS_ENTRY_MARK,           /* SEATS_VALUE or SEATS_TOMBSTONE */
    SEATS_ENTRY_WORD,           /* the value, or the delete's time, which is below 2^40 */
    SEATS_ENTRY_FIELDS          /* how many fields there are */
};

/* Marks of entries. */
enum {
    SEATS_VALUE = 1,
    SEATS_TOMBSTONE = 2
};

/* What seats_compare answers: the sum of those of the first two that hold, or SEATS_REFUSED_PARTS. */
enum {
    SEATS_FIRST_AT_OR_UNDER = 1,    /* each part of the first is at most that of the second */
    SEATS_SECOND_AT_OR_UNDER = 2,   /* each part of the second is at most that of the first */
    SEATS_INCOMPARABLE = 0,         /* neither */
    SEATS_EQUAL = 3                 /* both */
};

/* What the readers answer. */
enum {
    SEATS_DONE = 0,

    /* The service's refusals, as docs/REFUSALS.md numbers them. */
    SEATS_REFUSED_PARTS = 8,    /* seats_compare: the lengths differ, or are outside 1 to 7 */
    SEATS_REFUSED_SHORT = 20,   /* the message has under 24 bytes */
    SEATS_REFUSED_FORM = 21,    /* its form is not 1 */
    SEATS_REFUSED_ORIGIN = 22,  /* it is of another kind, n is outside 1 to 7, or the sender is not below n */
    SEATS_REFUSED_LAYOUT = 23,  /* a count, an offset or a length is other than the format's */
    SEATS_REFUSED_CLOCK = 24,   /* the clock is above 2^40 - 1 */
    SEATS_REFUSED_ORDER = 25,   /* the seats do not rise strictly */
    SEATS_REFUSED_MARK = 26,    /* an entry has another mark or breaks its mark's rule */

    /* What is wrong with the call and not with the message. */
    SEATS_REFUSED_AREA = 60,    /* an area is too small for what it is to hold */
    SEATS_REFUSED_INDEX = 61,   /* the message has no entry of this index */
    SEATS_REFUSED_KIND = 62     /* there is no such kind */
};

/*
 * Compares two timestamps.
 *
 * Answers 0 to 3: SEATS_FIRST_AT_OR_UNDER if the first is at or under the second, plus
 * SEATS_SECOND_AT_OR_UNDER if the second is at or under the first. So 3 says that they are equal,
 * and 0 that neither has seen all that the other has.
 *
 * Answers SEATS_REFUSED_PARTS (8) if the lengths differ or are outside 1 to 7. Look for it before
 * looking at single bits: it has neither of them, and would pass for SEATS_INCOMPARABLE.
 *
 * Writes nothing.
 */
uint8_t seats_compare(const uint32_t *first, size_t first_len,
                      const uint32_t *second, size_t second_len);

/*
 * Reads the head of a message: all but its entries.
 *
 * kind is the kind of values that the message is to have. A message of another kind is refused.
 * The message has to be the whole of bytes, with nothing behind it.
 *
 * Answers SEATS_DONE (0), and has written the first SEATS_HEAD_FIELDS of fields, and the sender's
 * timestamp into the first n of timestamp. What both areas have behind these stays as it was.
 * The whole message has then been found sound, its entries too.
 *
 * Otherwise it has written nothing, and answers the first of these that holds:
 *   SEATS_REFUSED_KIND (62)   there is no such kind;
 *   20 to 26                  the message is refused;
 *   SEATS_REFUSED_AREA (60)   fields_len is under SEATS_HEAD_FIELDS, or timestamp_len under n.
 * A timestamp area of SEATS_MOST_REPLICAS is never too small.
 */
uint8_t seats_read_head(uint8_t kind, const uint8_t *bytes, size_t len,
                        uint64_t *fields, size_t fields_len,
                        uint32_t *timestamp, size_t timestamp_len);

/*
 * Reads one entry of a message. Entries are counted from 0, in the rising order of their seats.
 *
 * kind, bytes and len are as for seats_read_head. The whole message is read anew: the call takes
 * no earlier answer for granted.
 *
 * Answers SEATS_DONE (0), and has written the first SEATS_ENTRY_FIELDS of fields, and the first n
 * of timestamp: for a tombstone its timestamp, for a value zeros. What both areas have behind
 * these stays as it was.
 *
 * Otherwise it has written nothing, and answers the first of these that holds:
 *   SEATS_REFUSED_KIND (62)   there is no such kind;
 *   20 to 26                  the message is refused;
 *   SEATS_REFUSED_INDEX (61)  index is not below the message's number of entries;
 *   SEATS_REFUSED_AREA (60)   fields_len is under SEATS_ENTRY_FIELDS, or timestamp_len under n.
 */
uint8_t seats_read_entry(uint8_t kind, const uint8_t *bytes, size_t len, size_t index,
                         uint64_t *fields, size_t fields_len,
                         uint32_t *timestamp, size_t timestamp_len);

#ifdef __cplusplus
}
#endif

#endif
