/*
 * Shows what the gossip message in a file says, in the words of the program inspect:
 *
 *     example FILE
 *
 * The file has the message's bytes and nothing else. A message that is refused is shown too, as
 * 'no NUMBER CAUSE', with status 0: saying so is what the program is for. Status 2 says that the
 * program could not do its work.
 */
#include "seats.h"

#include <errno.h>
#include <inttypes.h>
#include <stdbool.h>
#include <stdio.h>
#include <stdlib.h>
#include <string.h>

enum { STATUS_FAILED = 2 };

/* The byte of a message that names its kind. */
enum { KIND_AT = 1 };

struct message {
    uint8_t bytes[SEATS_MESSAGE_ROOM];
    size_t len;
};

/* Reads a whole file. Where it cannot, it says why and answers false. */
static bool read_file(const char *path, struct message *message)
{
    FILE *file = fopen(path, "rb");
    if (file == NULL) {
        fprintf(stderr, "example: %s: %s\n", path, strerror(errno));
        return false;
    }
    message->len = fread(message->bytes, 1, sizeof message->bytes, file);
    bool longer = message->len == sizeof message->bytes && fgetc(file) != EOF;
    bool failed = ferror(file) != 0;
    fclose(file);
    if (failed) {
        fprintf(stderr, "example: %s: cannot be read\n", path);
        return false;
    }
    if (longer) {
        fprintf(stderr, "example: %s: more than %d bytes\n", path, SEATS_MESSAGE_ROOM);
        return false;
    }
    return true;
}

/*
 * The kind to read a message as: the one that it names. A message that is too short to name one,
 * or names one that there is not, is refused as counts by the number that it deserves.
 */
static uint8_t kind_of(const struct message *message)
{
    bool ports = message->len > KIND_AT && message->bytes[KIND_AT] == SEATS_PORTS;
    return ports ? SEATS_PORTS : SEATS_COUNTS;
}

static const char *cause_of(uint8_t answer)
{
    switch (answer) {
    case SEATS_REFUSED_SHORT:
        return "under 24 bytes";
    case SEATS_REFUSED_FORM:
        return "the form is not 1";
    case SEATS_REFUSED_ORIGIN:
        return "another kind, n outside 1 to 7, or a sender not below n";
    case SEATS_REFUSED_LAYOUT:
        return "a count, an offset or a length other than the format's";
    case SEATS_REFUSED_CLOCK:
        return "the clock is too large";
    case SEATS_REFUSED_ORDER:
        return "the seats do not rise";
    case SEATS_REFUSED_MARK:
        return "an entry has another mark or breaks its mark's rule";
    case SEATS_REFUSED_AREA:
        return "an area is too small";
    case SEATS_REFUSED_INDEX:
        return "no entry of this index";
    case SEATS_REFUSED_KIND:
        return "no such kind";
    default:
        return "an answer without a name";
    }
}

static void print_timestamp(const uint32_t *parts, uint64_t n)
{
    printf(" timestamp");
    for (uint64_t i = 0; i < n; i++)
        printf(" %" PRIu32, parts[i]);
}

static void print_head(uint8_t kind, const uint64_t *head, const uint32_t *timestamp)
{
    printf("gossip kind %u n %" PRIu64 " sender %" PRIu64 " group %" PRIu64 " clock %" PRIu64,
           (unsigned)kind, head[SEATS_HEAD_N], head[SEATS_HEAD_SENDER],
           head[SEATS_HEAD_GROUP], head[SEATS_HEAD_CLOCK]);
    print_timestamp(timestamp, head[SEATS_HEAD_N]);
    printf(" entries %" PRIu64 "\n", head[SEATS_HEAD_ENTRIES]);
}

static void print_entry(const uint64_t *entry, const uint32_t *timestamp, uint64_t n)
{
    if (entry[SEATS_ENTRY_MARK] == SEATS_VALUE) {
        printf("seat %" PRIu64 " value %" PRIu64, entry[SEATS_ENTRY_SEAT], entry[SEATS_ENTRY_WORD]);
    } else {
        printf("seat %" PRIu64 " deleted %" PRIu64, entry[SEATS_ENTRY_SEAT], entry[SEATS_ENTRY_WORD]);
        print_timestamp(timestamp, n);
    }
    printf("\n");
}

/*
 * Prints a message and answers SEATS_DONE, or answers the refusal. The readers judge the whole
 * message, so it is the first call that refuses: nothing has been printed then.
 */
static uint8_t print_message(const struct message *message)
{
    uint8_t kind = kind_of(message);
    uint64_t head[SEATS_HEAD_FIELDS] = {0};
    uint32_t timestamp[SEATS_MOST_REPLICAS] = {0};

    uint8_t answer = seats_read_head(kind, message->bytes, message->len,
                                     head, SEATS_HEAD_FIELDS, timestamp, SEATS_MOST_REPLICAS);
    if (answer != SEATS_DONE)
        return answer;
    print_head(kind, head, timestamp);

    for (size_t i = 0; i < head[SEATS_HEAD_ENTRIES]; i++) {
        uint64_t entry[SEATS_ENTRY_FIELDS] = {0};
        answer = seats_read_entry(kind, message->bytes, message->len, i,
                                  entry, SEATS_ENTRY_FIELDS, timestamp, SEATS_MOST_REPLICAS);
        if (answer != SEATS_DONE)
            return answer;
        print_entry(entry, timestamp, head[SEATS_HEAD_N]);
    }
    return SEATS_DONE;
}

int main(int argc, char **argv)
{
    if (argc != 2) {
        fprintf(stderr, "usage: example FILE\n");
        return STATUS_FAILED;
    }
    struct message message;
    if (!read_file(argv[1], &message))
        return STATUS_FAILED;

    uint8_t answer = print_message(&message);
    if (answer != SEATS_DONE)
        printf("no %u %s\n", (unsigned)answer, cause_of(answer));

    /* What does not arrive, as on a full disk, is seen only when the last of it is written. */
    if (fflush(stdout) != 0 || ferror(stdout)) {
        fprintf(stderr, "example: cannot write\n");
        return STATUS_FAILED;
    }
    return EXIT_SUCCESS;
}
