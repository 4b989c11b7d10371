/* Has streams give every answer of every call from C, by the header alone, and prints what came of it; streams.rs says what it has to be. */
#include "printing.h"

#include <string.h>

#define ROOM 24
#define WIDEST 16

enum direction { SEALING, CHECKING, OPENING };

static uint8_t key[WIDEST], nonce[WIDEST], tag[WIDEST + 1], out[ROOM], right[WIDEST + 1];
static uint8_t data[] = "valve 12", text[] = "close, then report in", cipher[ROOM];
static uint8_t area[KVISTMAUR_STATE_LENGTH + 1], kept[KVISTMAUR_STATE_LENGTH];
static uint8_t longer[KVISTMAUR_TEXT_LIMIT + 1];

static const struct slice none = {NULL, 0};
static const struct slice state = {area, KVISTMAUR_STATE_LENGTH};
static const struct slice short_state = {area, KVISTMAUR_STATE_LENGTH - 1};
static const struct slice long_state = {area, KVISTMAUR_STATE_LENGTH + 1};
static const struct slice room = {out, ROOM};

/* What a start is lent, but for the state. */
struct beginning {
    uint64_t set, limit;
    struct slice key, nonce;
};

/* Prints a line: the call, the case, the answer, the rounds, and all of the state, out and tag. */
static void line(const char *call, const char *what, uint64_t returned)
{
    printf("%s ", call);
    print_answer(what, returned);
    print_bytes(area, sizeof area);
    print_bytes(out, sizeof out);
    print_bytes(tag, sizeof tag);
    printf("\n");
}

/* Starts a stream of a direction. */
static uint64_t start(enum direction direction, struct beginning b, struct slice s)
{
    switch (direction) {
    case SEALING:
        return kvistmaur_start_sealing(b.set, b.limit, LEND(b.key), LEND(b.nonce), LEND(s));
    case CHECKING:
        return kvistmaur_start_checking(b.set, b.limit, LEND(b.key), LEND(b.nonce), LEND(s));
    default:
        return kvistmaur_start_opening(b.set, b.limit, LEND(b.key), LEND(b.nonce), LEND(s));
    }
}

/* Takes a piece of the text or ciphertext in a direction. */
static uint64_t piece(enum direction direction, struct slice s, struct slice bytes, struct slice place)
{
    switch (direction) {
    case SEALING:
        return kvistmaur_stream_seal(LEND(s), LEND(bytes), LEND(place));
    case CHECKING:
        return kvistmaur_stream_check(LEND(s), LEND(bytes));
    default:
        return kvistmaur_stream_open(LEND(s), LEND(bytes), LEND(place));
    }
}

/* Finishes a stream of a direction. */
static uint64_t finish(enum direction direction, struct slice s, struct slice t)
{
    switch (direction) {
    case SEALING:
        return kvistmaur_finish_sealing(LEND(s), LEND(t));
    case CHECKING:
        return kvistmaur_finish_checking(LEND(s), LEND(t));
    default:
        return kvistmaur_finish_opening(LEND(s), LEND(t));
    }
}

/* Refuses starts over a stream that is open, each time anew. */
static void refused_starts(enum direction direction, struct beginning good)
{
    struct beginning now;
    line("start", "right", start(direction, good, state));
    now = good, now.set += 256, line("start", "set", start(direction, now, state));
    start(direction, good, state);
    now = good, now.key.count--, line("start", "key", start(direction, now, state));
    start(direction, good, state);
    now = good, now.nonce.count--, line("start", "nonce", start(direction, now, state));
    start(direction, good, state);
    now = good, now.limit = KVISTMAUR_TEXT_LIMIT + 1, line("start", "limit", start(direction, now, state));
    start(direction, good, state);
    line("start", "short", start(direction, good, short_state));
    line("start", "long", start(direction, good, long_state));
    now = good, now.key = now.nonce = none, line("start", "none", start(direction, now, none));
}

/* Tries every call on what is no state, or breaks the rules for states, and puts the state back. */
static void broken(const char *how, enum direction direction, struct slice s, size_t length)
{
    const struct slice t = {tag, length}, five = {text, 5};
    line("data", how, kvistmaur_stream_data(LEND(s), LEND(five)));
    line("text", how, piece(direction, s, five, room));
    line("finish", how, finish(direction, s, t));
    memcpy(area, kept, sizeof kept);
}

/* Breaks a state in many ways. */
static void all_broken(enum direction direction, size_t length)
{
    memcpy(kept, area, sizeof kept);
    broken("short", direction, short_state, length);
    broken("long", direction, long_state, length);
    broken("none", direction, none, length);
    area[56] = 1, broken("set", direction, state, length);
    area[71] = 3, broken("direction", direction, state, length);
    area[64] = 1, broken("wide-direction", direction, state, length);
    area[79] = 3, broken("phase", direction, state, length);
    area[79] = 2, broken("ended", direction, state, length);
    area[103] ^= 1, broken("place", direction, state, length);
    area[104] = 1, broken("limit", direction, state, length);
}

/* Has a stream of a direction give each answer of its calls, on its way to a right end. */
static void every_answer(enum direction direction, uint64_t set, size_t length)
{
    const struct beginning good = {set, 21, {key, length}, {nonce, length}};
    const enum direction other = (direction + 1) % 3, third = (direction + 2) % 3;
    uint8_t *body = direction == SEALING ? text : cipher;
    const struct slice first = {body, 8}, rest = {body + 8, 13}, one = {body, 1}, past = {body, 22};
    const struct slice address = {data, 8}, far = {longer, KVISTMAUR_DATA_LIMIT}, tight = {out, 7};
    const struct slice t = {tag, length}, less = {tag, length - 1}, more = {tag, length + 1};

    memset(area, 0x5a, sizeof area);
    memset(out, 0xbb, sizeof out);
    memset(tag, 0xaa, sizeof tag);
    refused_starts(direction, good);
    line("end", "open", kvistmaur_stream_end(LEND(state)));
    line("data", "ended", kvistmaur_stream_data(LEND(state), LEND(address)));

    line("start", "right", start(direction, good, state));
    all_broken(direction, length);
    line("data", "right", kvistmaur_stream_data(LEND(state), LEND(address)));
    line("data", "past", kvistmaur_stream_data(LEND(state), LEND(far)));
    line("data", "none", kvistmaur_stream_data(LEND(state), LEND(none)));

    line("text", "past", piece(direction, state, past, room));
    line("text", "other", piece(other, state, first, room));
    line("text", "third", piece(third, state, first, room));
    line("text", "tight", piece(direction, state, first, tight));
    start(direction, good, state);
    line("data", "again", kvistmaur_stream_data(LEND(state), LEND(address)));
    line("text", "right", piece(direction, state, first, room));
    line("text", "none", piece(direction, state, none, none));
    line("text", "right", piece(direction, state, rest, room));
    line("text", "past", piece(direction, state, one, room));
    line("data", "late", kvistmaur_stream_data(LEND(state), LEND(none)));
    all_broken(direction, length);

    line("finish", "other", finish(other, state, t));
    line("finish", "third", finish(third, state, t));
    line("finish", "less", finish(direction, state, less));
    line("finish", "more", finish(direction, state, more));
    if (direction != SEALING) {
        memcpy(kept, area, sizeof kept);
        line("finish", "differs", finish(direction, state, t));
        memcpy(area, kept, sizeof kept);
        memcpy(tag, right, sizeof tag);
    }
    line("finish", "right", finish(direction, state, t));

    line("data", "ended", kvistmaur_stream_data(LEND(state), LEND(none)));
    line("text", "ended", piece(direction, state, none, none));
    line("finish", "ended", finish(direction, state, t));

    start(direction, good, state);
    line("end", "short", kvistmaur_stream_end(LEND(short_state)));
    line("end", "long", kvistmaur_stream_end(LEND(long_state)));
    line("end", "none", kvistmaur_stream_end(LEND(none)));
    line("end", "right", kvistmaur_stream_end(LEND(state)));
    memset(area, 0xff, sizeof area);
    line("end", "any", kvistmaur_stream_end(LEND(state)));
}

/* Goes through the directions in a set. */
static void each_direction(uint64_t set, size_t length)
{
    memset(key, 7, sizeof key);
    memset(nonce, 1, sizeof nonce);
    memset(right, 0xaa, sizeof right);
    kvistmaur_seal(set, key, length, nonce, length, data, 8, text, 21, cipher, 21, right, length);
    every_answer(SEALING, set, length);
    every_answer(CHECKING, set, length);
    every_answer(OPENING, set, length);
}

int main(void)
{
    each_direction(1, 16);
    each_direction(2, 12);
    each_direction(3, 16);
    each_direction(4, 16);
    return 0;
}
