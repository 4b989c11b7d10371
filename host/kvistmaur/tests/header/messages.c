/* Seals and opens whole messages from C, by the header alone, and prints what came of it; messages.rs says what it has to be. */
#include "printing.h"

#include <string.h>

#define ROOM 24
#define WIDEST 16

/* What a call is lent; body is the text or the ciphertext. */
struct message {
    uint64_t set;
    struct slice key, nonce, data, body, tag, out;
};

static uint8_t key[WIDEST], nonce[WIDEST], tag[WIDEST], out[ROOM];
static uint8_t data[] = "valve 12", text[] = "close, then report in", cipher[ROOM];
static uint8_t longer[KVISTMAUR_TEXT_LIMIT + 1];

/* Prints a line: what was done, the answer, the rounds, and all of out and tag. */
static void line(const char *what, uint64_t returned)
{
    print_answer(what, returned);
    print_bytes(out, sizeof out);
    print_bytes(tag, sizeof tag);
    printf("\n");
}

/* Seals, and prints what came of it. */
static void seal(const char *what, struct message m)
{
    line(what, kvistmaur_seal(m.set, LEND(m.key), LEND(m.nonce), LEND(m.data), LEND(m.body), LEND(m.out), LEND(m.tag)));
}

/* Opens, and prints what came of it. */
static void open(const char *what, struct message m)
{
    line(what, kvistmaur_open(m.set, LEND(m.key), LEND(m.nonce), LEND(m.data), LEND(m.body), LEND(m.tag), LEND(m.out)));
}

/* Has a set give every answer, and takes it through empty slices that have no pointer. */
static void every_answer(uint64_t set, size_t length)
{
    const struct slice none = {NULL, 0};
    struct message good = {set, {key, length}, {nonce, length}, {data, 8}, {text, 21}, {tag, length}, {out, ROOM}};
    struct message now;
    memset(key, 7, sizeof key);
    memset(nonce, 1, sizeof nonce);
    memset(tag, 0xaa, sizeof tag);
    memset(out, 0xbb, sizeof out);

    seal("sealed", good);
    memcpy(cipher, out, sizeof cipher);
    memset(out, 0xcc, sizeof out);
    good.body.start = cipher;
    open("opened", good);

    now = good, now.set += 256, open("set", now);
    now = good, now.key.count--, open("key", now);
    now = good, now.nonce.count--, open("nonce", now);
    now = good, now.tag.count--, open("tag", now);
    now = good, now.data.start = longer, now.data.count = KVISTMAUR_DATA_LIMIT + 1, open("data", now);
    now = good, now.body.start = longer, now.body.count = KVISTMAUR_TEXT_LIMIT + 1, open("text", now);
    now = good, now.out.count = 20, open("room", now);
    now = good, now.nonce.start = key, open("differs", now);

    good.data = good.body = good.out = none;
    seal("empty", good);
    open("empty", good);
    good.key = good.nonce = good.tag = none;
    seal("none", good);
}

int main(void)
{
    every_answer(1, 16);
    every_answer(2, 12);
    every_answer(3, 16);
    every_answer(4, 16);
    return 0;
}
