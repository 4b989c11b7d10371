/*
 * Sealing, checking and opening of Ascon v1 and v1.2, by the verified model: whole messages, and streams of pieces.
 * Link with target/native/libkvistmaur.a, which `host/archive gateway` writes.
 *
 * SETS
 *   1  Ascon-128 of v1:    key, nonce and tag have 16 bytes each.
 *   2  Ascon-96 of v1:     key, nonce and tag have 12 bytes each.
 *   3  Ascon-128 of v1.2:  key, nonce and tag have 16 bytes each.
 *   4  Ascon-128a of v1.2: key, nonce and tag have 16 bytes each.
 *   A block has 8 bytes in sets 1 and 3, and 16 in sets 2 and 4. The middle rounds are 6 in sets 1 and 3, and 8 in sets 2
 *   and 4. The sets are different ciphers: a message is opened in the set in which it was sealed.
 *
 * SLICES
 *   Each slice is two arguments, a pointer and then the number of bytes that are lent behind it. That many bytes have
 *   to be there; this is the one thing that a call cannot find out. An empty slice may have any pointer, NULL too, and
 *   nothing is read or written behind it. A slice that a call writes (state, out, and tag when sealing) must not overlap
 *   any other; slices that it only reads may overlap each other. A call keeps no pointer and uses no memory but its own
 *   stack, so calls on separate slices may run at the same time.
 *
 * ANSWERS
 *   A call takes any numbers and bytes, and returns 16 * rounds + answer. See KVISTMAUR_ANSWER and KVISTMAUR_ROUNDS.
 *   The answers of a call are listed with it, in the order in which they are tested: the answer is the first that holds,
 *   and 0 when none of the others does.
 *     1  set is none of 1 to 4, however wide a number it is
 *     2  the key does not have the set's length
 *     3  the nonce does not have the set's length
 *     4  the tag, or the place lent for it, does not have exactly the set's length
 *     5  data would pass 65,536 bytes, or text or cipher its limit: 1,048,576 bytes, or fewer in a stream that was started
 *        so; or a start's limit is over 1,048,576
 *     6  out is shorter than text or cipher
 *     7  the stream is in another phase or of another direction than the call is for
 *     8  state does not have 112 bytes; or, where a call takes the stream that stands there, it spells no state, or one
 *        that breaks the rules (see STATES)
 *     9  opening or checking only: all else fits, and the tag is not that of this message
 *     0  done
 *   With 1 to 8 the rounds are 0 and no lent byte changes, but for one exception: a start that is refused with 1, 2, 3 or
 *   5 leaves the ended state in state, so that no stream that stood there before is taken for the new one. With 0 and 9
 *   the rounds are those that the published definition runs: for a whole message, at least 24; in a stream, those of this
 *   call. When a stream's finish answers 0 or 9, the rounds of all its calls add up to those of the whole message.
 *
 * STREAMS
 *   A stream takes a message in pieces. It has a direction: sealing, checking or opening. One call starts it; then come
 *   the pieces of the associated data, then those of the text or ciphertext, and one call finishes it. However data and
 *   text are cut, in pieces of any lengths, of 0 bytes too, the result is that of the whole message. The first text call
 *   that is done, of 0 bytes too, closes the data. A finish is right in both open phases: without a data call there is no
 *   data, and without a text call the text is empty.
 *   Between two calls the stream is nothing but its state, KVISTMAUR_STATE_LENGTH bytes that the caller keeps and lends to
 *   each call. The call reads them, and leaves the next state there. After a refusal the stream is as it was, and the call
 *   may be made again, with more room for instance. A start does not look at what state held: it replaces an open stream
 *   without notice. A message in two fragments:
 *
 *     uint8_t state[KVISTMAUR_STATE_LENGTH];
 *     uint64_t said = kvistmaur_start_checking(1, KVISTMAUR_TEXT_LIMIT, key, 16, nonce, 16, state, sizeof state);
 *     if (KVISTMAUR_ANSWER(said) == 0) said = kvistmaur_stream_data(state, sizeof state, data, data_len);
 *     if (KVISTMAUR_ANSWER(said) == 0) said = kvistmaur_stream_check(state, sizeof state, first, first_len);
 *     if (KVISTMAUR_ANSWER(said) == 0) said = kvistmaur_stream_check(state, sizeof state, second, second_len);
 *     if (KVISTMAUR_ANSWER(said) == 0) said = kvistmaur_finish_checking(state, sizeof state, tag, 16);
 *     kvistmaur_stream_end(state, sizeof state);
 *     if (KVISTMAUR_ANSWER(said) == 0) take_the_order();
 *
 * STATES
 *   A state is laid out so, each word and each number in 8 bytes, the high byte first:
 *     byte 0    the words x0 to x4
 *     byte 40   the key, 16 bytes; in set 2 its 12 bytes and 4 zeros
 *     byte 56   the set
 *     byte 64   the direction: 0 sealing, 1 checking, 2 opening
 *     byte 72   the phase: 0 data, 1 text, 2 ended
 *     byte 80   the bytes of data that were taken
 *     byte 88   the bytes of text or ciphertext that were taken
 *     byte 96   the place of the next byte in its block
 *     byte 104  the limit of text or ciphertext
 *   The one ended state has 1 as its set, 2 as its phase, and zeros in all other places.
 *   A start and kvistmaur_stream_end look at the length of the slice alone. A data, text or finish call takes whatever is
 *   lent as a state. It answers 8, and changes nothing, where the slice does not have 112 bytes; where a number that
 *   stands for the direction or the phase is over 2; and where the state breaks the rules: the set is none of 1 to 4; in
 *   set 2 one of the last 4 bytes of the key is not 0; the place is not the count of the present phase modulo the block;
 *   there is text in the phase of the data; the count of data is over 65,536, the limit over 1,048,576, or the count of
 *   text over the limit; or the phase is ended, and it is not the ended state. In an open state the words may be any, and
 *   so may the key, but for those 4 bytes.
 *
 *   A state holds the key, so its bytes are secret. A finish that answers 0 or 9 leaves the ended state, which holds
 *   nothing of the message. Whoever gives a stream up clears its state with kvistmaur_stream_end.
 *   A state is plain bytes: it may be copied, kept, and lent again later, and each copy goes on as a stream of its own.
 *   But a copy of a sealing's state can seal another text under the same key and nonce, and then the protection is lost.
 *   Nothing shows whether somebody has written to a kept state: keep it where nobody else can.
 *
 * UNVERIFIED BYTES
 *   What kvistmaur_stream_open hands out is unverified until kvistmaur_finish_opening answers 0. Up to then it is the
 *   decryption of whatever came. A 9 does not take it back, and puts no zeros there: the caller must not use it. A caller
 *   who has to act on pieces before the end walks through the ciphertext twice: first with a checking stream; after its
 *   0, with an opening stream over the same bytes. Then each piece is the text that was sealed, as long as the second walk
 *   reads what the first one read, which the second finish confirms at its end.
 *   Of whole messages nothing unverified is handed out: when kvistmaur_open returns, out holds the text only with answer 0,
 *   and zeros with 9. While it runs, out may hold text that is not verified yet.
 *
 * WHAT A 9 TELLS
 *   If two openings of whole messages in one set have slices of the same lengths and the same bytes in out before, and both
 *   are answered 9, they return the same number and leave the same bytes in out, whatever the keys and the other bytes are.
 *   If two finishes on streams of one set, in one phase and with one count of data, are answered 9, they return the same
 *   number and leave the same bytes in state. Nothing is promised about how long a call takes, what it leaves on its stack,
 *   or what a slice holds before the call returns.
 *
 * The protection is lost when two messages are sealed under one key and one nonce. Choosing nonces is the caller's part.
 */
#ifndef KVISTMAUR_H
#define KVISTMAUR_H

#include <stddef.h>
#include <stdint.h>

#if SIZE_MAX != UINT64_MAX
#error "the lengths of the library are 64 bits wide"
#endif

#ifdef __cplusplus
extern "C" {
#endif

/* The most bytes of data, and of text or cipher, in a message; the second is also the largest limit of a stream. */
#define KVISTMAUR_DATA_LIMIT 65536
#define KVISTMAUR_TEXT_LIMIT 1048576

/* The bytes of a stream's state. */
#define KVISTMAUR_STATE_LENGTH 112

/* The two parts of a returned number. */
#define KVISTMAUR_ANSWER(returned) ((returned) % 16)
#define KVISTMAUR_ROUNDS(returned) ((returned) / 16)

/*
 * Seals text together with data. Answers 1, 2, 3, 4, 5, 6, 0.
 *
 *   set    the number of the set
 *   key    read only
 *   nonce  read only
 *   data   associated data, which is not sent sealed but is covered by the tag; read only; may be empty
 *   text   what is sealed; read only; may be empty
 *   out    with answer 0 its first text_len bytes are the ciphertext, and those beyond keep what they held;
 *          with any other answer all of it keeps what it held
 *   tag    with answer 0 all of it is the tag; with any other answer it keeps what it held
 */
uint64_t kvistmaur_seal(uint64_t set,
                        const uint8_t *key, size_t key_len,
                        const uint8_t *nonce, size_t nonce_len,
                        const uint8_t *data, size_t data_len,
                        const uint8_t *text, size_t text_len,
                        uint8_t *out, size_t out_len,
                        uint8_t *tag, size_t tag_len);

/*
 * Opens cipher, when tag says that it was sealed with this data under this key and nonce. Answers 1, 2, 3, 4, 5, 6, 9, 0.
 *
 *   set    the number of the set
 *   key    read only
 *   nonce  read only
 *   data   the associated data that the message was sealed with; read only; may be empty
 *   cipher the ciphertext; read only; may be empty
 *   tag    the tag that came with it; read only
 *   out    with answer 0 its first cipher_len bytes are the text; with answer 9 they are zeros;
 *          those beyond keep what they held; with any other answer all of it keeps what it held
 */
uint64_t kvistmaur_open(uint64_t set,
                        const uint8_t *key, size_t key_len,
                        const uint8_t *nonce, size_t nonce_len,
                        const uint8_t *data, size_t data_len,
                        const uint8_t *cipher, size_t cipher_len,
                        const uint8_t *tag, size_t tag_len,
                        uint8_t *out, size_t out_len);

/*
 * Starts a sealing stream. Answers 8, 1, 2, 3, 5, 0; 8 is for the length of state alone. With 0 the rounds are 12.
 *
 *   set    the number of the set
 *   limit  the most bytes of text that the stream shall take, at most KVISTMAUR_TEXT_LIMIT
 *   key    read only; with answer 0 it is kept in state
 *   nonce  read only
 *   state  KVISTMAUR_STATE_LENGTH bytes; what they held before does not matter; with answer 0 they are the state of the new
 *          stream, in the phase of the data; with 1, 2, 3 and 5 the ended state; with 8 all of it keeps what it held
 */
uint64_t kvistmaur_start_sealing(uint64_t set, uint64_t limit,
                                 const uint8_t *key, size_t key_len,
                                 const uint8_t *nonce, size_t nonce_len,
                                 uint8_t *state, size_t state_len);

/* Starts a checking stream. All is as in kvistmaur_start_sealing, but for the direction; limit is that of the ciphertext. */
uint64_t kvistmaur_start_checking(uint64_t set, uint64_t limit,
                                  const uint8_t *key, size_t key_len,
                                  const uint8_t *nonce, size_t nonce_len,
                                  uint8_t *state, size_t state_len);

/* Starts an opening stream. All is as in kvistmaur_start_sealing, but for the direction; limit is that of the ciphertext. */
uint64_t kvistmaur_start_opening(uint64_t set, uint64_t limit,
                                 const uint8_t *key, size_t key_len,
                                 const uint8_t *nonce, size_t nonce_len,
                                 uint8_t *state, size_t state_len);

/*
 * Takes a piece of the associated data, in a stream of any direction. Answers 8, 7, 5, 0; 7 after a text call that was done,
 * and when the stream has ended. With 0 the rounds are the middle rounds for each block that the piece fills.
 *
 *   state  with answer 0 the next state; with any other answer it keeps what it held
 *   data   the piece; read only; may be empty
 */
uint64_t kvistmaur_stream_data(uint8_t *state, size_t state_len,
                               const uint8_t *data, size_t data_len);

/*
 * Seals a piece of the text, in a sealing stream. Answers 8, 7, 5, 6, 0; 7 in a stream of another direction, and when the
 * stream has ended. With 0 the rounds are the middle rounds for each block that the piece fills, and once more if this call
 * closes data that is not empty.
 *
 *   state  with answer 0 the next state, in the phase of the text; with any other answer it keeps what it held
 *   text   the piece; read only; may be empty
 *   out    with answer 0 its first text_len bytes are the piece's ciphertext, and those beyond keep what they held;
 *          with any other answer all of it keeps what it held
 */
uint64_t kvistmaur_stream_seal(uint8_t *state, size_t state_len,
                               const uint8_t *text, size_t text_len,
                               uint8_t *out, size_t out_len);

/*
 * Takes a piece of the ciphertext, in a checking stream, which hands out no text. Answers 8, 7, 5, 0; 7 and the rounds are as
 * in kvistmaur_stream_seal.
 *
 *   state  with answer 0 the next state, in the phase of the text; with any other answer it keeps what it held
 *   cipher the piece; read only; may be empty
 */
uint64_t kvistmaur_stream_check(uint8_t *state, size_t state_len,
                                const uint8_t *cipher, size_t cipher_len);

/*
 * Opens a piece of the ciphertext, in an opening stream. Answers 8, 7, 5, 6, 0; 7 and the rounds are as in
 * kvistmaur_stream_seal. What it hands out is UNVERIFIED until kvistmaur_finish_opening answers 0.
 *
 *   state  with answer 0 the next state, in the phase of the text; with any other answer it keeps what it held
 *   cipher the piece; read only; may be empty
 *   out    with answer 0 its first cipher_len bytes are the piece's text, unverified, and those beyond keep what they held;
 *          with any other answer all of it keeps what it held
 */
uint64_t kvistmaur_stream_open(uint8_t *state, size_t state_len,
                               const uint8_t *cipher, size_t cipher_len,
                               uint8_t *out, size_t out_len);

/*
 * Finishes a sealing stream, and gives the tag. Answers 8, 7, 4, 0; 7 in a stream of another direction, and when the stream
 * has ended, so also when it is finished a second time. With 0 the rounds are 12, and the middle rounds once more if this
 * call closes data that is not empty.
 *
 *   state  with answer 0 the ended state; with any other answer it keeps what it held
 *   tag    with answer 0 all of it is the tag; with any other answer it keeps what it held
 */
uint64_t kvistmaur_finish_sealing(uint8_t *state, size_t state_len,
                                  uint8_t *tag, size_t tag_len);

/*
 * Finishes a checking stream, and says whether tag is the tag of the data and the ciphertext that came. Answers 8, 7, 4, 9,
 * 0; 7 is as in kvistmaur_finish_sealing, and so are the rounds with 0 and with 9.
 *
 *   state  with answer 0 and with answer 9 the ended state; with any other answer it keeps what it held
 *   tag    the tag that came with the message; read only
 */
uint64_t kvistmaur_finish_checking(uint8_t *state, size_t state_len,
                                   const uint8_t *tag, size_t tag_len);

/*
 * Finishes an opening stream. All is as in kvistmaur_finish_checking, but for the direction. Only with 0 is what the stream
 * handed out, joined, the text of the message; a 9 does not reach those bytes.
 */
uint64_t kvistmaur_finish_opening(uint8_t *state, size_t state_len,
                                  const uint8_t *tag, size_t tag_len);

/*
 * Ends a stream without a tag, and so clears the key and the words that its state holds. Answers 8, 0; 8 is for the length
 * of state alone. The rounds are 0.
 *
 *   state  KVISTMAUR_STATE_LENGTH bytes, whatever they hold; with answer 0 the ended state; with 8 it keeps what it held
 */
uint64_t kvistmaur_stream_end(uint8_t *state, size_t state_len);

#ifdef __cplusplus
}
#endif

#endif
