/*
 * Govorun: from stress-marked Russian to a tape of sound codes.
 *
 * Link with crates/capi/out/libcapi.a, which `rt lib` in crates/capi writes.
 *
 * Every function here is proved to do what it promises, but for the stack, for all bytes, lengths and outputs whatever:
 *   - it reads only msg[0 .. len) (of editor and reader text[0 .. len)), cuts[0 .. n) and book[0 .. size), and writes only out[0 .. cap)
 *     or, to add a phrase, book[0 .. size);
 *   - it always returns; it allocates nothing, keeps nothing between calls and calls nothing outside but memset of the C library;
 *   - it uses at most 4,096 bytes of stack, its return address with them (measured by the tests on the worst messages, not proved);
 *   - a refusal leaves every byte of out or book as it was; on acceptance out begins with the answer, book with the longer book, and
 *     its other bytes are kept.
 * The caller sees to what a call in C can't show: each pointer points to that many bytes (or places), and neither out nor book, where
 * it is written, overlaps msg, text or cuts. Where a length is 0 the pointer may be anything but NULL. Calls from several threads don't disturb one another.
 *
 * A message is Windows-1251: words with one gap (0x20) or pause ('#') between neighbours, a stress mark ('*') right after a
 * stressed vowel, at most 4,096 bytes. A text in UTF-8 is read first, by govorun_read_utf8, and one with commas and stops is then
 * edited, by govorun_edit. govorun_write_utf8 turns a message back. The words of a level are a message that govorun_speak_level writes.
 * Phrases that are heard daily are kept taped in a book, each for some listeners: govorun_book_add adds one, govorun_book_find finds it for
 * a listener who may hear it.
 *
 * A tape is made in one of two editions, and each call that makes one is told which by its argument
 * newer: edition 1 (false) is the present reading, edition 2 (true) the newer one. Where one of the
 * letters е, я and а, small or capital, makes the code 8 in edition 1, it makes 10 in edition 2.
 * All other codes are the same in both, the 8 that э makes too. So the two tapes of a message are
 * equally long, and a call refuses in one edition just what it refuses in the other.
 */
#ifndef GOVORUN_H
#define GOVORUN_H

#include <stdbool.h>
#include <stddef.h>
#include <stdint.h>

#ifdef __cplusplus
extern "C" {
#endif

/*
 * number 0: accepted, place 0, length bytes of out were written (live: how many cuts of the list are live; 0 but for the joiner).
 * Any other number: refused, length 0, live 0, and
 *    1  no bytes                                     place 0
 *    2  over 4,096 bytes                             place 0
 *    3  a byte that is no letter, mark or break      its place
 *    4  a break first, last or after a break         its place
 *    5  a mark not right after a vowel               its place
 *    6  a word begins with a sign                    the sign's place
 *    7  a sign after a sign                          the second one's place
 *    8  a consonant after a hard sign                its place
 *    9  vowel, sign, vowel                           the last vowel's place
 *   10  the 65th letter of a word                    its place
 *   11  cap is too small                             the length of the full answer
 *   12  a cut is no place of a break, or not above the one before   its index in the list
 *   14  a level outside -9,999 to 9,999              place 0
 * 1, then 2, then the smallest place of 3 to 10 and there the smallest number, then 12, then 11. For a level 14, then 11.
 */
typedef struct {
    uint32_t number, place, length, live;
} govorun_answer;

/* number and place as above (1 to 10); codes and names are the lengths of the tape and of the naming, 0 where refused. */
typedef struct {
    uint32_t number, place, codes, names;
} govorun_counts;

/* Checks a message, and tells how much output the other calls will take. */
govorun_counts govorun_check(const uint8_t *msg, size_t len);

/* Writes one byte, 1 to 7, for each syllable of the message, in order. At most len bytes. */
govorun_answer govorun_name(const uint8_t *msg, size_t len, uint8_t *out, size_t cap);

/*
 * Writes the tape of the message in that edition: a code, 1 to 56, for each sound, 0 for a gap, 63
 * for a pause. At most 2 * len bytes, and in either edition as many as the check counts.
 */
govorun_answer govorun_transcribe(bool newer, const uint8_t *msg, size_t len, uint8_t *out,
                                  size_t cap);

/*
 * Writes the tapes of the message's parts, cut at the places of its breaks that cuts lists in strictly rising order, with the mark of
 * each cut between its neighbours, all in that edition. As long as the whole message's tape in the
 * same edition, and equal to it exactly where live is 0. Which cuts are live does not depend on the
 * edition.
 */
govorun_answer govorun_join(bool newer, const uint8_t *msg, size_t len, const size_t *cuts,
                            size_t n, uint8_t *out, size_t cap);

/*
 * For texts of any length. number 0: accepted, place 0, length bytes of out were written. Any other number: refused, length 0, and
 *   11  cap is too small                             the length of the full answer
 *   13  what stands there in UTF-8 is not taken      the first byte of it
 * 13, then 11.
 */
typedef struct {
    uint32_t number;
    size_t place, length;
} govorun_text;

/*
 * Makes of a text the message that is meant, for the calls above. Each of . , ; : ? ! becomes a pause and each of - ( ) " ' a gap; a run
 * of breaks becomes one, a pause if there is a pause in it; breaks at either end vanish; every other byte passes as it is.
 * A text may have any length. At most len bytes are written, so an output of len bytes is always enough; 11 is the only refusal. A
 * text of breaks alone gives length 0, and the check then says 1. The edited text never meets 4, places count in it, and so does the
 * limit of number 2. To edit it again changes nothing, nor does it to edit a message that the check accepts.
 */
govorun_text govorun_edit(const uint8_t *text, size_t len, uint8_t *out, size_t cap);

/*
 * Reads a text in UTF-8 (RFC 3629): each Russian letter, small or capital, ё and Ё among them, each mark, gap and pause and each of
 * . , ; : ? ! - ( ) " ' becomes its own byte, in Windows-1251 and unedited. 13 where the next sequence is malformed or is any other
 * character, at its first byte, also where cap is too small. A text may have any length, 0 too, and 1 to 10 are not looked for. At
 * most len bytes are written, so an output of len bytes is always enough.
 */
govorun_text govorun_read_utf8(const uint8_t *text, size_t len, uint8_t *out, size_t cap);

/*
 * Writes a message in UTF-8, each letter as it stands, small or capital. 1 to 10 as for the check, then 11. At most 2 * len bytes.
 * govorun_read_utf8 gives the message back; and where a text was read and is an accepted message, this gives the text back.
 */
govorun_answer govorun_write_utf8(const uint8_t *msg, size_t len, uint8_t *out, size_t cap);

/*
 * Writes a level in centimetres as Russian words, a message that govorun_check accepts: thousands, hundreds, tens and units, before them
 * the word for minus where the level is below zero, and for zero its own word alone; one gap between, one stress mark in each word. Two
 * levels have equal words exactly when they are equal. Any number may be asked for: 14 outside -9,999 to 9,999, however small cap is, then
 * 11. At most 54 bytes.
 */
govorun_answer govorun_speak_level(int32_t level, uint8_t *out, size_t cap);

/*
 * The listeners of a phrase book, of whom each call below names one. For each that may hear a phrase its set has the bit 1 << listener; the
 * set's other bits are kept as given and passed over. A listener of any other number hears nothing and adds nothing.
 */
enum { GOVORUN_PUMP = 0, GOVORUN_ROAD = 1, GOVORUN_DISPATCH = 2 };
enum { GOVORUN_FOR_PUMP = 1, GOVORUN_FOR_ROAD = 2, GOVORUN_FOR_DISPATCH = 4 };

/*
 * A phrase book. A record is the mark 0x52 0x9F, the phrase's number, its set of listeners, the length of its tape, and then the tape; the
 * set is one byte, number and length are two each, low byte first. The book is book[0 .. used), record after record, with numbers that
 * rise strictly; a used count above size is read as size. An empty book has used 0, and its first
 * number may be 0. A book may hold phrases of both editions; a record does not say which, and a
 * lookup finds the tape as it was added. Both calls below refuse with
 *   15  the mark is missing, or the record is cut short     the record's start
 *   16  the number is not above the one before              the record's start; of a phrase to be added, the book's end
 *   17  not for this listener                               place 0
 * 15 and 16 by the smallest place of the whole book, 15 before 16 at one place; 17 in a lookup after them, in an addition before every
 * other check.
 */

/* number 0: added, place 0, and used is the new used count, for the next call. Any other number: refused, used 0. */
typedef struct {
    uint32_t number;
    size_t place, used;
} govorun_added;

/*
 * Adds the tape of a message in that edition at the end of the book, under a number above the last
 * and for the listeners of a set, which may be any byte.
 * 17 first, unless the listener is GOVORUN_DISPATCH; then 1 to 10 of the message, then 15 and 16 of the book, then 16 for the number, then
 * 11: size is too small, and the place is the bytes of the book with the addition. At most 7 + 2 * len bytes are added.
 */
govorun_added govorun_book_add(uint32_t listener, bool newer, uint8_t *book, size_t size,
                               size_t used, uint16_t phrase, uint8_t set, const uint8_t *msg,
                               size_t len);

/*
 * number 0, place 0, found 1: the tape is book[start .. start + length). Any other number: refused, 15 or 16 at its place or 17 at 0;
 * found, start and length are 0.
 */
typedef struct {
    uint32_t number;
    size_t place;
    uint32_t found;
    size_t start, length;
} govorun_found;

/*
 * Finds the tape under a number for a listener. 15 and 16 of the book first, then 17, alike where there is no such phrase and where its set
 * lacks the listener. What stands after the used count makes no difference.
 *
 * Two books that are sound, so that neither 15 nor 16 is met, and agree in the numbers and tapes of the phrases that a listener may hear
 * give him the same answers, however often he asks: number, place, found, length and the tape's bytes. This is not said of start, which
 * tells where in the book the tape stands, and so how much stands before it: hand a crew the bytes and not the place. Nor is it said of
 * 15 and 16, which tell of the book's state, nor of the time of a call, which grows with the whole book and is a little more for a phrase
 * that is not for him than for none.
 */
govorun_found govorun_book_find(uint32_t listener, const uint8_t *book, size_t size, size_t used, uint16_t phrase);

#ifdef __cplusplus
}
#endif

#endif
