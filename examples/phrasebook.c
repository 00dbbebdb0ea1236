/*
 * A phrase book over the C interface. Each line of the file PHRASES is a number in decimal, from 0 to 65535, one space, the listeners who
 * may hear the phrase, one space, and the phrase in UTF-8 as a dispatcher types it, of any length and with plain punctuation. Listeners are
 * pump, road and dispatch, in any order and with a comma between two. The phrase is read and edited, and dispatch puts its tape into the
 * book under its number. Then LISTENER looks up the phrase NUMBER: the codes of its tape are printed in decimal.
 *
 *     cc -I include examples/phrasebook.c crates/capi/out/libcapi.a -o phrasebook
 *     phrasebook examples/phrases.txt pump 7
 *
 * A line that has no number or no listeners, or whose phrase is refused, is told on standard error and is not in the book; the others are.
 * Where the lookup is refused, that is told there, too, and nothing is printed: a listener can't tell a phrase that is not for him from one
 * that is not there. The status is 0 exactly if every line is in the book and the phrase was found and printed. Where the file can't be
 * read or there is no memory left, nothing is printed.
 */
#define PROGRAM "phrasebook"

#include <string.h>

#include "govorun.h"
#include "lines.h"

/* The room that the book has to begin with; one of some thirty phrases takes no more. */
enum { FIRST_ROOM = 4096 };

/* NONE is what a text is read as that is not of the kind wanted. */
enum { MAX_PHRASE = 65535, NONE = -1, BOOK_TOO_SHORT = 11 };

/* The names of the listeners, each at its number. */
static const char *const listeners[] = {
    [GOVORUN_PUMP] = "pump", [GOVORUN_ROAD] = "road", [GOVORUN_DISPATCH] = "dispatch"
};

enum { LISTENERS = sizeof listeners / sizeof listeners[0] };

/* The book is the first part of its bytes, as long as the last addition has said. */
struct book {
    uint8_t *bytes;
    size_t used, room;
};

/* What a line has: a number, a set of listeners, and the text of the phrase from a place on. */
struct phrase {
    uint16_t number;
    uint8_t set;
    size_t from;
};

/* The phrase number that the text is, or NONE: it must be digits alone, and not too large. */
static int32_t read_number(const uint8_t *text, size_t len)
{
    int32_t number = 0;

    for (size_t i = 0; i < len; i++) {
        if (text[i] < '0' || text[i] > '9')
            return NONE;
        number = 10 * number + (text[i] - '0');
        if (number > MAX_PHRASE)
            return NONE;
    }
    return len > 0 ? number : NONE;
}

/* The listener whose name the text is, or NONE. */
static int32_t read_listener(const uint8_t *text, size_t len)
{
    for (int32_t i = 0; i < LISTENERS; i++)
        if (strlen(listeners[i]) == len && memcmp(listeners[i], text, len) == 0)
            return i;
    return NONE;
}

/* The set of the listeners that the text names, or NONE: each of its names must be one. A name that stands there twice counts once. */
static int32_t read_set(const uint8_t *text, size_t len)
{
    size_t from = 0;
    int32_t set = 0;

    for (size_t i = 0; i <= len; i++)
        if (i == len || text[i] == ',') {
            int32_t listener = read_listener(text + from, i - from);

            if (listener == NONE)
                return NONE;
            set |= 1 << listener;
            from = i + 1;
        }
    return set;
}

/* Adds a message to the book, as dispatch alone may, in edition 1, the present reading. */
static govorun_added add_once(const struct book *book, const struct phrase *phrase, const uint8_t *msg, size_t len)
{
    return govorun_book_add(GOVORUN_DISPATCH, false, book->bytes, book->room, book->used,
                            phrase->number, phrase->set, msg, len);
}

/* The same with more room if need be: where the book is too short, the answer's place is the length that it must have. */
static govorun_added add(struct book *book, const struct phrase *phrase, const uint8_t *msg, size_t len)
{
    govorun_added added = add_once(book, phrase, msg, len);

    if (added.number == BOOK_TOO_SHORT) {
        book->bytes = memory(book->bytes, added.place);
        book->room = added.place;
        added = add_once(book, phrase, msg, len);
    }
    if (added.number == 0)
        book->used = added.used;
    return added;
}

/* Tells of a refusal, if it is one. Gives whether there was none. */
static int accepted(size_t line_number, uint32_t number, size_t place)
{
    if (number != 0)
        fprintf(stderr, PROGRAM ": line %zu: refused %lu at %zu\n", line_number, (unsigned long)number, place);
    return number == 0;
}

/* Puts the phrase of a line into the book. Gives 0 if it is refused. */
static int tape(struct book *book, const struct line *line, const struct phrase *phrase, size_t line_number)
{
    govorun_text text = govorun_read_utf8(line->text + phrase->from, line->len - phrase->from, line->read, line->room);
    govorun_added added;

    if (!accepted(line_number, text.number, text.place))
        return 0;
    text = govorun_edit(line->read, text.length, line->edited, line->room);
    if (!accepted(line_number, text.number, text.place))
        return 0;
    added = add(book, phrase, line->edited, text.length);
    return accepted(line_number, added.number, added.place);
}

/* How many bytes a line has from a place on before the next space; 0 where there is none. */
static size_t field(const struct line *line, size_t from)
{
    const uint8_t *space = memchr(line->text + from, ' ', line->len - from);

    return space == NULL ? 0 : (size_t)(space - line->text) - from;
}

/* Reads what stands before a phrase: its number, a space, its listeners, a space. Tells if one of these is missing, and gives 0 then. */
static int read_phrase(const struct line *line, struct phrase *phrase, size_t line_number)
{
    size_t digits = field(line, 0);
    int32_t number = read_number(line->text, digits);
    size_t names;
    int32_t set;

    if (number == NONE) {
        fprintf(stderr, PROGRAM ": line %zu: no number\n", line_number);
        return 0;
    }
    names = field(line, digits + 1);
    set = read_set(line->text + digits + 1, names);
    if (set == NONE) {
        fprintf(stderr, PROGRAM ": line %zu: no listeners\n", line_number);
        return 0;
    }
    *phrase = (struct phrase){ (uint16_t)number, (uint8_t)set, digits + 1 + names + 1 };
    return 1;
}

/* Puts a line into the book. Gives 0 if it is not there. */
static int tape_line(struct book *book, const struct line *line, size_t line_number)
{
    struct phrase phrase;

    return read_phrase(line, &phrase, line_number) && tape(book, line, &phrase, line_number);
}

/* Puts the lines of a file into the book, as far as it can be read. Gives 0 if one of them is not in the book. */
static int tape_lines(struct book *book, FILE *file)
{
    struct line line = first_line();
    size_t line_number = 0;
    int all = 1;

    while (read_line(file, &line))
        all &= tape_line(book, &line, ++line_number);
    free_line(&line);
    return all;
}

/* Prints the codes of a phrase, or tells that the listener is refused. Gives whether they were printed. */
static int print_phrase(const struct book *book, uint32_t listener, uint16_t phrase)
{
    govorun_found found = govorun_book_find(listener, book->bytes, book->room, book->used, phrase);

    if (found.number != 0) {
        fprintf(stderr, PROGRAM ": refused %lu at %zu\n", (unsigned long)found.number, found.place);
        return 0;
    }
    print_codes(book->bytes + found.start, found.length);
    putchar('\n');
    return 1;
}

/* Makes the book of an open file and prints the phrase. Gives 0 if a line or the phrase is missing, or something was not read or written. */
static int make_and_print(FILE *file, uint32_t listener, uint16_t phrase)
{
    struct book book = { memory(NULL, FIRST_ROOM), 0, FIRST_ROOM };
    int done = tape_lines(&book, file);

    if (ferror(file)) {
        fputs(PROGRAM ": the phrases could not be read\n", stderr);
        done = 0;
    } else {
        done &= print_phrase(&book, listener, phrase);
    }
    free(book.bytes);
    return done && fflush(stdout) == 0 && !ferror(stdout);
}

int main(int argc, char **argv)
{
    int32_t listener = argc == 4 ? read_listener((const uint8_t *)argv[2], strlen(argv[2])) : NONE;
    int32_t number = argc == 4 ? read_number((const uint8_t *)argv[3], strlen(argv[3])) : NONE;
    FILE *file;
    int done;

    if (listener == NONE || number == NONE) {
        fputs("usage: " PROGRAM " PHRASES LISTENER NUMBER\n", stderr);
        return EXIT_FAILURE;
    }
    file = fopen(argv[1], "rb");
    if (file == NULL) {
        fprintf(stderr, PROGRAM ": %s could not be opened\n", argv[1]);
        return EXIT_FAILURE;
    }
    done = make_and_print(file, (uint32_t)listener, (uint16_t)number);
    fclose(file);
    return done ? EXIT_SUCCESS : EXIT_FAILURE;
}
