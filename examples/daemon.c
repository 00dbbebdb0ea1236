/*
 * A polling daemon's loop over the C interface. Each line of standard input is a text in UTF-8, without its newline, of any length and
 * with plain punctuation. It is read and edited first, and for the message that it becomes one line is printed: the message as it was
 * understood, in UTF-8, a colon and a space, and the codes of the tape in decimal; or the refusal, whose place counts in the line if the
 * number is 13, else in the edited message. A line that is a whole number in decimal is a level of the probe's: its words are the message.
 * Where the input can't be read any further or there is no memory left, the daemon says so on standard error and ends with nothing
 * spoken of that line. Tapes are of edition 1, the present reading, or with the option -2 of
 * edition 2, the newer one.
 *
 *     cc -I include examples/daemon.c crates/capi/out/libcapi.a -o daemon
 *     daemon -2
 */
#define PROGRAM "daemon"

#include <string.h>

#include "govorun.h"
#include "lines.h"

/* The largest level that is spoken, and room for the words of any. */
enum { MAX_LEVEL = 9999, LEVEL_BYTES = 54 };

static void print_refusal(uint32_t number, size_t place)
{
    printf("refused %lu at %zu\n", (unsigned long)number, place);
}

static void print_spoken(const uint8_t *text, size_t length, const uint8_t *tape, size_t codes)
{
    fwrite(text, 1, length, stdout);
    fputs(": ", stdout);
    print_codes(tape, codes);
    putchar('\n');
}

/* Asks how long the tape will be and lends just so much, for the text twice the message, which is the most; and prints what comes. */
static void speak(bool newer, const uint8_t *msg, size_t len)
{
    govorun_counts counts = govorun_check(msg, len);
    govorun_answer spoken, shown;
    uint8_t *tape, *text;

    if (counts.number != 0) {
        print_refusal(counts.number, counts.place);
        return;
    }
    tape = memory(NULL, counts.codes);
    text = memory(NULL, 2 * len);
    spoken = govorun_transcribe(newer, msg, len, tape, counts.codes);
    shown = govorun_write_utf8(msg, len, text, 2 * len);
    if (spoken.number != 0)
        print_refusal(spoken.number, spoken.place);
    else if (shown.number != 0)
        print_refusal(shown.number, shown.place);
    else
        print_spoken(text, shown.length, tape, spoken.length);
    free(text);
    free(tape);
}

static void read_and_speak(bool newer, struct line *line)
{
    govorun_text read = govorun_read_utf8(line->text, line->len, line->read, line->room);
    govorun_text edited;

    if (read.number != 0) {
        print_refusal(read.number, read.place);
        return;
    }
    edited = govorun_edit(line->read, read.length, line->edited, line->room);
    if (edited.number != 0)
        print_refusal(edited.number, edited.place);
    else
        speak(newer, line->edited, edited.length);
}

/* Is the line a whole number: digits alone, behind a minus sign or none? */
static int is_number(const struct line *line)
{
    size_t sign = line->len > 0 && line->text[0] == '-';

    for (size_t i = sign; i < line->len; i++)
        if (line->text[i] < '0' || line->text[i] > '9')
            return 0;
    return line->len > sign;
}

/* The number. Digits that take it past the range no longer count, so that it stays outside however many there are. */
static int32_t read_number(const struct line *line)
{
    size_t sign = line->text[0] == '-';
    int32_t number = 0;

    for (size_t i = sign; i < line->len; i++)
        if (number <= MAX_LEVEL)
            number = 10 * number + (line->text[i] - '0');
    return sign ? -number : number;
}

static void speak_level(bool newer, int32_t level)
{
    uint8_t words[LEVEL_BYTES];
    govorun_answer spoken = govorun_speak_level(level, words, sizeof words);

    if (spoken.number != 0)
        print_refusal(spoken.number, spoken.place);
    else
        speak(newer, words, spoken.length);
}

int main(int argc, char **argv)
{
    bool newer = argc == 2 && strcmp(argv[1], "-2") == 0;
    struct line line;

    if (argc > 1 && !newer) {
        fputs("usage: " PROGRAM " [-2]\n", stderr);
        return EXIT_FAILURE;
    }
    line = first_line();
    while (read_line(stdin, &line)) {
        if (is_number(&line))
            speak_level(newer, read_number(&line));
        else
            read_and_speak(newer, &line);
        /* Whoever polls waits for this line. */
        fflush(stdout);
    }
    free_line(&line);
    if (ferror(stdin))
        fputs(PROGRAM ": standard input could not be read\n", stderr);
    return ferror(stdin) || ferror(stdout) ? EXIT_FAILURE : EXIT_SUCCESS;
}
