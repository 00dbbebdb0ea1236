/*
 * What the examples share: memory, the lines of a file, each of any length and with room for what the unit makes of it, and how a tape is
 * printed. PROGRAM, the name of the program that includes this, must be defined: by it the program complains.
 */
#ifndef LINES_H
#define LINES_H

#include <stdint.h>
#include <stdio.h>
#include <stdlib.h>

/* A line, and as much room for what is read of it and for that edited, which are never longer. */
struct line {
    uint8_t *text, *read, *edited;
    size_t len, room;
};

/* Memory for so many bytes, which must not be 0, in the place of the old or of NULL. Ends the program if there is none. */
static uint8_t *memory(uint8_t *old, size_t bytes)
{
    uint8_t *made = realloc(old, bytes);

    if (made == NULL) {
        fputs(PROGRAM ": there is no memory left\n", stderr);
        exit(EXIT_FAILURE);
    }
    return made;
}

static void make_room(struct line *line, size_t room)
{
    line->text = memory(line->text, room);
    line->read = memory(line->read, room);
    line->edited = memory(line->edited, room);
    line->room = room;
}

/* A line with room from the start: the unit is handed no NULL, even for an empty one. */
static struct line first_line(void)
{
    struct line line = { NULL, NULL, NULL, 0, 0 };

    make_room(&line, 4096);
    return line;
}

static void free_line(struct line *line)
{
    free(line->text);
    free(line->read);
    free(line->edited);
}

/* Reads a line. Gives 0 when there is none: the file has ended, or could not be read, and what came of the line is no line. */
static int read_line(FILE *file, struct line *line)
{
    int byte = getc(file);
    int ended = byte == EOF;

    line->len = 0;
    while (byte != EOF && byte != '\n') {
        /* Twice the room is no overflow: text and edited together have so many bytes already. */
        if (line->len == line->room)
            make_room(line, 2 * line->room);
        line->text[line->len++] = (uint8_t)byte;
        byte = getc(file);
    }
    return !ended && !ferror(file);
}

/* Prints codes in decimal, one space between. */
static void print_codes(const uint8_t *tape, size_t codes)
{
    for (size_t i = 0; i < codes; i++)
        printf("%s%d", i == 0 ? "" : " ", tape[i]);
}

#endif
