/*
 * Measures the proved library beside the baseline on the same messages, on texts for the editor and for the reader, on levels and on
 * phrase books.
 *
 *   measure time    compares all answers and outputs of the two, then prints the nanoseconds a byte of each
 *   measure count   makes each call once between requests to callgrind, which then holds the instructions of each
 *
 * A line of either is a case, an operation and numbers, with tabs between. The script `run` puts the two together.
 */
#define _POSIX_C_SOURCE 199309L

#include <stdint.h>
#include <stdio.h>
#include <stdlib.h>
#include <string.h>
#include <time.h>
#include <valgrind/callgrind.h>

#include "../include/govorun.h"
#include "baseline.h"

enum { MAX_BYTES = 65536, MAX_CUTS = 4096 / 2, OUT_BYTES = 2 * MAX_BYTES, FILLER = 0xAA };
enum { MAX_LEVEL = 9999, MAX_LEVELS = 2 * MAX_LEVEL + 1, LEVEL_ROOM = 64, LEVEL_BYTES = 2 * LEVEL_ROOM };
/* A phrase has its least bytes and more by chance, and then the rest of a word: at most 60. Its tape has at most twice as many. */
enum { PHRASE_LEAST = 20, PHRASE_MORE = 24, PHRASE_BYTES = 60, RECORD_HEAD = 7, RECORD_BYTES = RECORD_HEAD + 2 * PHRASE_BYTES };
enum { MAX_RECORDS = 5000, NUMBER_STEP = 13, BOOK_BYTES = (MAX_RECORDS + 1) * RECORD_BYTES };
enum { ROUNDS = 40, ROUND_NS = 200000 };

/* Words of dispatchers' messages, a mark after each stressed vowel. */
static const char *const words[] = {
    "насо*сная", "ста*нция", "Заре*чная", "на", "у*лице", "Лесно*й", "в", "подъе*зде", "вода*", "подняла*сь", "до", "отме*тки",
    "три*дцать", "се*мь", "сантиме*тров", "ли*вень", "и", "за*сорная", "решётка", "не", "рабо*тает", "второ*й", "агрега*т",
    "останови*лся", "к", "колле*ктору", "вы*ехала", "брига*да", "Королёва", "из", "Петергофа", "задви*жка", "закры*та", "с",
    "утра*", "подзе*мный", "перехо*д", "под", "желе*зной", "доро*гой", "затоплен", "уро*вень", "расте*т", "бы*стро", "дежу*рный",
    "отве*тил", "что", "исла*ндский", "электродви*гатель", "перегре*лся", "резе*рвный", "включи*ли", "по*здно", "ле*стница",
    "све*рху", "обледене*ла", "лю*к", "откры*т", "осторо*жно", "объе*зд", "че*рез", "Щу*кино", "шоссе*", "жди*те", "сообще*ния",
    "об", "ава*рии", "Ильи*нское", "мо*ст", "дождь", "зде*сь", "ещё", "идёт", "цех", "чи*ст", "сва*дьба", "от", "го*рода",
};

/* Words whose parts make every cluster with an elided letter. */
static const char *const cluster_words[] = {
    "стназдна*рдцандска", "ндштустску*нтски", "рдчиздци*ндцостна", "стскандшты*", "нтскиндсе*рдчуздня",
};

/* Obstruents alone: the voice of a last word that begins with д goes through all words before it. */
static const char *const chain_words[] = {"к", "с", "т", "п", "ш", "х", "ц", "ч", "щ"};

static const char *const letter_words[] = {"к", "с", "в", "а", "у", "о", "и", "я", "б", "э"};

/*
 * Words of 64 letters, vowels alone and syllables of two letters: the mark on the first vowel, so that the level of the last is settled by the
 * farthest byte; on the last; on none; and on every vowel, so that every syllable is stressed.
 */
static const char *const vowels_first[] = {"а*оуыэеёиюяаоуыэеёиюяаоуыэеёиюяаоуыэеёиюяаоуыэеёиюяаоуыэеёиюяаоуы"};
static const char *const vowels_last[] = {"аоуыэеёиюяаоуыэеёиюяаоуыэеёиюяаоуыэеёиюяаоуыэеёиюяаоуыэеёиюяаоуы*"};
static const char *const vowels_none[] = {"аоуыэеёиюяаоуыэеёиюяаоуыэеёиюяаоуыэеёиюяаоуыэеёиюяаоуыэеёиюяаоуы"};
static const char *const vowels_every[] = {
    "а*о*у*ы*э*е*ё*и*ю*я*а*о*у*ы*э*е*ё*и*ю*я*а*о*у*ы*э*е*ё*и*ю*я*а*о*у*ы*э*е*ё*и*ю*я*а*о*у*ы*э*е*ё*и*ю*я*а*о*у*ы*э*е*ё*и*ю*я*а*о*у*ы*",
};
static const char *const letters_first[] = {"на*восутымэлерёкинювясатомулырэкенёвисютямалорукынэвесётимюлярако"};
static const char *const letters_last[] = {"навосутымэлерёкинювясатомулырэкенёвисютямалорукынэвесётимюлярако*"};
static const char *const letters_none[] = {"навосутымэлерёкинювясатомулырэкенёвисютямалорукынэвесётимюлярако"};
static const char *const letters_every[] = {
    "на*во*су*ты*мэ*ле*рё*ки*ню*вя*са*то*му*лы*рэ*ке*нё*ви*сю*тя*ма*ло*ру*кы*нэ*ве*сё*ти*мю*ля*ра*ко*",
};

/* о after ь, at each level, and after ъ. */
static const char *const soft_sign_words[] = {"бульо*н", "каньо*н", "медальо*н", "гильоти*на", "гильотини*ровать", "подъо*м"};

/* What stands after a word, by turns. */
static const char *const gaps[] = {" "};
static const char *const gaps_and_pauses[] = {" ", " ", " ", " ", " ", " ", " ", " ", "#"};
static const char *const punctuation[] = {
    ", ", " ", " ", ". ", " ", " (", " ", "), ", " ", " ", ": \"", " ", " ", "!\" ", " ", " ", " - ", " ", "; ", " ", "-", " ", "? ",
};
static const char *const nothing[] = {""};

/* All breaks that the editor knows. */
static const char *const break_words[] = {" ", "-", "(", ")", "\"", "'", "#", ".", ",", ";", ":", "?", "!"};

/* All letters, with the signs where they may stand. */
static const char *const alphabets[] = {"АБВГДЕЁЖЗИЙКЛМНОПРСТУФХЦЧШЬЩЪЫЭЮЯ", "абвгдеёжзийклмнопрстуфхцчшьщъыэюя"};

/* All that the reader takes. */
static const char *const characters[] = {
    "АБВГДЕЁЖЗИЙКЛМНОПРСТУФХЦЧШЩЪЫЬЭЮЯ*#абвгдеёжзийклмнопрстуфхцчшщъыьэюя .,;:?!-()\"'",
};

/* One character of a UTF-8 text as a byte of Windows-1251; the text holds nothing but Russian letters and ASCII. */
static uint8_t next_byte(const char **text)
{
    const unsigned char *s = (const unsigned char *)*text;
    if (s[0] < 0x80) {
        *text += 1;
        return s[0];
    }
    *text += 2;
    unsigned point = (s[0] & 0x1Fu) << 6 | (s[1] & 0x3Fu);
    if (point == 0x451)
        return 0xB8;
    if (point == 0x401)
        return 0xA8;
    return (uint8_t)(point - 0x410 + 0xC0);
}

enum operation {
    NOTHING, CHECK, NAME, TRANSCRIBE, JOIN_NO_CUT, JOIN_ALL_CUTS,
    TRANSCRIBE_NEWER, JOIN_ALL_CUTS_NEWER, EDIT, EDIT_JUST_ROOM, EDIT_NO_ROOM,
    READ, READ_JUST_ROOM, READ_NO_ROOM, READ_REFUSED, WRITE, WRITE_JUST_ROOM, WRITE_NO_ROOM,
    SPEAK, SPEAK_JUST_ROOM, SPEAK_REFUSED,
    FIND_FIRST, FIND_MIDDLE, FIND_LAST, FIND_NONE, FIND_NOT_HEARD, FIND_DAMAGED,
    ADD, ADD_NEWER, ADD_TOO_SHORT, ADD_NOT_ABOVE, ADD_NOT_DISPATCH, OPERATIONS
};

struct spoken {
    int32_t level;
    size_t length; /* of its words; 0 where the level is refused */
};

/* What a call is given beside the book's bytes, and beside the message that it may add. */
struct book_call {
    uint32_t listener;
    bool newer; /* the edition of a phrase that is added */
    size_t size, used;
    uint16_t phrase;
    uint8_t set; /* of a phrase that is added */
};

struct message {
    uint8_t bytes[MAX_BYTES];
    size_t len;
    size_t cuts[MAX_CUTS];
    size_t cut_count;
    size_t edited;                    /* the length of its edited text, where it is a text for the editor */
    uint8_t utf8[2 * MAX_BYTES + 1];  /* the same in UTF-8, where it is for the reader or the writer, and a first byte alone after it */
    size_t utf8_len;                  /* without that byte */
    struct spoken levels[MAX_LEVELS]; /* where it is no message but levels */
    size_t level_count;
    size_t records;                   /* of the book, where there is one; the message is then what is added to it */
    struct book_call calls[OPERATIONS];
    const char *name;
    /* What costs are divided by: its bytes; the bytes of all words of its levels; how many these are, if refused; its records; or 1. */
    size_t units;
    int uses;
};

struct list {
    const char *const *items;
    size_t count;
};

/*
 * What operations a case is for. A text with punctuation is for the editor or the reader alone: all else would refuse it. Levels are
 * apart from all of these: spoken with room for any, with just room, or outside the range. So are books, for which costs are divided by
 * their records in a lookup, by the message's bytes in an addition, and by 1 in one by a listener who may not add: it looks at neither.
 * Tapes are made in edition 1, for some messages and for one addition in edition 2 as well.
 */
enum {
    FOR_MESSAGES = 1, FOR_EDITOR = 2, FOR_READER = 4, FOR_WRITER = 8,
    FOR_SPEAKER = 16, FOR_SHORT_OUTPUT = 32, FOR_REFUSAL = 64, FOR_LEVELS = FOR_SPEAKER | FOR_SHORT_OUTPUT | FOR_REFUSAL,
    FOR_LOOKUP = 128, FOR_ADDITION = 256, FOR_BARRED_ADDITION = 512, FOR_BOOKS = FOR_LOOKUP | FOR_ADDITION | FOR_BARRED_ADDITION,
    FOR_NEWER = 1024, FOR_BOTH_EDITIONS = FOR_MESSAGES | FOR_NEWER, FOR_NEWER_ADDITION = 2048,
    FOR_ALL = 4095
};

struct test_case {
    const char *name;
    size_t len;
    struct list words, after;
    int shuffled;     /* the words, not what stands after them */
    const char *last; /* the word to end with, or NULL */
    int uses;
};

/* The levels from first to last whose words have at least so many bytes. */
struct level_case {
    const char *name;
    int32_t first, last;
    size_t least;
    int uses;
};

struct book_case {
    const char *name;
    size_t records;
    int uses;
};

static uint32_t next_random(uint32_t *seed)
{
    *seed = *seed * 1664525u + 1013904223u;
    return *seed >> 8;
}

static void append(struct message *message, size_t len, const char *word)
{
    while (*word && message->len < len)
        message->bytes[message->len++] = next_byte(&word);
}

/* Fills a message with words up to exactly the case's length. The last word may be cut short: the beginning of a word is a word. */
static void fill(struct message *message, const struct test_case *c)
{
    uint32_t seed = 1;
    message->len = 0;
    for (size_t i = 0; message->len < c->len; i++) {
        size_t chance = next_random(&seed), pick = c->shuffled ? chance : i;
        append(message, c->len, c->words.items[pick % c->words.count]);
        append(message, c->len, c->after.items[i % c->after.count]);
    }
}

/* Where the last byte is a break, which may end no message, the word before it gets one more letter. */
static void end_in_letter(struct message *message)
{
    size_t len = message->len;
    if (message->bytes[len - 1] == ' ' || message->bytes[len - 1] == '#') {
        message->len = len - 1;
        append(message, len, "о");
    }
}

/* Puts a word at the end of a message, where a word as long or one-letter words stand. */
static void end_with(struct message *message, const char *word)
{
    size_t len = message->len, letters = strlen(word) / 2;
    message->len = len - letters;
    append(message, len, word);
}

static void list_all_cuts(struct message *message)
{
    message->cut_count = 0;
    for (size_t i = 0; i < message->len; i++)
        if (message->bytes[i] == ' ' || message->bytes[i] == '#')
            message->cuts[message->cut_count++] = i;
}

/* Puts the message, Russian letters and ASCII, in UTF-8 as well, and after it the first byte of a letter whose second is missing. */
static void encode(struct message *message)
{
    uint8_t *w = message->utf8;
    for (size_t i = 0; i < message->len; i++) {
        unsigned byte = message->bytes[i];
        if (byte < 0x80) {
            *w++ = (uint8_t)byte;
            continue;
        }
        unsigned point = byte == 0xB8 ? 0x451 : byte == 0xA8 ? 0x401 : byte - 0xC0 + 0x410;
        *w++ = (uint8_t)(0xC0 | point >> 6);
        *w++ = (uint8_t)(0x80 | (point & 0x3F));
    }
    *w = 0xD0;
    message->utf8_len = (size_t)(w - message->utf8);
}

#define LIST(array) {array, sizeof array / sizeof array[0]}

static const struct test_case cases[] = {
    {"text", 16, LIST(words), LIST(gaps_and_pauses), 1, NULL, FOR_BOTH_EDITIONS | FOR_WRITER},
    {"text", 64, LIST(words), LIST(gaps_and_pauses), 1, NULL, FOR_BOTH_EDITIONS},
    {"text", 256, LIST(words), LIST(gaps_and_pauses), 1, NULL, FOR_BOTH_EDITIONS},
    {"text", 1024, LIST(words), LIST(gaps_and_pauses), 1, NULL, FOR_BOTH_EDITIONS},
    {"text", 4096, LIST(words), LIST(gaps_and_pauses), 1, NULL, FOR_BOTH_EDITIONS | FOR_WRITER},
    {"one-letter words", 4096, LIST(letter_words), LIST(gaps_and_pauses), 1, NULL, FOR_MESSAGES},
    {"chain of voice", 4096, LIST(chain_words), LIST(gaps), 0, "до", FOR_MESSAGES},
    {"64 vowels, first", 4096, LIST(vowels_first), LIST(gaps), 0, NULL, FOR_MESSAGES},
    {"64 vowels, last", 4096, LIST(vowels_last), LIST(gaps), 0, NULL, FOR_MESSAGES},
    {"64 vowels, none", 4096, LIST(vowels_none), LIST(gaps), 0, NULL, FOR_MESSAGES},
    {"64 vowels, every", 4096, LIST(vowels_every), LIST(gaps), 0, NULL, FOR_MESSAGES},
    {"64 letters, first", 4096, LIST(letters_first), LIST(gaps), 0, NULL, FOR_MESSAGES},
    {"64 letters, last", 4096, LIST(letters_last), LIST(gaps), 0, NULL, FOR_MESSAGES},
    {"64 letters, none", 4096, LIST(letters_none), LIST(gaps), 0, NULL, FOR_MESSAGES},
    {"64 letters, every", 4096, LIST(letters_every), LIST(gaps), 0, NULL, FOR_MESSAGES},
    {"clusters", 4096, LIST(cluster_words), LIST(gaps), 0, NULL, FOR_MESSAGES},
    {"soft sign, then o", 4096, LIST(soft_sign_words), LIST(gaps), 0, NULL, FOR_MESSAGES},
    {"every letter", 4096, LIST(alphabets), LIST(gaps_and_pauses), 0, NULL, FOR_WRITER},
    {"punctuated text", 16, LIST(words), LIST(punctuation), 1, NULL, FOR_EDITOR},
    {"punctuated text", 256, LIST(words), LIST(punctuation), 1, NULL, FOR_EDITOR},
    {"punctuated text", 4096, LIST(words), LIST(punctuation), 1, NULL, FOR_EDITOR},
    {"breaks only", 4096, LIST(break_words), LIST(nothing), 1, NULL, FOR_EDITOR},
    {"text in UTF-8", 16, LIST(words), LIST(punctuation), 1, NULL, FOR_READER},
    {"text in UTF-8", 4096, LIST(words), LIST(punctuation), 1, NULL, FOR_READER},
    {"text in UTF-8", 65536, LIST(words), LIST(punctuation), 1, NULL, FOR_READER},
    {"every character", 4096, LIST(characters), LIST(nothing), 0, NULL, FOR_READER},
};

static const struct level_case level_cases[] = {
    {"every level", -MAX_LEVEL, MAX_LEVEL, 0, FOR_SPEAKER | FOR_SHORT_OUTPUT},
    {"longest levels", -MAX_LEVEL, MAX_LEVEL, 54, FOR_SPEAKER},
    {"levels 0 to 20", 0, 20, 0, FOR_SPEAKER | FOR_SHORT_OUTPUT},
    {"levels outside", MAX_LEVEL + 1, MAX_LEVEL + 1000, 0, FOR_REFUSAL},
};

static const struct book_case book_cases[] = {
    {"book 30", 30, FOR_LOOKUP},
    {"book 5000", MAX_RECORDS, FOR_LOOKUP},
    {"empty book", 0, FOR_ADDITION},
    {"book 30", 30, FOR_ADDITION | FOR_NEWER_ADDITION},
    {"book 5000", MAX_RECORDS, FOR_ADDITION},
    {"book 30", 30, FOR_BARRED_ADDITION},
};

/*
 * A refusal for want of room is compared but not measured, since just enough room takes no less; an addition to a book takes less, so there
 * it is measured. Levels and books are compared apart.
 */
static const struct {
    const char *name;
    int uses, measured;
    uint32_t number; /* what both libraries must answer with */
} operations[OPERATIONS] = {
    [NOTHING] = {"nothing", FOR_ALL, 1, 0},
    [CHECK] = {"check", FOR_MESSAGES | FOR_WRITER, 1, 0},
    [NAME] = {"name", FOR_MESSAGES, 1, 0},
    [TRANSCRIBE] = {"transcribe", FOR_MESSAGES, 1, 0},
    [JOIN_NO_CUT] = {"join, no cut", FOR_MESSAGES, 1, 0},
    [JOIN_ALL_CUTS] = {"join, all cuts", FOR_MESSAGES, 1, 0},
    [TRANSCRIBE_NEWER] = {"transcribe newer", FOR_NEWER, 1, 0},
    [JOIN_ALL_CUTS_NEWER] = {"join all newer", FOR_NEWER, 1, 0},
    [EDIT] = {"edit", FOR_EDITOR, 1, 0},
    [EDIT_JUST_ROOM] = {"edit, just room", FOR_EDITOR, 1, 0},
    [EDIT_NO_ROOM] = {"edit, no room", FOR_EDITOR, 0, 11},
    [READ] = {"read", FOR_READER, 1, 0},
    [READ_JUST_ROOM] = {"read, just room", FOR_READER, 1, 0},
    [READ_NO_ROOM] = {"read, no room", FOR_READER, 0, 11},
    [READ_REFUSED] = {"read, refused", FOR_READER, 1, 13},
    [WRITE] = {"write", FOR_WRITER, 1, 0},
    [WRITE_JUST_ROOM] = {"write, just room", FOR_WRITER, 1, 0},
    [WRITE_NO_ROOM] = {"write, no room", FOR_WRITER, 0, 11},
    [SPEAK] = {"speak", FOR_SPEAKER, 1, 0},
    [SPEAK_JUST_ROOM] = {"speak, just room", FOR_SHORT_OUTPUT, 1, 0},
    [SPEAK_REFUSED] = {"speak, refused", FOR_REFUSAL, 1, 14},
    [FIND_FIRST] = {"find first", FOR_LOOKUP, 1, 0},
    [FIND_MIDDLE] = {"find middle", FOR_LOOKUP, 1, 0},
    [FIND_LAST] = {"find last", FOR_LOOKUP, 1, 0},
    [FIND_NONE] = {"find none", FOR_LOOKUP, 1, 17},
    [FIND_NOT_HEARD] = {"find not heard", FOR_LOOKUP, 1, 17},
    [FIND_DAMAGED] = {"find damaged", FOR_LOOKUP, 1, 15},
    [ADD] = {"add", FOR_ADDITION, 1, 0},
    [ADD_NEWER] = {"add newer", FOR_NEWER_ADDITION, 1, 0},
    [ADD_TOO_SHORT] = {"add too short", FOR_ADDITION, 1, 11},
    [ADD_NOT_ABOVE] = {"add not above", FOR_ADDITION, 1, 16},
    [ADD_NOT_DISPATCH] = {"add not dispatch", FOR_BARRED_ADDITION, 1, 17},
};

/* No output is too short for an edit of breaks alone, and every number is above those of an empty book. */
static int suits(const struct message *m, enum operation operation)
{
    if ((operation == EDIT_NO_ROOM && m->edited == 0) || (operation == ADD_NOT_ABOVE && m->records == 0))
        return 0;
    return m->uses & operations[operation].uses;
}

/* The four numbers of either library's answers. Editor's and reader's place and length are wider: the fourth has what is above 32 bits. */
struct result {
    uint32_t number, place, first, second;
};

/* All that either library answers about a book. */
struct book_result {
    uint32_t number, found;
    size_t place, start, length, used;
};

typedef struct result run_function(enum operation operation, const struct message *m, uint8_t *out);
typedef struct result speak_function(int32_t level, uint8_t *out, size_t cap);
typedef struct book_result book_function(enum operation operation, const struct book_call *c, const struct message *m, uint8_t *book);

/*
 * How long an output is given to an edit, a reading or a writing: to the plain operation as much as any answer may take, to the next as
 * much as this answer takes, and to the others, which are refused, a byte less.
 */
static size_t room(enum operation operation, enum operation plain, size_t most, size_t taken)
{
    if (operation == plain)
        return most;
    return operation == plain + 1 ? taken : taken - 1;
}

/*
 * Edits and readings are in functions apart: their answers are too wide for two registers, and in line made the other calls longer. The
 * levels of a case are spoken in one loop, and to do nothing is there the same loop with calls of a function that is empty. For a book,
 * too, that is a call of such a function.
 */
#define DEFINE_RUN(library)                                                                                     \
    static struct result library##_answer_of(library##_answer a)                                                \
    {                                                                                                           \
        return (struct result){a.number, a.place, a.length, a.live};                                            \
    }                                                                                                           \
    static struct result library##_text_of(library##_text t)                                                    \
    {                                                                                                           \
        uint64_t high = (uint64_t)(t.place | t.length) >> 32;                                                   \
        return (struct result){t.number, (uint32_t)t.place, (uint32_t)t.length, (uint32_t)high};                \
    }                                                                                                           \
    __attribute__((noinline))                                                                                   \
    static struct result library##_run_edit(enum operation operation, const struct message *m, uint8_t *out)    \
    {                                                                                                           \
        size_t cap = room(operation, EDIT, m->len, m->edited);                                                  \
        return library##_text_of(library##_edit(m->bytes, m->len, out, cap));                                   \
    }                                                                                                           \
    __attribute__((noinline))                                                                                   \
    static struct result library##_run_read(enum operation operation, const struct message *m, uint8_t *out)    \
    {                                                                                                           \
        size_t len = operation == READ_REFUSED ? m->utf8_len + 1 : m->utf8_len;                                 \
        size_t cap = room(operation, READ, m->utf8_len, m->len);                                                \
        return library##_text_of(library##_read_utf8(m->utf8, len, out, cap));                                  \
    }                                                                                                           \
    __attribute__((noipa))                                                                                      \
    static library##_answer library##_speak_nothing(int32_t level, uint8_t *out, size_t cap)                    \
    {                                                                                                           \
        (void)level, (void)out, (void)cap;                                                                      \
        return (library##_answer){0, 0, 0, 0};                                                                  \
    }                                                                                                           \
    __attribute__((noinline))                                                                                   \
    static struct result library##_run_levels(enum operation operation, const struct message *m, uint8_t *out)  \
    {                                                                                                           \
        library##_answer (*speak)(int32_t, uint8_t *, size_t) =                                                 \
            operation == NOTHING ? library##_speak_nothing : library##_speak_level;                             \
        library##_answer a = {0, 0, 0, 0};                                                                      \
        for (const struct spoken *s = m->levels; s != m->levels + m->level_count; s++)                          \
            a = speak(s->level, out, operation == SPEAK_JUST_ROOM ? s->length : LEVEL_ROOM);                    \
        return library##_answer_of(a);                                                                          \
    }                                                                                                           \
    static struct result library##_speak(int32_t level, uint8_t *out, size_t cap)                               \
    {                                                                                                           \
        return library##_answer_of(library##_speak_level(level, out, cap));                                     \
    }                                                                                                           \
    __attribute__((noipa))                                                                                      \
    static library##_found library##_find_nothing(uint32_t listener, const uint8_t *book, size_t size,          \
                                                  size_t used, uint16_t phrase)                                 \
    {                                                                                                           \
        (void)listener, (void)book, (void)size, (void)used, (void)phrase;                                       \
        return (library##_found){0, 0, 0, 0, 0};                                                                \
    }                                                                                                           \
    static struct result library##_run_find(enum operation operation, const struct message *m, uint8_t *book)   \
    {                                                                                                           \
        library##_found (*find)(uint32_t, const uint8_t *, size_t, size_t, uint16_t) =                          \
            operation == NOTHING ? library##_find_nothing : library##_book_find;                                \
        const struct book_call *c = &m->calls[operation];                                                       \
        library##_found f = find(c->listener, book, c->size, c->used, c->phrase);                               \
        return (struct result){f.number, (uint32_t)f.place, (uint32_t)f.start, (uint32_t)f.length};             \
    }                                                                                                           \
    __attribute__((noipa))                                                                                      \
    static library##_added library##_add_nothing(uint32_t listener, bool newer, uint8_t *book,                  \
                                                 size_t size, size_t used, uint16_t phrase,                     \
                                                 uint8_t set, const uint8_t *msg, size_t len)                   \
    {                                                                                                           \
        (void)listener, (void)newer, (void)book, (void)size, (void)used, (void)phrase, (void)set;               \
        (void)msg, (void)len;                                                                                   \
        return (library##_added){0, 0, 0};                                                                      \
    }                                                                                                           \
    static struct result library##_run_add(enum operation operation, const struct message *m, uint8_t *book)    \
    {                                                                                                           \
        library##_added (*add)(uint32_t, bool, uint8_t *, size_t, size_t, uint16_t, uint8_t,                    \
                               const uint8_t *, size_t) =                                                       \
            operation == NOTHING ? library##_add_nothing : library##_book_add;                                  \
        const struct book_call *c = &m->calls[operation];                                                       \
        library##_added a = add(c->listener, c->newer, book, c->size, c->used, c->phrase, c->set,               \
                                m->bytes, m->len);                                                              \
        return (struct result){a.number, (uint32_t)a.place, (uint32_t)a.used, 0};                               \
    }                                                                                                           \
    static struct book_result library##_book(enum operation operation, const struct book_call *c,               \
                                             const struct message *m, uint8_t *book)                            \
    {                                                                                                           \
        if (operation >= ADD) {                                                                                 \
            library##_added a = library##_book_add(c->listener, c->newer, book, c->size, c->used,               \
                                                   c->phrase, c->set, m->bytes, m->len);                        \
            return (struct book_result){a.number, 0, a.place, 0, 0, a.used};                                    \
        }                                                                                                       \
        library##_found f = library##_book_find(c->listener, book, c->size, c->used, c->phrase);                \
        return (struct book_result){f.number, f.found, f.place, f.start, f.length, 0};                          \
    }                                                                                                           \
    static struct result library##_run(enum operation operation, const struct message *m, uint8_t *out)         \
    {                                                                                                           \
        library##_counts c;                                                                                     \
        size_t cap;                                                                                             \
        switch (operation) {                                                                                    \
        case CHECK:                                                                                             \
            c = library##_check(m->bytes, m->len);                                                              \
            return (struct result){c.number, c.place, c.codes, c.names};                                        \
        case NAME:                                                                                              \
            return library##_answer_of(library##_name(m->bytes, m->len, out, OUT_BYTES));                       \
        case TRANSCRIBE:                                                                                        \
            return library##_answer_of(library##_transcribe(false, m->bytes, m->len, out, OUT_BYTES));          \
        case JOIN_NO_CUT:                                                                                       \
            return library##_answer_of(library##_join(false, m->bytes, m->len, m->cuts, 0, out,                 \
                                                      OUT_BYTES));                                              \
        case JOIN_ALL_CUTS:                                                                                     \
            return library##_answer_of(library##_join(false, m->bytes, m->len, m->cuts, m->cut_count,           \
                                                      out, OUT_BYTES));                                         \
        case TRANSCRIBE_NEWER:                                                                                  \
            return library##_answer_of(library##_transcribe(true, m->bytes, m->len, out, OUT_BYTES));           \
        case JOIN_ALL_CUTS_NEWER:                                                                               \
            return library##_answer_of(library##_join(true, m->bytes, m->len, m->cuts, m->cut_count,            \
                                                      out, OUT_BYTES));                                         \
        case EDIT:                                                                                              \
        case EDIT_JUST_ROOM:                                                                                    \
        case EDIT_NO_ROOM:                                                                                      \
            return library##_run_edit(operation, m, out);                                                       \
        case READ:                                                                                              \
        case READ_JUST_ROOM:                                                                                    \
        case READ_NO_ROOM:                                                                                      \
        case READ_REFUSED:                                                                                      \
            return library##_run_read(operation, m, out);                                                       \
        case WRITE:                                                                                             \
        case WRITE_JUST_ROOM:                                                                                   \
        case WRITE_NO_ROOM:                                                                                     \
            cap = room(operation, WRITE, 2 * m->len, m->utf8_len);                                              \
            return library##_answer_of(library##_write_utf8(m->bytes, m->len, out, cap));                       \
        default:                                                                                                \
            return (struct result){0, 0, 0, 0};                                                                 \
        }                                                                                                       \
    }

DEFINE_RUN(baseline)
DEFINE_RUN(govorun)

static run_function *const libraries[] = {baseline_run, govorun_run};
static run_function *const level_libraries[] = {baseline_run_levels, govorun_run_levels};
static speak_function *const speakers[] = {baseline_speak, govorun_speak};
static run_function *const find_libraries[] = {baseline_run_find, govorun_run_find};
static run_function *const add_libraries[] = {baseline_run_add, govorun_run_add};
static book_function *const book_libraries[] = {baseline_book, govorun_book};
static const char *const library_names[] = {"baseline", "proved"};

static uint8_t outputs[2][OUT_BYTES];

/* A book for each library, and as it was before the calls that are compared. */
static uint8_t books[2][BOOK_BYTES], book_before[BOOK_BYTES];

static void make(struct message *message, const struct test_case *c)
{
    message->name = c->name;
    message->units = c->len;
    message->uses = c->uses;
    fill(message, c);
    if (c->uses & FOR_EDITOR)
        message->edited = baseline_edit(message->bytes, message->len, outputs[0], OUT_BYTES).length;
    if (c->uses & (FOR_MESSAGES | FOR_WRITER)) {
        end_in_letter(message);
        if (c->last)
            end_with(message, c->last);
        list_all_cuts(message);
    }
    if (c->uses & (FOR_READER | FOR_WRITER))
        encode(message);
}

/* Puts levels in an order by chance: in rising order the processor would foresee which words come next. */
static void shuffle(struct spoken *levels, size_t count)
{
    uint32_t seed = 1;
    for (size_t i = count; i > 1; i--) {
        size_t pick = next_random(&seed) % i;
        struct spoken s = levels[pick];
        levels[pick] = levels[i - 1];
        levels[i - 1] = s;
    }
}

static void make_levels(struct message *message, const struct level_case *c)
{
    message->name = c->name;
    message->units = message->level_count = 0;
    message->uses = c->uses;
    for (int32_t level = c->first; level <= c->last; level++) {
        size_t length = baseline_speak_level(level, outputs[0], LEVEL_ROOM).length;
        if (length < c->least)
            continue;
        message->levels[message->level_count++] = (struct spoken){level, length};
        message->units += length == 0 ? 1 : length;
    }
    shuffle(message->levels, message->level_count);
}

/* Puts words by chance into a message, up to a phrase's usual length. */
static void fill_phrase(struct message *message, uint32_t *seed)
{
    static const struct list spoken = LIST(words), breaks = LIST(gaps_and_pauses);
    size_t least = PHRASE_LEAST + next_random(seed) % PHRASE_MORE;
    message->len = 0;
    while (message->len < least) {
        if (message->len != 0)
            append(message, PHRASE_BYTES, breaks.items[next_random(seed) % breaks.count]);
        append(message, PHRASE_BYTES, spoken.items[next_random(seed) % spoken.count]);
    }
}

static uint16_t number_of(size_t record)
{
    return (uint16_t)(NUMBER_STEP * record);
}

/* Road crews may hear each phrase and pump crews none; the other bits go through all their values. */
static uint8_t set_of(size_t record)
{
    return (uint8_t)(record << 2 | GOVORUN_FOR_ROAD);
}

/* The calls for a book with so many bytes used, in a buffer with room for more. A book is damaged where its last byte is missing. */
static void plan_calls(struct message *message, size_t used)
{
    struct book_call *calls = message->calls;
    size_t records = message->records;
    for (int operation = NOTHING; operation < OPERATIONS; operation++) {
        uint32_t listener = operation < ADD ? GOVORUN_ROAD : GOVORUN_DISPATCH;
        calls[operation] = (struct book_call){
            listener, operation == ADD_NEWER, BOOK_BYTES, used, number_of(records), set_of(records),
        };
    }
    calls[FIND_NOT_HEARD].listener = GOVORUN_PUMP;
    calls[ADD_NOT_DISPATCH].listener = GOVORUN_ROAD;
    calls[FIND_FIRST].phrase = calls[FIND_DAMAGED].phrase = number_of(0);
    calls[FIND_MIDDLE].phrase = calls[FIND_NOT_HEARD].phrase = number_of(records / 2);
    calls[FIND_NONE].phrase = number_of(records / 2) + 1;
    calls[FIND_LAST].phrase = calls[ADD_NOT_ABOVE].phrase = number_of(records - 1);
    calls[FIND_DAMAGED].used = used - 1;
    calls[ADD_TOO_SHORT].size = used + RECORD_HEAD + baseline_check(message->bytes, message->len).codes - 1;
}

/* Each record is made as the first one of a book that begins behind the others: to add it to them would go through them all. */
static void make_book(struct message *message, const struct book_case *c)
{
    uint32_t seed = 1, seed_of_added = 24;
    size_t used = 0;
    memset(book_before, FILLER, BOOK_BYTES);
    for (size_t i = 0; i < c->records; i++) {
        fill_phrase(message, &seed);
        used += baseline_book_add(GOVORUN_DISPATCH, false, book_before + used, BOOK_BYTES - used, 0,
                                  number_of(i), set_of(i), message->bytes, message->len).used;
    }
    memcpy(books[0], book_before, BOOK_BYTES);
    memcpy(books[1], book_before, BOOK_BYTES);
    fill_phrase(message, &seed_of_added);
    message->name = c->name;
    message->records = c->records;
    message->uses = c->uses;
    message->units = c->uses & FOR_LOOKUP ? c->records : c->uses & FOR_ADDITION ? message->len : 1;
    plan_calls(message, used);
}

/* Whether the bytes of an output from this place on are those that it had before the call. */
static int kept(const uint8_t *out, size_t from, size_t bytes)
{
    while (from < bytes && out[from] == FILLER)
        from++;
    return from >= bytes;
}

/*
 * Ends the program unless both libraries answer with the operation's number, agree on the answer and on every byte of the output, and
 * keep what is past the answer's length, which is 0 where they refuse.
 */
static void compare(const struct message *message, enum operation operation)
{
    struct result results[2];
    for (int i = 0; i < 2; i++) {
        memset(outputs[i], FILLER, OUT_BYTES);
        results[i] = libraries[i](operation, message, outputs[i]);
        if (results[i].number != operations[operation].number || !kept(outputs[i], results[i].first, OUT_BYTES)) {
            fprintf(stderr, "%s fails %s on '%s' of %zu bytes: %u at %u\n", library_names[i], operations[operation].name, message->name,
                    message->len, results[i].number, results[i].place);
            exit(1);
        }
    }
    if (memcmp(&results[0], &results[1], sizeof results[0]) != 0 || memcmp(outputs[0], outputs[1], OUT_BYTES) != 0) {
        fprintf(stderr, "the two differ: %s on '%s' of %zu bytes\n", operations[operation].name, message->name, message->len);
        exit(1);
    }
}

/* The same for a level and an output of cap bytes; the answer must have this number. */
static void compare_level(int32_t level, size_t cap, uint32_t number)
{
    struct result results[2];
    for (int i = 0; i < 2; i++) {
        memset(outputs[i], FILLER, LEVEL_BYTES);
        results[i] = speakers[i](level, outputs[i], cap);
        if (results[i].number != number || !kept(outputs[i], results[i].first, LEVEL_BYTES)) {
            fprintf(stderr, "%s fails level %d with %zu bytes of output: %u at %u\n", library_names[i], level, cap, results[i].number,
                    results[i].place);
            exit(1);
        }
    }
    if (memcmp(&results[0], &results[1], sizeof results[0]) != 0 || memcmp(outputs[0], outputs[1], LEVEL_BYTES) != 0) {
        fprintf(stderr, "the two differ: level %d with %zu bytes of output\n", level, cap);
        exit(1);
    }
}

/* With every output from no byte to more than any level takes. */
static void compare_outputs(int32_t level)
{
    int outside = level < -MAX_LEVEL || level > MAX_LEVEL;
    size_t length = baseline_speak_level(level, outputs[0], LEVEL_ROOM).length;
    for (size_t cap = 0; cap <= LEVEL_ROOM; cap++)
        compare_level(level, cap, outside ? 14 : cap < length ? 11 : 0);
}

/* All levels, the numbers around them, those at both ends of int32_t, and some between. */
static void compare_levels(void)
{
    for (int32_t level = -MAX_LEVEL - 1000; level <= MAX_LEVEL + 1000; level++)
        compare_outputs(level);
    for (int32_t i = 0; i < 100; i++) {
        compare_outputs(INT32_MIN + i);
        compare_outputs(INT32_MAX - i);
    }
    for (int64_t number = INT32_MIN; number <= INT32_MAX; number += 1000003)
        compare_outputs((int32_t)number);
}

/*
 * The answer of both libraries on the book as it was before. Ends the program unless they give the same one and leave the same bytes, of
 * which the first ones are looked at: nothing but a record that was added may have come to them.
 */
static struct book_result compare_call(const struct message *message, enum operation operation, const struct book_call *c, size_t bytes)
{
    struct book_result results[2];
    for (int i = 0; i < 2; i++) {
        memcpy(books[i], book_before, bytes);
        results[i] = book_libraries[i](operation, c, message, books[i]);
    }
    size_t end = results[0].used, book = c->used < c->size ? c->used : c->size, start = end == 0 ? 0 : book;
    if (memcmp(&results[0], &results[1], sizeof results[0]) != 0 || memcmp(books[0], books[1], bytes) != 0 ||
        memcmp(books[0], book_before, start) != 0 || memcmp(books[0] + end, book_before + end, bytes - end) != 0) {
        fprintf(stderr, "the two differ, or change what they must keep: %s, listener %u, phrase %d, in %zu bytes with %zu used\n",
                operations[operation].name, c->listener, c->phrase, c->size, c->used);
        exit(1);
    }
    return results[0];
}

/* The same for a call that is measured: its answer must have the operation's number, and the phrase that is there must be found. */
static void compare_book(const struct message *message, enum operation operation)
{
    struct book_result result = compare_call(message, operation, &message->calls[operation], BOOK_BYTES);
    uint32_t found = operation >= FIND_FIRST && operation <= FIND_LAST;
    if (result.number != operations[operation].number || result.found != found) {
        fprintf(stderr, "both fail %s on '%s': %u at %zu\n", operations[operation].name, message->name, result.number, result.place);
        exit(1);
    }
}

/* Fills a library's book, from an empty one on, by its own additions alone. */
static void add_phrases(int library, struct message *message, size_t records)
{
    struct book_call c = {GOVORUN_DISPATCH, false, BOOK_BYTES, 0, 0, 0};
    uint32_t seed = 1;
    memset(books[library], FILLER, BOOK_BYTES);
    for (size_t i = 0; i < records; i++) {
        fill_phrase(message, &seed);
        c.phrase = number_of(i);
        c.set = set_of(i);
        c.used = book_libraries[library](ADD, &c, message, books[library]).used;
    }
}

/* Ends the program unless each library makes the case's book so. */
static void compare_additions(struct message *message, const struct book_case *c)
{
    make_book(message, c);
    for (int i = 0; i < 2; i++) {
        add_phrases(i, message, c->records);
        if (memcmp(books[i], book_before, BOOK_BYTES) != 0) {
            fprintf(stderr, "%s makes another book of %zu phrases\n", library_names[i], c->records);
            exit(1);
        }
    }
}

/* All calls, with this buffer and used count instead of their own, by each listener and by numbers that are none. */
static void compare_calls(const struct message *message, size_t size, size_t used, size_t bytes)
{
    static const uint32_t listeners[] = {GOVORUN_PUMP, GOVORUN_ROAD, GOVORUN_DISPATCH, 3, 32, 258, UINT32_MAX};
    for (int operation = FIND_FIRST; operation < OPERATIONS; operation++)
        for (size_t i = 0; i < sizeof listeners / sizeof listeners[0]; i++) {
            struct book_call c = message->calls[operation];
            c.listener = listeners[i];
            c.size = size;
            c.used = used;
            compare_call(message, (enum operation)operation, &c, bytes);
        }
}

/* A small book with each used count, in each buffer, with a used count above each, and with each byte damaged, also to equal numbers. */
static void compare_books(struct message *message)
{
    static const struct book_case small = {"book 30", 30, FOR_BOOKS};
    static const int damages[] = {1, -1, NUMBER_STEP, -NUMBER_STEP};
    make_book(message, &small);
    size_t used = message->calls[ADD].used, bytes = used + RECORD_BYTES;
    for (size_t n = 0; n < bytes; n++) {
        uint8_t whole = book_before[n];
        compare_calls(message, bytes, n, bytes);
        compare_calls(message, n, used, bytes);
        compare_calls(message, n, bytes, bytes);
        for (int i = 0; i < 4; i++) {
            book_before[n] = (uint8_t)(whole + damages[i]);
            compare_calls(message, bytes, used, bytes);
        }
        book_before[n] = whole;
    }
}

static double now_ns(void)
{
    struct timespec t;
    clock_gettime(CLOCK_MONOTONIC, &t);
    return 1e9 * (double)t.tv_sec + (double)t.tv_nsec;
}

static run_function *run_of(int library, const struct message *message)
{
    if (message->uses & FOR_LOOKUP)
        return find_libraries[library];
    if (message->uses & FOR_BOOKS)
        return add_libraries[library];
    return message->uses & FOR_LEVELS ? level_libraries[library] : libraries[library];
}

static uint8_t *output_of(int library, const struct message *message)
{
    return message->uses & FOR_BOOKS ? books[library] : outputs[library];
}

static double time_calls(int library, enum operation operation, const struct message *message, long calls)
{
    run_function *run = run_of(library, message);
    uint8_t *out = output_of(library, message);
    double start = now_ns();
    for (long i = 0; i < calls; i++)
        run(operation, message, out);
    return (now_ns() - start) / (double)calls;
}

/* The best of many short rounds, the two libraries by turns, so that what else the machine does weighs little and on both. */
static void time_both(enum operation operation, const struct message *message, double best[2])
{
    long calls[2];
    for (int i = 0; i < 2; i++) {
        best[i] = time_calls(i, operation, message, 4);
        calls[i] = 1 + (long)(ROUND_NS / (best[i] + 1));
    }
    for (int round = 0; round < ROUNDS; round++)
        for (int i = 0; i < 2; i++) {
            double ns = time_calls(i, operation, message, calls[i]);
            best[i] = ns < best[i] ? ns : best[i];
        }
}

static void time_case(const struct message *message, enum operation operation)
{
    double best[2], units = (double)message->units;
    time_both(operation, message, best);
    printf("%s\t%zu\t%s\t%.2f\t%.2f\n", message->name, message->units, operations[operation].name, best[0] / units, best[1] / units);
}

/* The first call is not counted: it may bind symbols. */
static void count_case(const struct message *message, enum operation operation)
{
    char label[128];
    for (int i = 0; i < 2; i++) {
        run_function *run = run_of(i, message);
        uint8_t *out = output_of(i, message);
        run(operation, message, out);
        CALLGRIND_TOGGLE_COLLECT;
        run(operation, message, out);
        CALLGRIND_TOGGLE_COLLECT;
        snprintf(label, sizeof label, "%s\t%zu\t%s\t%s", message->name, message->units, operations[operation].name, library_names[i]);
        CALLGRIND_DUMP_STATS_AT(label);
    }
}

static void measure(const struct message *message, enum operation operation, int timing)
{
    if (timing && message->uses & FOR_BOOKS)
        compare_book(message, operation);
    else if (timing && !(message->uses & FOR_LEVELS))
        compare(message, operation);
    if (!operations[operation].measured)
        return;
    if (timing)
        time_case(message, operation);
    else
        count_case(message, operation);
}

static void measure_all(const struct message *message, int timing)
{
    for (int operation = timing ? CHECK : NOTHING; operation < OPERATIONS; operation++)
        if (suits(message, (enum operation)operation))
            measure(message, (enum operation)operation, timing);
}

int main(int argc, char **argv)
{
    static struct message message;
    int timing = argc == 2 && strcmp(argv[1], "time") == 0;
    int counting = argc == 2 && strcmp(argv[1], "count") == 0;

    if (!timing && !counting) {
        fprintf(stderr, "usage: measure time | measure count\n");
        return 2;
    }
    for (size_t i = 0; i < sizeof cases / sizeof cases[0]; i++) {
        make(&message, &cases[i]);
        measure_all(&message, timing);
    }
    if (timing)
        compare_levels();
    for (size_t i = 0; i < sizeof level_cases / sizeof level_cases[0]; i++) {
        make_levels(&message, &level_cases[i]);
        measure_all(&message, timing);
    }
    if (timing)
        compare_books(&message);
    for (size_t i = 0; i < sizeof book_cases / sizeof book_cases[0]; i++) {
        if (timing)
            compare_additions(&message, &book_cases[i]);
        make_book(&message, &book_cases[i]);
        measure_all(&message, timing);
    }
    return 0;
}
