/*
 * Two passes over the message and no memory but the output. The first, from left to right, is an automaton that finds the refusal
 * or the lengths of the answers. The second, from right to left, writes the answer from its end, since a sound depends on what
 * stands to its right and on little else. Nothing is written before every refusal is settled.
 *
 * The editor, after them, is apart: one pass from left to right, and one before it only where the output might be too short. So is the
 * writer of UTF-8, but for the check. The reader of UTF-8 always makes two passes, since any sequence may be refused. The words of a level
 * come from two tables, by two digits each.
 *
 * A book is gone through once, record by record. An addition is the check, that walk and the second pass above, which writes to where the
 * tape stays.
 *
 * The classes T, P, Q, V1 and V2, the sets D and U and the numbers of the refusals are those of document 01.
 */
#include "baseline.h"

#include <string.h>

enum { MAX_BYTES = 4096, MAX_LETTERS = 64 };

/* Bytes of a message; the letters from а to я are in the order of the alphabet. */
enum {
    A = 0xE0, BE, VE, GHE, DE, IE, ZHE, ZE, I, SHORT_I, KA, EL, EM, EN, O, PE,
    ER, ES, TE, U, EF, HA, TSE, CHE, SHA, SHCHA, HARD_SIGN, YERU, SOFT_SIGN, E, YU, YA,
    YO = 0xB8, CAPITAL_YO = 0xA8, MARK = '*', GAP = ' ', PAUSE = '#'
};

/* Codes of a tape. The soft code of a paired consonant is the one after its hard code. */
enum {
    A_S = 1, O_S, E_S, Y_S, I_S, U_S, A_1, E_1, Y_1, I_1, U_1, A_2, E_2,
    B = 16, V = 18, G = 20, H_VOICED = 22, D = 24, ZH = 26, ZH_SOFT = 27, GLIDE = 28, Z = 29, K = 31, L = 33, M = 35, N = 37,
    P = 39, R = 41, S = 43, T = 45, F = 47, H = 49, TS = 51, TS_VOICED = 52, CH = 53, CH_VOICED = 54, SH = 55, SHCH = 56,
    GAP_CODE = 0, PAUSE_CODE = 63, CODES
};

/* What a byte is to the check. Only т and д may be elided, and only after с з н р. */
enum { FOREIGN, PLAIN_VOWEL, VOWEL_O, VOWEL_I, SOFT_VOWEL, OTHER, SZNR, TD, HARD, SOFT, STRESS, BREAK, COLUMNS = 16 };

/* What the second pass does with a byte. */
enum { CONSONANT, VOWEL, STRESS_MARK, SIGN, WORD_BREAK };

/* What a vowel finds before it; a mark counts as the vowel that it stands after. The signs are told apart for о, which has a glide after ь. */
enum { INITIAL, AFTER_VOWEL, AFTER_HARD_SIGN, AFTER_SOFT_SIGN, AFTER_Q, AFTER_T, AFTER_P, PRECEDERS };

/* Rows of the table of vowels. Those of а, е and я have another in edition 2. */
enum {
    ROW_A, ROW_O, ROW_U, ROW_Y, ROW_E, ROW_IE, ROW_YO, ROW_YU, ROW_YA, ROW_I,
    ROW_A_NEWER, ROW_IE_NEWER, ROW_YA_NEWER, ROWS
};

/* What a sound makes of the obstruent (noise letter) before it. */
enum { AS_WRITTEN, VOICED, VOICELESS };

/*
 * Groups of consonants, each palatalized by the same sounds, as bits: a consonant has its own, and what comes after it has those that
 * it palatalizes. ELIDES is of the same kind: т and д have it, and the sounds that an elided letter may stand before.
 */
enum {
    NONE = 0, DENTAL = 1, EN_ONLY = 2, BP = 4, VF = 8, GK = 16, KH = 32, EL_ONLY = 64, EM_ONLY = 128, ER_ONLY = 256, ALL = 511,
    ELIDES = 512
};

struct symbol {
    /* By the voice asked for: a consonant's hard code; what a break asks for in turn. Of a vowel
     * its row in edition 1, and then that in edition 2 twice: no voice is asked of it. */
    uint8_t sound[3];
    uint8_t column;
    uint8_t kind;
    uint8_t before;  /* what a vowel right after this byte finds */
    uint16_t groups; /* of a consonant its own, of a vowel or sign those that it palatalizes; of a break its code */
};

#define CASES(letter, ...) [letter] = __VA_ARGS__, [(letter) - 0x20] = __VA_ARGS__
#define VOWEL_1(letter, row, newer, column) \
    CASES(letter, {{row, newer, newer}, column, VOWEL, AFTER_VOWEL, NONE})
#define VOWEL_2(letter, row, newer, column) \
    CASES(letter, {{row, newer, newer}, column, VOWEL, AFTER_VOWEL, ALL})
#define NOISE(letter, written, voiced, voiceless, before, group) \
    CASES(letter, {{written, voiced, voiceless}, OTHER, CONSONANT, before, group})
#define NOISE_SZ(letter, written) CASES(letter, {{written, Z, S}, SZNR, CONSONANT, AFTER_P, DENTAL})
#define NOISE_TD(letter, written) CASES(letter, {{written, D, T}, TD, CONSONANT, AFTER_P, DENTAL | ELIDES})
#define SONORANT(letter, code, column, before, group) CASES(letter, {{code, code, code}, column, CONSONANT, before, group})

/* What a consonant's sound does to a consonant before it. */
struct effect {
    uint16_t voice, groups;
};

#define HARD_AND_SOFT(code, voice, hard, soft) [code] = {voice, hard}, [(code) + 1] = {voice, (hard) | (soft)}

/*
 * Levels of a syllable as seen from its right: all vowels of a word without a mark are of level 1, which is kept apart from the level
 * 1 before a marked vowel. A word's level is not known before its first vowel from the right, unless that has a mark.
 */
enum { LEVEL_S, LEVEL_1, LEVEL_2, LEVEL_1_UNMARKED, NOT_KNOWN, LEVELS = NOT_KNOWN };

/* With J a glide comes before the sound. */
enum { J = 0x80 };

#define SND(s, one, two) {s, one, two, one}
#define JOT(s, one, two) {J | s, J | one, J | two, J | one}

/* All that the second pass looks up, in one object, so that one register can hold where it is. */
/* clang-format off */
static const struct {
    struct symbol symbols[256];
    struct effect effects[CODES];
    uint8_t vowels[ROWS][8][LEVELS]; /* by what is before them (8, so that the index is made by shifts), not at a hard boundary */
    uint8_t level_before[LEVELS];    /* of the vowel to the left of one of this level, where it has no mark */
    uint8_t names[LEVELS][PRECEDERS];
} tables = {
    .symbols = {
        VOWEL_1(A, ROW_A, ROW_A_NEWER, PLAIN_VOWEL), VOWEL_1(O, ROW_O, ROW_O, VOWEL_O),
        VOWEL_1(U, ROW_U, ROW_U, PLAIN_VOWEL),       VOWEL_1(YERU, ROW_Y, ROW_Y, PLAIN_VOWEL),
        VOWEL_1(E, ROW_E, ROW_E, PLAIN_VOWEL),       VOWEL_2(IE, ROW_IE, ROW_IE_NEWER, SOFT_VOWEL),
        VOWEL_2(YU, ROW_YU, ROW_YU, SOFT_VOWEL),     VOWEL_2(YA, ROW_YA, ROW_YA_NEWER, SOFT_VOWEL),
        VOWEL_2(I, ROW_I, ROW_I, VOWEL_I),
        [YO]         = {{ROW_YO, ROW_YO, ROW_YO}, SOFT_VOWEL, VOWEL, AFTER_VOWEL, ALL},
        [CAPITAL_YO] = {{ROW_YO, ROW_YO, ROW_YO}, SOFT_VOWEL, VOWEL, AFTER_VOWEL, ALL},
        NOISE(BE,  B,  B, P, AFTER_P, BP),      NOISE(PE,  P,  B, P, AFTER_P, BP),
        NOISE(VE,  V,  V, F, AFTER_P, VF),      NOISE(EF,  F,  V, F, AFTER_P, VF),
        NOISE(GHE, G,  G, K, AFTER_P, GK),      NOISE(KA,  K,  G, K, AFTER_P, GK),
        NOISE(ZHE, ZH, ZH, SH, AFTER_T, NONE),  NOISE(SHA, SH, ZH, SH, AFTER_T, NONE),
        NOISE_SZ(ZE, Z),                        NOISE_SZ(ES, S),
        NOISE_TD(DE, D),                        NOISE_TD(TE, T),
        NOISE(HA,  H,  H_VOICED,  H,  AFTER_P, KH),
        NOISE(TSE, TS, TS_VOICED, TS, AFTER_T, NONE),
        NOISE(CHE, CH, CH_VOICED, CH, AFTER_Q, NONE),
        NOISE(SHCHA, SHCH, ZH_SOFT, SHCH, AFTER_Q, NONE),
        SONORANT(EL, L, OTHER, AFTER_P, EL_ONLY), SONORANT(EM, M, OTHER, AFTER_P, EM_ONLY),
        SONORANT(EN, N, SZNR, AFTER_P, EN_ONLY),  SONORANT(ER, R, SZNR, AFTER_P, ER_ONLY),
        SONORANT(SHORT_I, GLIDE, OTHER, AFTER_Q, NONE),
        CASES(HARD_SIGN, {{0}, HARD, SIGN, AFTER_HARD_SIGN, NONE}),
        CASES(SOFT_SIGN, {{0}, SOFT, SIGN, AFTER_SOFT_SIGN, ALL}),
        [MARK]  = {{0}, STRESS, STRESS_MARK, AFTER_VOWEL, NONE},
        [GAP]   = {{VOICELESS, VOICED, VOICELESS}, BREAK, WORD_BREAK, INITIAL, GAP_CODE},
        [PAUSE] = {{VOICELESS, VOICELESS, VOICELESS}, BREAK, WORD_BREAK, INITIAL, PAUSE_CODE},
    },
    .effects = { /* the sets D and U, and softness */
        HARD_AND_SOFT(B, VOICED, NONE, BP),         HARD_AND_SOFT(P, VOICELESS, NONE, BP),
        HARD_AND_SOFT(V, AS_WRITTEN, NONE, VF),     HARD_AND_SOFT(F, VOICELESS, NONE, VF),
        HARD_AND_SOFT(G, VOICED, NONE, GK),         HARD_AND_SOFT(K, VOICELESS, NONE, GK),
        HARD_AND_SOFT(H_VOICED, VOICED, NONE, KH),  HARD_AND_SOFT(H, VOICELESS, NONE, KH),
        HARD_AND_SOFT(D, VOICED, NONE, DENTAL | EN_ONLY),   HARD_AND_SOFT(T, VOICELESS, NONE, DENTAL | EN_ONLY),
        HARD_AND_SOFT(Z, VOICED, ELIDES, DENTAL | EN_ONLY), HARD_AND_SOFT(S, VOICELESS, ELIDES, DENTAL | EN_ONLY),
        HARD_AND_SOFT(N, AS_WRITTEN, ELIDES, DENTAL | EN_ONLY),
        HARD_AND_SOFT(L, AS_WRITTEN, NONE, EL_ONLY), HARD_AND_SOFT(M, AS_WRITTEN, NONE, EM_ONLY),
        HARD_AND_SOFT(R, AS_WRITTEN, NONE, ER_ONLY),
        [ZH] = {VOICED, ELIDES}, [SH] = {VOICELESS, ELIDES}, [TS_VOICED] = {VOICED, ELIDES}, [TS] = {VOICELESS, ELIDES},
        [CH_VOICED] = {VOICED, EN_ONLY | ELIDES}, [CH] = {VOICELESS, EN_ONLY | ELIDES},
        [ZH_SOFT] = {VOICED, EN_ONLY}, [SHCH] = {VOICELESS, EN_ONLY},
    },
    .vowels = {
        /*          initial             after a vowel       after ъ             after ь             after Q             after T             after P */
        [ROW_A]  = {SND(A_S, A_1, A_1), SND(A_S, A_1, A_2), SND(A_S, A_1, A_2), SND(A_S, A_1, A_2), SND(A_S, E_1, E_2), SND(A_S, A_1, A_2), SND(A_S, A_1, A_2)},
        [ROW_O]  = {SND(O_S, A_1, A_1), SND(O_S, A_1, A_2), SND(O_S, A_1, A_2), JOT(O_S, A_1, A_2), SND(O_S, A_1, E_2), SND(O_S, A_1, A_2), SND(O_S, A_1, A_2)},
        [ROW_U]  = {SND(U_S, U_1, U_1), SND(U_S, U_1, U_1), SND(U_S, U_1, U_1), SND(U_S, U_1, U_1), SND(U_S, U_1, U_1), SND(U_S, U_1, U_1), SND(U_S, U_1, U_1)},
        [ROW_Y]  = {SND(Y_S, Y_1, Y_1), SND(Y_S, Y_1, Y_1), SND(Y_S, Y_1, Y_1), SND(Y_S, Y_1, Y_1), SND(Y_S, Y_1, Y_1), SND(Y_S, Y_1, Y_1), SND(Y_S, Y_1, Y_1)},
        [ROW_E]  = {SND(E_S, E_1, E_2), SND(E_S, E_1, E_2), SND(E_S, E_1, E_2), SND(E_S, E_1, E_2), SND(E_S, E_1, E_2), SND(E_S, E_1, E_2), SND(E_S, E_1, E_2)},
        [ROW_IE] = {JOT(E_S, E_1, E_1), JOT(E_S, E_1, E_2), JOT(E_S, E_1, E_2), JOT(E_S, E_1, E_2), SND(E_S, E_1, E_2), SND(E_S, Y_1, A_2), SND(E_S, E_1, E_2)},
        [ROW_YO] = {JOT(O_S, O_S, O_S), JOT(O_S, O_S, O_S), JOT(O_S, O_S, O_S), JOT(O_S, O_S, O_S), SND(O_S, O_S, O_S), SND(O_S, O_S, O_S), SND(O_S, O_S, O_S)},
        [ROW_YU] = {JOT(U_S, U_1, U_1), JOT(U_S, U_1, U_1), JOT(U_S, U_1, U_1), JOT(U_S, U_1, U_1), SND(U_S, U_1, U_1), SND(U_S, U_1, U_1), SND(U_S, U_1, U_1)},
        [ROW_YA] = {JOT(A_S, E_1, E_1), JOT(A_S, E_1, E_2), JOT(A_S, E_1, E_2), JOT(A_S, E_1, E_2), SND(A_S, E_1, E_2), SND(A_S, E_1, E_2), SND(A_S, E_1, E_2)},
        [ROW_I]  = {SND(I_S, I_1, I_1), SND(I_S, I_1, I_1), JOT(I_S, I_1, I_1), JOT(I_S, I_1, I_1), SND(I_S, I_1, I_1), SND(Y_S, Y_1, Y_1), SND(I_S, I_1, I_1)},
        [ROW_A_NEWER] = {
            SND(A_S, A_1, A_1), SND(A_S, A_1, A_2), SND(A_S, A_1, A_2), SND(A_S, A_1, A_2),
            SND(A_S, I_1, E_2), SND(A_S, A_1, A_2), SND(A_S, A_1, A_2),
        },
        [ROW_IE_NEWER] = {
            JOT(E_S, I_1, I_1), JOT(E_S, I_1, E_2), JOT(E_S, I_1, E_2), JOT(E_S, I_1, E_2),
            SND(E_S, I_1, E_2), SND(E_S, Y_1, A_2), SND(E_S, I_1, E_2),
        },
        [ROW_YA_NEWER] = {
            JOT(A_S, I_1, I_1), JOT(A_S, I_1, E_2), JOT(A_S, I_1, E_2), JOT(A_S, I_1, E_2),
            SND(A_S, I_1, E_2), SND(A_S, I_1, E_2), SND(A_S, I_1, E_2),
        },
    },
    .level_before = {[LEVEL_S] = LEVEL_1, [LEVEL_1] = LEVEL_2, [LEVEL_2] = LEVEL_2, [LEVEL_1_UNMARKED] = LEVEL_1_UNMARKED},
    .names = { /* a syllable is bare if its vowel is initial or after a vowel */
        [LEVEL_S] = {2, 2, 1, 1, 1, 1, 1}, [LEVEL_1] = {4, 4, 3, 3, 3, 3, 3}, [LEVEL_2] = {6, 6, 5, 5, 5, 5, 5},
        [LEVEL_1_UNMARKED] = {4, 4, 3, 3, 3, 3, 3},
    },
};

enum { INCOMPLETE = 7 };

/*
 * The check's automaton. A state remembers what the word so far ends in; it is held as the index of its row, so that a step adds the
 * column and no more. From STOP on it is no state but a reason to leave the loop.
 */
enum {
    AT_START = 0 * COLUMNS, AT_VOWEL = 1 * COLUMNS, AT_MARK = 2 * COLUMNS, AT_CONSONANT = 3 * COLUMNS, AT_SZNR = 4 * COLUMNS,
    AT_HARD = 5 * COLUMNS, AT_SOFT = 6 * COLUMNS, AT_VOWEL_HARD = 7 * COLUMNS, AT_VOWEL_SOFT = 8 * COLUMNS,
    STOP = 9 * COLUMNS, STOP_BREAK = STOP, STOP_TD, STOP_REFUSED
};

/* One step: where to, and how many codes (low half) and names (high half) it adds. */
struct step {
    uint32_t counts, next;
};

enum { ONE_NAME = 0x10000 };

#define VOW(codes) {(codes) + ONE_NAME, AT_VOWEL}
#define CON        {1, AT_CONSONANT}
#define SZN        {1, AT_SZNR}
#define TRY        {1, STOP_TD}
#define TO(state)  {0, state}
#define END(names) {1 + (names), STOP_BREAK}
#define NO(number) {0, STOP_REFUSED + (number)}

static const struct step steps[STOP] = {
    /* from           foreign  а       о       и       е       к      с      т      ъ                  ь                  *            break */
    [AT_START]      =  NO(3), VOW(1), VOW(1), VOW(1), VOW(2), CON,   SZN,   CON,   NO(6),             NO(6),             NO(5),       NO(4),
    [AT_VOWEL]      =  NO(3), VOW(1), VOW(1), VOW(1), VOW(2), CON,   SZN,   CON,   TO(AT_VOWEL_HARD), TO(AT_VOWEL_SOFT), TO(AT_MARK), END(0),
    [AT_MARK]       =  NO(3), VOW(1), VOW(1), VOW(1), VOW(2), CON,   SZN,   CON,   TO(AT_VOWEL_HARD), TO(AT_VOWEL_SOFT), NO(5),       END(0),
    [AT_CONSONANT]  =  NO(3), VOW(1), VOW(1), VOW(1), VOW(1), CON,   SZN,   CON,   TO(AT_HARD),       TO(AT_SOFT),       NO(5), END(ONE_NAME),
    [AT_SZNR]       =  NO(3), VOW(1), VOW(1), VOW(1), VOW(1), CON,   SZN,   TRY,   TO(AT_HARD),       TO(AT_SOFT),       NO(5), END(ONE_NAME),
    [AT_HARD]       =  NO(3), VOW(1), VOW(1), VOW(2), VOW(2), NO(8), NO(8), NO(8), NO(7),             NO(7),             NO(5), END(ONE_NAME),
    [AT_SOFT]       =  NO(3), VOW(1), VOW(2), VOW(2), VOW(2), CON,   SZN,   CON,   NO(7),             NO(7),             NO(5), END(ONE_NAME),
    [AT_VOWEL_HARD] =  NO(3), NO(9),  NO(9),  NO(9),  NO(9),  NO(8), NO(8), NO(8), NO(7),             NO(7),             NO(5), END(ONE_NAME),
    [AT_VOWEL_SOFT] =  NO(3), NO(9),  NO(9),  NO(9),  NO(9),  CON,   SZN,   CON,   NO(7),             NO(7),             NO(5), END(ONE_NAME),
};
/* clang-format on */

static uint32_t small(uint8_t byte)
{
    return byte | 0x20; /* from а to я capitals become small letters, and nothing else becomes a letter */
}

#define CLUSTER(first, second, third) ((uint32_t)(first) << 16 | (second) << 8 | (third))

/* Pass 1: whether the т or д at p is elided (silent). */
static bool elided(const uint8_t *msg, const uint8_t *p, const uint8_t *end)
{
    if (p == msg)
        return false;
    uint32_t third = end - p > 1 ? small(p[1]) : 0;
    uint32_t fourth = end - p > 2 ? small(p[2]) : 0;

    switch (CLUSTER(small(p[-1]), small(p[0]), third)) {
    case CLUSTER(ES, TE, EN):
    case CLUSTER(ER, DE, CHE):
    case CLUSTER(ER, DE, TSE):
    case CLUSTER(ZE, DE, EN):
    case CLUSTER(ZE, DE, TSE):
    case CLUSTER(EN, DE, TSE):
    case CLUSTER(EN, DE, ES):
        return true;
    case CLUSTER(ES, TE, ES):
    case CLUSTER(EN, TE, ES):
        return fourth == KA;
    case CLUSTER(EN, DE, SHA):
        return fourth == TE;
    default:
        return false;
    }
}

/* The 65th letter of a word, or NULL. It is looked for only in words whose bytes are too many, so other words pay nothing. */
static const uint8_t *letter_too_many(const uint8_t *word, const uint8_t *end)
{
    if (end - word <= MAX_LETTERS)
        return NULL;
    uint32_t letters = 0;
    for (const uint8_t *p = word; p != end; p++) {
        letters += *p != MARK;
        if (letters > MAX_LETTERS)
            return p;
    }
    return NULL;
}

static baseline_counts check_refused(uint32_t number, size_t place)
{
    return (baseline_counts){.number = number, .place = (uint32_t)place};
}

/* The check's answer where the message ends in this state: the end closes a word as a break does, but adds no code. */
static baseline_counts check_end(const uint8_t *msg, const uint8_t *word, const uint8_t *end, size_t state, uint32_t counts)
{
    if (state == AT_START)
        return check_refused(4, (size_t)(end - msg) - 1);
    const uint8_t *extra = letter_too_many(word, end);
    if (extra)
        return check_refused(10, (size_t)(extra - msg));
    counts += steps[state + BREAK].counts - 1;
    return (baseline_counts){.codes = counts % ONE_NAME, .names = counts / ONE_NAME};
}

baseline_counts baseline_check(const uint8_t *msg, size_t len)
{
    if (len == 0)
        return check_refused(1, 0);
    if (len > MAX_BYTES)
        return check_refused(2, 0);

    const uint8_t *p = msg, *word = msg, *end = msg + len;
    size_t state = AT_START;
    uint32_t counts = 0;
    for (;;) {
        while (state < STOP && p != end) {
            const struct step *step = &steps[state + tables.symbols[*p++].column];
            counts += step->counts;
            state = step->next;
        }
        if (state < STOP)
            return check_end(msg, word, end, state, counts);
        if (state == STOP_TD) {
            counts -= elided(msg, p - 1, end);
            state = AT_CONSONANT;
            continue;
        }
        const uint8_t *extra = letter_too_many(word, p - 1);
        if (extra)
            return check_refused(10, (size_t)(extra - msg));
        if (state != STOP_BREAK)
            return check_refused((uint32_t)state - STOP_REFUSED, (size_t)(p - 1 - msg));
        word = p;
        state = AT_START;
    }
}

static baseline_answer refused(uint32_t number, uint32_t place)
{
    return (baseline_answer){.number = number, .place = place};
}

/*
 * The level of the rightmost vowel of a word, right before p, where it has no mark: it depends on a mark further to the left. A word is
 * searched once at most. Letters are the bytes from 0x80 on.
 */
static uint32_t last_level(const uint8_t *msg, const uint8_t *p)
{
    while (p != msg && p[-1] >= 0x80)
        p--;
    return p != msg && p[-1] == MARK ? LEVEL_2 : LEVEL_1_UNMARKED;
}

/* What a letter right after the byte before p finds there. */
static uint32_t before(const uint8_t *msg, const uint8_t *p)
{
    return p != msg ? tables.symbols[p[-1]].before : INITIAL;
}

/* Writes the names of an accepted message so that they end at w. */
static void write_names(const uint8_t *msg, const uint8_t *end, uint8_t *w)
{
    uint32_t level = NOT_KNOWN;

    if (before(msg, end) != AFTER_VOWEL)
        *--w = INCOMPLETE;
    for (const uint8_t *p = end; p != msg; p--) {
        uint32_t kind = tables.symbols[p[-1]].kind;
        if (kind == CONSONANT || kind == SIGN)
            continue;
        if (kind == VOWEL) {
            if (level == NOT_KNOWN)
                level = last_level(msg, p - 1);
            *--w = tables.names[level][before(msg, p - 1)];
            level = tables.level_before[level];
        } else if (kind == STRESS_MARK) {
            level = LEVEL_S;
        } else {
            level = NOT_KNOWN;
            if (before(msg, p - 1) != AFTER_VOWEL)
                *--w = INCOMPLETE;
        }
    }
}

baseline_answer baseline_name(const uint8_t *msg, size_t len, uint8_t *out, size_t cap)
{
    baseline_counts counts = baseline_check(msg, len);
    if (counts.number)
        return refused(counts.number, counts.place);
    if (counts.names > cap)
        return refused(11, counts.names);
    write_names(msg, msg + len, out + counts.names);
    return (baseline_answer){.length = counts.names};
}

/* Whether the word that ends before the gap at p makes a hard boundary there: it ends in T, P or a soft sign after T. */
static bool hard_boundary(const uint8_t *p)
{
    if (small(p[-1]) == SOFT_SIGN)
        return tables.symbols[p[-2]].before == AFTER_T;
    return tables.symbols[p[-1]].before == AFTER_T || tables.symbols[p[-1]].before == AFTER_P;
}

/*
 * By itself gcc puts in line only what is small or has one caller. The second pass has four, the
 * joiner and the addition to a book in either edition, and left to gcc every tape would take more
 * instructions than before there were books. So have the functions that it calls at a break. The
 * walk over a book has two callers.
 */
#define IN_LINE __attribute__((always_inline)) static inline

/*
 * What has the second pass in line is apart from its callers, once for each edition. An edition
 * that is an argument, or the arguments of an addition, would leave that pass too few registers.
 */
#define APART __attribute__((noinline)) static

/* Whether the gap at p changes the first sound of the word after it: и, and э without a mark, sound ы at a hard boundary. */
IN_LINE bool changes_opening(const uint8_t *p, const uint8_t *end)
{
    uint32_t first = small(p[1]);
    if (first != I && (first != E || (end - p > 2 && p[2] == MARK)))
        return false;
    return hard_boundary(p);
}

/* Whether the last letter before p, signs passed over, is an obstruent. */
IN_LINE bool ends_in_obstruent(const uint8_t *p)
{
    const struct symbol *last = &tables.symbols[tables.symbols[p[-1]].kind == SIGN ? p[-2] : p[-1]];
    return last->sound[VOICED] != last->sound[VOICELESS];
}

/* What the first sound of a word asks for, where what comes after the word asks for this voice. */
IN_LINE uint32_t voice_through(const uint8_t *msg, const uint8_t *word, const uint8_t *word_end,
                               const uint8_t *end, uint32_t voice)
{
    for (const uint8_t *p = word_end; p != word; p--) {
        const struct symbol *symbol = &tables.symbols[p[-1]];
        if (symbol->kind == VOWEL)
            voice = AS_WRITTEN;
        else if (symbol->kind == CONSONANT && !(symbol->column == TD && elided(msg, p - 1, end)))
            voice = tables.effects[symbol->sound[voice]].voice;
    }
    return voice;
}

/*
 * What the second pass keeps from break to break. A cut is live by the voice in the whole message's tape, which is not the one written;
 * but a word need be gone through for it again only where the two came apart at its end.
 */
struct joints {
    const uint8_t *msg, *end;
    const size_t *cuts;
    size_t n;                    /* cuts not reached yet */
    const uint8_t *word_end;     /* of the word that is being written */
    uint32_t voice, whole_voice; /* what comes after that word asks for, in the tape written and in the whole one */
    uint32_t live;
};

/*
 * Takes the break at p. The tape of what is after it begins at w and asks for this voice; gives what the break asks for. Here, where it
 * is known whether a cut stands between, a hard boundary changes the first sound.
 */
IN_LINE uint32_t take_break(struct joints *joints, const uint8_t *p, uint32_t voice, uint8_t *w)
{
    const struct symbol *symbol = &tables.symbols[*p];
    bool opening = *p == GAP && changes_opening(p, joints->end);
    uint32_t whole_voice = voice;

    if (joints->voice != joints->whole_voice)
        whole_voice = voice_through(joints->msg, p + 1, joints->word_end, joints->end, joints->whole_voice);
    joints->whole_voice = symbol->sound[whole_voice];
    joints->word_end = p;
    if (joints->n != 0 && p == joints->msg + joints->cuts[joints->n - 1]) {
        joints->n--;
        joints->live += opening || (joints->whole_voice == VOICED && ends_in_obstruent(p));
        joints->voice = VOICELESS;
    } else {
        if (opening)
            *w = *w == I_S ? Y_S : Y_1;
        joints->voice = symbol->sound[voice];
    }
    return joints->voice;
}

/*
 * Writes the tape of an accepted message in an edition, cut at these places, so that it ends at w,
 * and counts the live cuts.
 */
IN_LINE uint32_t write_tape(bool newer, const uint8_t *msg, const uint8_t *end, const size_t *cuts,
                            size_t n, uint8_t *w)
{
    struct joints joints = {msg, end, cuts, n, end, VOICELESS, VOICELESS, 0};
    size_t voice = VOICELESS, level = NOT_KNOWN;
    uint32_t groups = NONE;

    for (const uint8_t *p = end; p != msg;) {
        const struct symbol *symbol = &tables.symbols[*--p];
        if (symbol->kind == CONSONANT) {
            uint32_t common = symbol->groups & groups;
            if (common & ELIDES) {
                if (elided(msg, p, end))
                    continue;
                common ^= ELIDES;
            }
            uint32_t code = symbol->sound[voice] + (common != 0);
            *--w = (uint8_t)code;
            voice = tables.effects[code].voice;
            groups = tables.effects[code].groups;
        } else if (symbol->kind <= STRESS_MARK) {
            if (symbol->kind == STRESS_MARK) {
                level = LEVEL_S;
                symbol = &tables.symbols[*--p];
            } else if (level == NOT_KNOWN) {
                level = last_level(msg, p);
            }
            uint8_t sound = tables.vowels[symbol->sound[newer]][before(msg, p)][level];
            if (sound & J) {
                *--w = sound ^ J;
                *--w = GLIDE;
            } else {
                *--w = sound;
            }
            level = tables.level_before[level];
            voice = AS_WRITTEN;
            groups = symbol->groups;
        } else if (symbol->kind == SIGN) {
            groups = symbol->groups;
        } else {
            voice = take_break(&joints, p, (uint32_t)voice, w);
            *--w = (uint8_t)symbol->groups;
            groups = NONE;
            level = NOT_KNOWN;
        }
    }
    return joints.live;
}

/* The index of the first cut that is no break's place or not above the one before, or n. */
IN_LINE size_t first_bad_cut(const uint8_t *msg, size_t len, const size_t *cuts, size_t n)
{
    size_t lowest = 0;
    for (size_t i = 0; i < n; i++) {
        if (cuts[i] < lowest || cuts[i] >= len || tables.symbols[msg[cuts[i]]].kind != WORD_BREAK)
            return i;
        lowest = cuts[i] + 1;
    }
    return n;
}

IN_LINE baseline_answer join(bool newer, const uint8_t *msg, size_t len, const size_t *cuts,
                             size_t n, uint8_t *out, size_t cap)
{
    baseline_counts counts = baseline_check(msg, len);
    if (counts.number)
        return refused(counts.number, counts.place);
    size_t bad = first_bad_cut(msg, len, cuts, n);
    if (bad < n)
        return refused(12, (uint32_t)bad);
    if (counts.codes > cap)
        return refused(11, counts.codes);
    uint32_t live = write_tape(newer, msg, msg + len, cuts, n, out + counts.codes);
    return (baseline_answer){.length = counts.codes, .live = live};
}

APART baseline_answer join_present(const uint8_t *msg, size_t len, const size_t *cuts, size_t n,
                                   uint8_t *out, size_t cap)
{
    return join(false, msg, len, cuts, n, out, cap);
}

APART baseline_answer join_newer(const uint8_t *msg, size_t len, const size_t *cuts, size_t n,
                                 uint8_t *out, size_t cap)
{
    return join(true, msg, len, cuts, n, out, cap);
}

baseline_answer baseline_join(bool newer, const uint8_t *msg, size_t len, const size_t *cuts,
                              size_t n, uint8_t *out, size_t cap)
{
    if (newer)
        return join_newer(msg, len, cuts, n, out, cap);
    return join_present(msg, len, cuts, n, out, cap);
}

baseline_answer baseline_transcribe(bool newer, const uint8_t *msg, size_t len, uint8_t *out,
                                    size_t cap)
{
    if (newer)
        return join_newer(msg, len, NULL, 0, out, cap);
    return join_present(msg, len, NULL, 0, out, cap);
}

#define TO_GAP   {true, GAP}
#define TO_PAUSE {true, PAUSE}

/*
 * What the editor makes of a byte. All bits of a gap are also a pause's, so a run of breaks becomes the bitwise or of what its bytes
 * become. That a byte is a break has a field of its own: the loop over a word then tests it in place, an instruction a byte less.
 */
static const struct {
    bool is_break;
    uint8_t becomes;
} edits[256] = {
    [GAP] = TO_GAP, ['-'] = TO_GAP, ['('] = TO_GAP, [')'] = TO_GAP, ['"'] = TO_GAP, ['\''] = TO_GAP,
    [PAUSE] = TO_PAUSE, ['.'] = TO_PAUSE, [','] = TO_PAUSE, [';'] = TO_PAUSE, [':'] = TO_PAUSE, ['?'] = TO_PAUSE, ['!'] = TO_PAUSE,
};

/* How many bytes the runs of breaks before the last word lose. */
static size_t bytes_lost(const uint8_t *p, const uint8_t *last_word)
{
    size_t lost = 0;
    while (p != last_word) {
        while (!edits[*p].is_break)
            p++;
        while (edits[*++p].is_break)
            lost++;
    }
    return lost;
}

/*
 * Writes the words before the last one, a break after each, and gives their length. What goes to out[n] is at p[n]: p moves on where
 * a run loses a byte. The first break of a run is copied with the word before it, and what the run becomes is put over it.
 */
static size_t write_words(const uint8_t *p, const uint8_t *last_word, uint8_t *out)
{
    size_t n = 0;
    while (p + n != last_word) {
        uint8_t byte;
        for (;; n++) {
            byte = p[n];
            out[n] = byte;
            if (edits[byte].is_break)
                break;
        }
        uint8_t run = edits[byte].becomes;
        for (; edits[p[n + 1]].is_break; p++)
            run |= edits[p[n + 1]].becomes;
        out[n++] = run;
    }
    return n;
}

/*
 * The breaks at the ends are taken off and the last word is found first. Each word before it then ends at a break and each run of
 * breaks at a word, so the loops over them don't ask for the end, and no byte past the answer is written.
 */
baseline_text baseline_edit(const uint8_t *text, size_t len, uint8_t *out, size_t cap)
{
    const uint8_t *end = text + len;
    while (end != text && edits[end[-1]].is_break)
        end--;
    if (end == text)
        return (baseline_text){.length = 0};
    while (edits[*text].is_break)
        text++;
    const uint8_t *last_word = end;
    while (last_word != text && !edits[last_word[-1]].is_break)
        last_word--;

    size_t length = (size_t)(end - text), last_length = (size_t)(end - last_word);
    if (length > cap) {
        length -= bytes_lost(text, last_word);
        if (length > cap)
            return (baseline_text){.number = 11, .place = length};
    }
    size_t n = write_words(text, last_word, out);
    memcpy(out + n, last_word, last_length);
    return (baseline_text){.length = n + last_length};
}

#define STEPS_4(byte, step)  byte, (byte) + (step), (byte) + 2 * (step), (byte) + 3 * (step)
#define STEPS_16(byte, step) \
    STEPS_4(byte, step), STEPS_4((byte) + 4 * (step), step), STEPS_4((byte) + 8 * (step), step), STEPS_4((byte) + 12 * (step), step)

/* What letters begin with in UTF-8: D0 those from А to п and Ё, D1 those from р to я and ё. */
enum { LEAD_A_TO_PE = 0xD0, LEAD_ER_TO_YA = 0xD1, ITSELF = 1 };

/*
 * What a sequence that is taken begins with, by its last byte, so that a letter is told by one comparison. Ё and ё are not here: their
 * last bytes are those of с and Б too.
 */
static const uint8_t leads[256] = {
    [MARK] = ITSELF, [GAP] = ITSELF, [PAUSE] = ITSELF, ['.'] = ITSELF, [','] = ITSELF, [';'] = ITSELF, [':'] = ITSELF, ['?'] = ITSELF,
    ['!'] = ITSELF, ['-'] = ITSELF, ['('] = ITSELF, [')'] = ITSELF, ['"'] = ITSELF, ['\''] = ITSELF,
    [0x80] = STEPS_16(LEAD_ER_TO_YA, 0), STEPS_16(LEAD_A_TO_PE, 0), STEPS_16(LEAD_A_TO_PE, 0), STEPS_16(LEAD_A_TO_PE, 0),
};

/*
 * The letters by their code points, counted from that of Ё. Of a sequence this is its first byte times 64 and its second, less the same
 * of Ё: the bits that tell a first byte from a second one then cancel out.
 */
enum { SUM_OF_YO = (LEAD_A_TO_PE << 6) + 0x81 };
static const uint8_t letters[] = {
    [0] = CAPITAL_YO, [0x0F] = STEPS_16(0xC0, 1), STEPS_16(0xD0, 1), STEPS_16(0xE0, 1), STEPS_16(0xF0, 1), [0x50] = YO,
};

static uint8_t letter_at(const uint8_t *p)
{
    return letters[((size_t)p[0] << 6) + p[1] - SUM_OF_YO];
}

static bool is_yo(const uint8_t *p)
{
    return (p[0] == LEAD_A_TO_PE && p[1] == 0x81) || (p[0] == LEAD_ER_TO_YA && p[1] == 0x91);
}

/* Where the bytes from 0x80 on begin that end before p: in a message or in a text in UTF-8 these are letters. */
static const uint8_t *last_letters(const uint8_t *start, const uint8_t *p)
{
    while (p != start && p[-1] >= 0x80)
        p--;
    return p;
}

/*
 * The first sequence that is not taken before the last letters, or these. Each word before them ends at a byte below 0x80, so the loop
 * over it neither asks for the end nor reads past it. Counts the sequences of one byte.
 */
static const uint8_t *pass_words(const uint8_t *p, const uint8_t *last, size_t *singles)
{
    for (; p != last; p++) {
        while (*p >= 0x80) {
            if (*p != leads[p[1]] && !is_yo(p))
                return p;
            p += 2;
        }
        if (!leads[*p])
            return p;
        ++*singles;
    }
    return p;
}

/* The same for the last letters, whose end has to be asked for. */
static const uint8_t *pass_letters(const uint8_t *p, const uint8_t *end)
{
    while (end - p > 1 && (*p == leads[p[1]] || is_yo(p)))
        p += 2;
    return p;
}

/* Writes a text all of which is taken. */
static void write_message(const uint8_t *p, const uint8_t *last, const uint8_t *end, uint8_t *w)
{
    for (; p != last; p++) {
        for (; *p >= 0x80; p += 2)
            *w++ = letter_at(p);
        *w++ = *p;
    }
    for (; p != end; p += 2)
        *w++ = letter_at(p);
}

baseline_text baseline_read_utf8(const uint8_t *text, size_t len, uint8_t *out, size_t cap)
{
    const uint8_t *end = text + len, *last = last_letters(text, end);
    size_t singles = 0;

    const uint8_t *p = pass_words(text, last, &singles);
    if (p == last)
        p = pass_letters(p, end);
    if (p != end)
        return (baseline_text){.number = 13, .place = (size_t)(p - text)};
    size_t length = singles + (len - singles) / 2;
    if (length > cap)
        return (baseline_text){.number = 11, .place = length};
    write_message(text, last, end, out);
    return (baseline_text){.length = length};
}

/* The letters in UTF-8, two bytes each, by their bytes in a message from that of Ё on. The stops are for bytes that are no letters. */
static const char sequences[] = u8"Ё" ".............................." "ё" ".............."
                                "АБВГДЕЖЗИЙКЛМНОПРСТУФХЦЧШЩЪЫЬЭЮЯабвгдежзийклмнопрстуфхцчшщъыьэюя";

static uint8_t *write_letter(size_t letter, uint8_t *w)
{
    memcpy(w, sequences + 2 * (letter - CAPITAL_YO), 2);
    return w + 2;
}

/* Writes an accepted message in UTF-8 and gives where it ends. */
static uint8_t *write_sequences(const uint8_t *msg, const uint8_t *end, uint8_t *w)
{
    const uint8_t *p = msg, *last = last_letters(msg, end);
    for (; p != last; p++) {
        for (; *p >= 0x80; p++)
            w = write_letter(*p, w);
        *w++ = *p;
    }
    for (; p != end; p++)
        w = write_letter(*p, w);
    return w;
}

static size_t length_in_utf8(const uint8_t *msg, size_t len)
{
    size_t length = len;
    for (size_t i = 0; i < len; i++)
        if (msg[i] >= 0x80)
            length++;
    return length;
}

baseline_answer baseline_write_utf8(const uint8_t *msg, size_t len, uint8_t *out, size_t cap)
{
    baseline_counts counts = baseline_check(msg, len);
    if (counts.number)
        return refused(counts.number, counts.place);
    if (2 * len > cap) {
        size_t length = length_in_utf8(msg, len);
        if (length > cap)
            return refused(11, (uint32_t)length);
    }
    return (baseline_answer){.length = (uint32_t)(write_sequences(msg, msg + len, out) - out)};
}

/*
 * Where the words of levels stand in their table. Those of 1 to 19 stand at their numbers, those of tens and hundreds and the feminine one and
 * two as many places from these as their digit says.
 */
enum { ZERO, TENS = 18, HUNDREDS = 27, FEMININE = 36, THOUSAND_OF_ONE = 39, THOUSAND_OF_FEW, THOUSAND_OF_MANY, MINUS };

enum { MAX_LEVEL = 9999, MAX_WORDS = 6 };

struct word {
    uint8_t length;
    char letters[15];
};

#define WORD(letters) {sizeof(letters) - 1, letters}

static const struct word level_words[] = {
    [ZERO] = WORD("\xED\xEE*\xEB\xFC"),                                               /* но*ль */
    [1] = WORD("\xEE\xE4\xE8*\xED"),                                                  /* оди*н */
    [2] = WORD("\xE4\xE2\xE0*"),                                                      /* два* */
    [3] = WORD("\xF2\xF0\xE8*"),                                                      /* три* */
    [4] = WORD("\xF7\xE5\xF2\xFB*\xF0\xE5"),                                          /* четы*ре */
    [5] = WORD("\xEF\xFF*\xF2\xFC"),                                                  /* пя*ть */
    [6] = WORD("\xF8\xE5*\xF1\xF2\xFC"),                                              /* ше*сть */
    [7] = WORD("\xF1\xE5*\xEC\xFC"),                                                  /* се*мь */
    [8] = WORD("\xE2\xEE*\xF1\xE5\xEC\xFC"),                                          /* во*семь */
    [9] = WORD("\xE4\xE5*\xE2\xFF\xF2\xFC"),                                          /* де*вять */
    [10] = WORD("\xE4\xE5*\xF1\xFF\xF2\xFC"),                                         /* де*сять */
    [11] = WORD("\xEE\xE4\xE8*\xED\xED\xE0\xE4\xF6\xE0\xF2\xFC"),                     /* оди*ннадцать */
    [12] = WORD("\xE4\xE2\xE5\xED\xE0*\xE4\xF6\xE0\xF2\xFC"),                         /* двена*дцать */
    [13] = WORD("\xF2\xF0\xE8\xED\xE0*\xE4\xF6\xE0\xF2\xFC"),                         /* трина*дцать */
    [14] = WORD("\xF7\xE5\xF2\xFB*\xF0\xED\xE0\xE4\xF6\xE0\xF2\xFC"),                 /* четы*рнадцать */
    [15] = WORD("\xEF\xFF\xF2\xED\xE0*\xE4\xF6\xE0\xF2\xFC"),                         /* пятна*дцать */
    [16] = WORD("\xF8\xE5\xF1\xF2\xED\xE0*\xE4\xF6\xE0\xF2\xFC"),                     /* шестна*дцать */
    [17] = WORD("\xF1\xE5\xEC\xED\xE0*\xE4\xF6\xE0\xF2\xFC"),                         /* семна*дцать */
    [18] = WORD("\xE2\xEE\xF1\xE5\xEC\xED\xE0*\xE4\xF6\xE0\xF2\xFC"),                 /* восемна*дцать */
    [19] = WORD("\xE4\xE5\xE2\xFF\xF2\xED\xE0*\xE4\xF6\xE0\xF2\xFC"),                 /* девятна*дцать */
    [TENS + 2] = WORD("\xE4\xE2\xE0*\xE4\xF6\xE0\xF2\xFC"),                           /* два*дцать */
    [TENS + 3] = WORD("\xF2\xF0\xE8*\xE4\xF6\xE0\xF2\xFC"),                           /* три*дцать */
    [TENS + 4] = WORD("\xF1\xEE*\xF0\xEE\xEA"),                                       /* со*рок */
    [TENS + 5] = WORD("\xEF\xFF\xF2\xFC\xE4\xE5\xF1\xFF*\xF2"),                       /* пятьдеся*т */
    [TENS + 6] = WORD("\xF8\xE5\xF1\xF2\xFC\xE4\xE5\xF1\xFF*\xF2"),                   /* шестьдеся*т */
    [TENS + 7] = WORD("\xF1\xE5*\xEC\xFC\xE4\xE5\xF1\xFF\xF2"),                       /* се*мьдесят */
    [TENS + 8] = WORD("\xE2\xEE*\xF1\xE5\xEC\xFC\xE4\xE5\xF1\xFF\xF2"),               /* во*семьдесят */
    [TENS + 9] = WORD("\xE4\xE5\xE2\xFF\xED\xEE*\xF1\xF2\xEE"),                       /* девяно*сто */
    [HUNDREDS + 1] = WORD("\xF1\xF2\xEE*"),                                           /* сто* */
    [HUNDREDS + 2] = WORD("\xE4\xE2\xE5*\xF1\xF2\xE8"),                               /* две*сти */
    [HUNDREDS + 3] = WORD("\xF2\xF0\xE8*\xF1\xF2\xE0"),                               /* три*ста */
    [HUNDREDS + 4] = WORD("\xF7\xE5\xF2\xFB*\xF0\xE5\xF1\xF2\xE0"),                   /* четы*реста */
    [HUNDREDS + 5] = WORD("\xEF\xFF\xF2\xFC\xF1\xEE*\xF2"),                           /* пятьсо*т */
    [HUNDREDS + 6] = WORD("\xF8\xE5\xF1\xF2\xFC\xF1\xEE*\xF2"),                       /* шестьсо*т */
    [HUNDREDS + 7] = WORD("\xF1\xE5\xEC\xFC\xF1\xEE*\xF2"),                           /* семьсо*т */
    [HUNDREDS + 8] = WORD("\xE2\xEE\xF1\xE5\xEC\xFC\xF1\xEE*\xF2"),                   /* восемьсо*т */
    [HUNDREDS + 9] = WORD("\xE4\xE5\xE2\xFF\xF2\xFC\xF1\xEE*\xF2"),                   /* девятьсо*т */
    [FEMININE + 1] = WORD("\xEE\xE4\xED\xE0*"),                                       /* одна* */
    [FEMININE + 2] = WORD("\xE4\xE2\xE5*"),                                           /* две* */
    [THOUSAND_OF_ONE] = WORD("\xF2\xFB*\xF1\xFF\xF7\xE0"),                            /* ты*сяча */
    [THOUSAND_OF_FEW] = WORD("\xF2\xFB*\xF1\xFF\xF7\xE8"),                            /* ты*сячи */
    [THOUSAND_OF_MANY] = WORD("\xF2\xFB*\xF1\xFF\xF7"),                               /* ты*сяч */
    [MINUS] = WORD("\xEC\xE8*\xED\xF3\xF1"),                                          /* ми*нус */
};

/* The words of a level, of which it has as many as are given back. */
static size_t find_words(int32_t level, const struct word **words)
{
    uint32_t n = (uint32_t)(level < 0 ? -level : level);
    uint32_t thousands = n / 1000, hundreds = n % 1000 / 100, rest = n % 100;
    size_t count = 0;

    if (level < 0)
        words[count++] = &level_words[MINUS];
    if (thousands != 0) {
        words[count++] = &level_words[thousands <= 2 ? FEMININE + thousands : thousands];
        words[count++] = &level_words[thousands == 1 ? THOUSAND_OF_ONE : thousands <= 4 ? THOUSAND_OF_FEW : THOUSAND_OF_MANY];
    }
    if (hundreds != 0)
        words[count++] = &level_words[HUNDREDS + hundreds];
    if (rest >= 20)
        words[count++] = &level_words[TENS + rest / 10];
    rest = rest >= 20 ? rest % 10 : rest;
    if (rest != 0 || n == 0)
        words[count++] = &level_words[rest];
    return count;
}

baseline_answer baseline_speak_level(int32_t level, uint8_t *out, size_t cap)
{
    if (level < -MAX_LEVEL || level > MAX_LEVEL)
        return refused(14, 0);
    const struct word *words[MAX_WORDS];
    size_t count = find_words(level, words);
    size_t length = count - 1;

    for (size_t i = 0; i < count; i++)
        length += words[i]->length;
    if (length > cap)
        return refused(11, (uint32_t)length);
    for (size_t i = 0; i < count; i++) {
        if (i != 0)
            *out++ = GAP;
        memcpy(out, words[i]->letters, words[i]->length);
        out += words[i]->length;
    }
    return (baseline_answer){.length = (uint32_t)length};
}

/*
 * A record of a book: a mark, a number, a set of listeners, its tape's length, and the tape. The set is one byte; the others before the tape
 * are two bytes each, with the low one first.
 */
enum { RECORD_MARK = 0x9F52, NUMBER_AT = 2, SET_AT = 4, LENGTH_AT = 5, HEAD_BYTES = 7, NO_PHRASE = 0x10000 };

/* The last of the three listeners, who alone adds. */
enum { DISPATCH = 2 };

static uint32_t two_bytes(const uint8_t *p)
{
    return p[0] | (uint32_t)p[1] << 8;
}

static uint8_t *write_two_bytes(uint32_t number, uint8_t *w)
{
    w[0] = (uint8_t)number;
    w[1] = (uint8_t)(number >> 8);
    return w + 2;
}

struct passage {
    uint32_t number;       /* of the refusal, or 0 */
    const uint8_t *stop;   /* the record that is refused */
    const uint8_t *record; /* that of the phrase, or NULL */
    uint32_t least;        /* the smallest number that may come next */
};

/* Goes through a whole book, which has so many bytes, and looks for a phrase; NO_PHRASE is above them all. */
IN_LINE struct passage pass_records(const uint8_t *p, size_t left, uint32_t phrase)
{
    const uint8_t *record = NULL;
    uint32_t least = 0;

    while (left >= HEAD_BYTES) {
        size_t bytes = HEAD_BYTES + two_bytes(p + LENGTH_AT);
        uint32_t number = two_bytes(p + NUMBER_AT);
        if (two_bytes(p) != RECORD_MARK || bytes > left)
            break;
        if (number < least)
            return (struct passage){.number = 16, .stop = p};
        if (number == phrase)
            record = p;
        least = number + 1;
        p += bytes;
        left -= bytes;
    }
    if (left != 0)
        return (struct passage){.number = 15, .stop = p};
    return (struct passage){.record = record, .least = least};
}

static bool hears(uint32_t listener, uint32_t set)
{
    return listener <= DISPATCH && (set >> listener & 1) != 0;
}

baseline_found baseline_book_find(uint32_t listener, const uint8_t *book, size_t size, size_t used, uint16_t phrase)
{
    struct passage passage = pass_records(book, used < size ? used : size, phrase);
    if (passage.number)
        return (baseline_found){.number = passage.number, .place = (size_t)(passage.stop - book)};
    if (!passage.record || !hears(listener, passage.record[SET_AT]))
        return (baseline_found){.number = 17};
    const uint8_t *tape = passage.record + HEAD_BYTES;
    return (baseline_found){.found = 1, .start = (size_t)(tape - book), .length = two_bytes(passage.record + LENGTH_AT)};
}

static baseline_added not_added(uint32_t number, size_t place)
{
    return (baseline_added){.number = number, .place = place};
}

/*
 * Writes a record with the tape of an accepted message in an edition, which has so many codes; the
 * tape goes to where it is to stay, behind the head.
 */
IN_LINE void write_record(bool newer, uint32_t phrase, uint8_t set, const uint8_t *msg, size_t len,
                          uint32_t codes, uint8_t *w)
{
    w = write_two_bytes(RECORD_MARK, w);
    w = write_two_bytes(phrase, w);
    *w++ = set;
    w = write_two_bytes(codes, w);
    write_tape(newer, msg, msg + len, NULL, 0, w + codes);
}

APART void write_present(uint32_t phrase, uint8_t set, const uint8_t *msg, size_t len,
                         uint32_t codes, uint8_t *w)
{
    write_record(false, phrase, set, msg, len, codes, w);
}

APART void write_newer(uint32_t phrase, uint8_t set, const uint8_t *msg, size_t len, uint32_t codes,
                       uint8_t *w)
{
    write_record(true, phrase, set, msg, len, codes, w);
}

baseline_added baseline_book_add(uint32_t listener, bool newer, uint8_t *book, size_t size,
                                 size_t used, uint16_t phrase, uint8_t set, const uint8_t *msg,
                                 size_t len)
{
    if (listener != DISPATCH)
        return not_added(17, 0);
    baseline_counts counts = baseline_check(msg, len);
    if (counts.number)
        return not_added(counts.number, counts.place);
    size_t end = used < size ? used : size, longer = end + HEAD_BYTES + counts.codes;
    struct passage passage = pass_records(book, end, NO_PHRASE);
    if (passage.number)
        return not_added(passage.number, (size_t)(passage.stop - book));
    if (phrase < passage.least)
        return not_added(16, end);
    if (longer > size)
        return not_added(11, longer);
    if (newer)
        write_newer(phrase, set, msg, len, counts.codes, book + end);
    else
        write_present(phrase, set, msg, len, counts.codes, book + end);
    return (baseline_added){.used = longer};
}
