/*
 * The library from C: reads a game file, solves it, judges a position, and plays
 * from there to the target. On Eloise's turn the advised rule is played, on
 * Abelard's the rule of the lowest number that his head has. Prints every move.
 * Of a lost position it prints why it is lost, as a table of moves.
 *
 *     example FILE STATE LETTER..      the stack's letters, top first, 0 last
 *
 * Exit status 0: the target was reached; 1: the position is lost, or the library
 * refused; 2: the file cannot be read; 3: the library is not of the header's
 * version; 64: the arguments are not as above.
 *
 * Leaves out: writing a game file, and a table kept from an earlier call.
 */
#include <errno.h>
#include <inttypes.h>
#include <stdio.h>
#include <string.h>

#include "pushdown.h"

enum { REACHED = 0, NOT_REACHED = 1, NO_FILE = 2, OTHER_VERSION = 3, BAD_USAGE = 64 };

/* The most moves of the table that shows why a position is lost. */
enum { MOST_MOVES = 10 };

/* A solved game: the file, and the table that pushdown_solve left for it. */
struct solved {
    const uint8_t *file;
    size_t file_len;
    const uint32_t *table;
};

/* A position as a session, and the words of the judgement on it. */
struct judged {
    uint8_t session[PUSHDOWN_SESSION_BYTES];
    uint64_t verdict[PUSHDOWN_JUDGE_WORDS];
};

/* The question that a number stands for, in a few words. */
static const char *cause(uint32_t number)
{
    switch (number) {
    case PUSHDOWN_REFUSED_FILE_LENGTH: return "the file has not 1 to 4096 bytes";
    case PUSHDOWN_REFUSED_COMMAND: return "an unknown command";
    case PUSHDOWN_REFUSED_CUT: return "the file ends within a command";
    case PUSHDOWN_REFUSED_FIRST: return "01 is not first, or not only there";
    case PUSHDOWN_REFUSED_OPERAND: return "an operand out of range";
    case PUSHDOWN_REFUSED_BOTTOM: return "a rule that does not keep the bottom";
    case PUSHDOWN_REFUSED_REPEATED: return "a statement made before";
    case PUSHDOWN_REFUSED_TOO_MANY: return "too many rules or target transitions";
    case PUSHDOWN_REFUSED_END: return "FF is missing or not last";
    case PUSHDOWN_REFUSED_HEAD: return "a head without a rule";
    case PUSHDOWN_REFUSED_AREAS: return "the lengths of table and work";
    case PUSHDOWN_REFUSED_FULL: return "a round that does not fit the table";
    case PUSHDOWN_REFUSED_UNSETTLED: return "not settled after 40 rounds";
    case PUSHDOWN_REFUSED_TABLE: return "a table that is not well formed";
    case PUSHDOWN_REFUSED_POSITION: return "a position that is not in form";
    case PUSHDOWN_REFUSED_RULE: return "not a rule of this head";
    case PUSHDOWN_REFUSED_HEIGHT: return "the new stack is too high";
    case PUSHDOWN_WRONG_LENGTH: return "an area of the wrong length";
    default: return "no such number";
    }
}

static int refused(uint32_t number, const uint64_t *out)
{
    printf("refused %" PRIu32 " at %" PRIu64 ": %s\n", number, out[PUSHDOWN_PLACE], cause(number));
    return NOT_REACHED;
}

/* Reads at most one byte more than a game file may have: enough for the library
 * to find it too long. Returns the number of bytes, or -1, and errno says why. */
static long read_file(const char *name, uint8_t *bytes)
{
    size_t length;
    int failed, why;
    FILE *stream = fopen(name, "rb");
    if (stream == NULL)
        return -1;
    length = fread(bytes, 1, PUSHDOWN_MAX_FILE + 1u, stream);
    failed = ferror(stream);
    why = errno;
    fclose(stream);
    errno = why;
    return failed ? -1 : (long)length;
}

/* A byte from decimal digits, and nothing else before, between or after them:
 * strtoul would take "x" for 0, and "-1" and " 7" for numbers. */
static int byte_of(const char *word, uint8_t *byte)
{
    unsigned value = 0;
    const char *digit;
    for (digit = word; *digit >= '0' && *digit <= '9' && value <= 255u; digit++)
        value = 10u * value + (unsigned)(*digit - '0');
    if (digit == word || *digit != '\0' || value > 255u)
        return 0;
    *byte = (uint8_t)value;
    return 1;
}

/* The position that the arguments from the control state on are. Says which one
 * is not a byte, and returns 0 then. */
static int read_position(int count, char **words, uint8_t *position)
{
    int i;
    for (i = 0; i < count; i++)
        if (!byte_of(words[i], &position[i])) {
            fprintf(stderr, "example: '%s' is not %s, a number from 0 to 255\n", words[i],
                    i == 0 ? "the control state" : "a letter");
            return 0;
        }
    return 1;
}

/* Position bytes have the top letter first, a session's cells the bottom. */
static void start_session(uint8_t *session, const uint8_t *position, size_t length)
{
    size_t i, height = length - 1u;
    session[0] = position[0];
    session[1] = (uint8_t)(height % 256u);
    session[2] = (uint8_t)(height / 256u);
    for (i = 0; i < PUSHDOWN_MAX_STACK; i++)
        session[3u + i] = (uint8_t)(i < height ? position[height - i] : 0);
}

static size_t position_of(const uint8_t *session, uint8_t *position)
{
    size_t i, height = PUSHDOWN_SESSION_HEIGHT(session);
    position[0] = PUSHDOWN_SESSION_STATE(session);
    for (i = 0; i < height; i++)
        position[1u + i] = PUSHDOWN_SESSION_CELL(session, height - 1u - i);
    return 1u + height;
}

static void print_position(const uint8_t *position, size_t length)
{
    size_t i;
    printf("(%u,[", (unsigned)position[0]);
    for (i = 1; i < length; i++)
        printf(i == 1 ? "%u" : ",%u", (unsigned)position[i]);
    printf("])");
}

/* Plays the lowest-numbered rule of the session's head and hands it out. Which
 * rules a head has is asked of the library: a refused move leaves the session
 * untouched, so every number may be tried on it. */
static uint32_t play_lowest(const uint8_t *file, size_t file_len, uint8_t *session, uint32_t *rule, uint64_t *out)
{
    uint32_t answer = PUSHDOWN_REFUSED_RULE;
    for (*rule = 0; *rule < PUSHDOWN_MAX_RULES; ++*rule) {
        answer = pushdown_play(file, file_len, session, PUSHDOWN_SESSION_BYTES, *rule, out, PUSHDOWN_PLAY_WORDS);
        if (answer != PUSHDOWN_REFUSED_RULE)
            break;
    }
    return answer;
}

/* Prints the moves from a lost position as rows of the table of moves, and hands
 * out the first position that they lead to. On Abelard's turn that is the rule
 * that the judge reports, which leads to a lost position; on Eloise's it is every
 * rule that her head has, since each of them does. Returns whether there is a
 * position to go on from: none where the stack would be too high. */
static int print_moves(const struct solved *game, const struct judged *before, unsigned move, struct judged *next)
{
    static struct judged after;
    static uint8_t position[PUSHDOWN_MAX_POSITION];
    /* In a solved game a lost verdict has a rule exactly on Abelard's turn. */
    int is_abelards = PUSHDOWN_LOST_HAS_RULE(before->verdict);
    int rows = 0, found = 0;
    uint64_t out[PUSHDOWN_PLAY_WORDS];
    uint32_t rule, answer;
    size_t length;

    for (rule = 0; rule < PUSHDOWN_MAX_RULES; rule++) {
        if (is_abelards && rule != PUSHDOWN_LOST_RULE(before->verdict))
            continue;
        after = *before;
        answer = pushdown_play(game->file, game->file_len, after.session, PUSHDOWN_SESSION_BYTES, rule, out,
                               PUSHDOWN_PLAY_WORDS);
        if (answer == PUSHDOWN_REFUSED_RULE)
            continue;
        length = position_of(after.session, position);
        if (answer == PUSHDOWN_DONE)
            answer = pushdown_judge(game->file, game->file_len, game->table, PUSHDOWN_MAX_TABLE, position, length,
                                    after.verdict, PUSHDOWN_JUDGE_WORDS);
        if (rows++ == 0)
            printf("%4u", move);
        else
            printf("  or");
        printf("  %-7s  %4" PRIu32 "  ", is_abelards ? "Abelard" : "Eloise", rule);
        if (answer != PUSHDOWN_DONE) {
            printf("%s\n", cause(answer));
            continue;
        }
        print_position(position, length);
        printf(after.verdict[PUSHDOWN_JUDGE_KIND] == PUSHDOWN_LOST ? " lost\n" : " not lost\n");
        if (!found)
            *next = after;
        found = 1;
    }
    return found;
}

/* Prints why a position is lost, as a table of moves from it. Ends where a
 * position comes again, where a stack would be too high, or after MOST_MOVES
 * moves. A session has zeros above its stack, so that equal positions are equal
 * sessions. */
static void print_why_lost(const struct solved *game, const uint8_t *session, const uint64_t *verdict)
{
    static struct judged positions[MOST_MOVES + 1];
    unsigned move, earlier;

    printf("why: on Abelard's turn the rule that the judge reports, on Eloise's every rule that she has; the first that can be is played\n");
    printf("move  turn     rule  leads to\n");
    memcpy(positions[0].session, session, sizeof positions[0].session);
    memcpy(positions[0].verdict, verdict, sizeof positions[0].verdict);
    for (move = 1; move <= MOST_MOVES; move++) {
        if (!print_moves(game, &positions[move - 1], move, &positions[move])) {
            printf("the table ends at move %u: a session has at most %u letters\n", move, PUSHDOWN_MAX_STACK);
            return;
        }
        for (earlier = 0; earlier < move; earlier++)
            if (memcmp(positions[earlier].session, positions[move].session, sizeof positions[move].session) == 0) {
                printf("move %u leads back to the position before move %u, and so on for ever\n", move, earlier + 1u);
                return;
            }
    }
    printf("and so on; %d moves are shown\n", MOST_MOVES);
}

int main(int argc, char **argv)
{
    static uint8_t file[PUSHDOWN_MAX_FILE + 1u];
    static uint32_t table[PUSHDOWN_MAX_TABLE], work[PUSHDOWN_MAX_TABLE];
    static uint8_t position[PUSHDOWN_MAX_POSITION], session[PUSHDOWN_SESSION_BYTES];
    uint64_t game[PUSHDOWN_READ_WORDS], solution[PUSHDOWN_SOLVE_WORDS];
    uint64_t verdict[PUSHDOWN_JUDGE_WORDS], move[PUSHDOWN_PLAY_WORDS];
    uint32_t answer, rule;
    uint64_t moves = 0;
    size_t file_len, position_len, i;
    struct solved solved;
    long length;

    if (pushdown_version() != PUSHDOWN_VERSION) {
        fprintf(stderr, "example: compiled for version %u.%u of the library and linked with %u.%u\n", PUSHDOWN_VERSION_MAJOR,
                PUSHDOWN_VERSION_MINOR, (unsigned)pushdown_version() / 65536u, (unsigned)pushdown_version() % 65536u);
        return OTHER_VERSION;
    }
    if (argc < 4) {
        fprintf(stderr, "usage: example FILE STATE LETTER..\n");
        return BAD_USAGE;
    }
    position_len = (size_t)argc - 2u;
    if (position_len > PUSHDOWN_MAX_POSITION) {
        fprintf(stderr, "example: %lu letters are more than a stack has, %u\n", (unsigned long)position_len - 1u,
                PUSHDOWN_MAX_STACK);
        return BAD_USAGE;
    }
    if (!read_position(argc - 2, argv + 2, position))
        return BAD_USAGE;
    length = read_file(argv[1], file);
    if (length < 0) {
        fprintf(stderr, "example: cannot read %s: %s\n", argv[1], strerror(errno));
        return NO_FILE;
    }
    file_len = (size_t)length;

    answer = pushdown_read(file, file_len, game, PUSHDOWN_READ_WORDS);
    if (answer != PUSHDOWN_DONE)
        return refused(answer, game);
    printf("read: %" PRIu64 " control states, %" PRIu64 " states, %" PRIu64 " letters, %" PRIu64 " rules, "
           "%" PRIu64 " target transitions\n",
           game[PUSHDOWN_READ_CONTROL], game[PUSHDOWN_READ_STATES], game[PUSHDOWN_READ_LETTERS],
           game[PUSHDOWN_READ_RULES], game[PUSHDOWN_READ_TARGETS]);

    answer = pushdown_solve(file, file_len, table, PUSHDOWN_MAX_TABLE, work, PUSHDOWN_MAX_TABLE, solution,
                            PUSHDOWN_SOLVE_WORDS);
    if (answer != PUSHDOWN_DONE)
        return refused(answer, solution);
    printf("solved: %" PRIu64 " entries, %" PRIu64 " rounds\n", solution[PUSHDOWN_SOLVE_ENTRIES],
           solution[PUSHDOWN_SOLVE_ROUNDS]);
    for (i = 0; i < solution[PUSHDOWN_SOLVE_ENTRIES]; i++) {
        const uint32_t *entry = table + PUSHDOWN_ENTRY_WORDS * i;
        printf("entry: state %" PRIu32 ", letter %" PRIu32 ", set %" PRIu32 ", birthdate %" PRIu32,
               PUSHDOWN_ENTRY_STATE(entry), PUSHDOWN_ENTRY_LETTER(entry), PUSHDOWN_ENTRY_SET(entry),
               PUSHDOWN_ENTRY_BIRTHDATE(entry));
        if (PUSHDOWN_ENTRY_HAS_RULE(entry))
            printf(", rule %" PRIu32, PUSHDOWN_ENTRY_RULE(entry));
        printf("\n");
    }

    solved.file = file;
    solved.file_len = file_len;
    solved.table = table;
    start_session(session, position, position_len);
    for (;;) {
        answer = pushdown_judge(file, file_len, table, PUSHDOWN_MAX_TABLE, position, position_len, verdict,
                                PUSHDOWN_JUDGE_WORDS);
        if (answer != PUSHDOWN_DONE)
            return refused(answer, verdict);
        print_position(position, position_len);
        switch (verdict[PUSHDOWN_JUDGE_KIND]) {
        case PUSHDOWN_LOST:
            printf(" lost\n");
            print_why_lost(&solved, session, verdict);
            return NOT_REACHED;
        case PUSHDOWN_TARGET:
            printf(" target after %" PRIu64 " moves\n", moves);
            return REACHED;
        case PUSHDOWN_ELOISE:
            rule = (uint32_t)verdict[PUSHDOWN_JUDGE_RULE];
            answer = pushdown_play(file, file_len, session, PUSHDOWN_SESSION_BYTES, rule, move, PUSHDOWN_PLAY_WORDS);
            break;
        default:
            answer = play_lowest(file, file_len, session, &rule, move);
            break;
        }
        printf(" bound %" PRIu64 ", %s rule %" PRIu32 "\n", verdict[PUSHDOWN_JUDGE_BOUND],
               verdict[PUSHDOWN_JUDGE_KIND] == PUSHDOWN_ELOISE ? "Eloise plays the advised" : "Abelard plays", rule);
        if (answer != PUSHDOWN_DONE)
            return refused(answer, move);
        moves++;
        position_len = position_of(session, position);
    }
}
