/*
 * pushdown.h: the C interface of libpushdown.a.
 *
 * The library reads, solves and judges pushdown reachability games and plays
 * moves in them: reading a game file, solving it into a table of entries,
 * judging a position over a table, playing a move in a session. This header has
 * the version, the four functions, the limits, the numbers of refusals and of
 * verdicts, and the parts of an entry, of a lost verdict and of a session. The
 * bytes of the formats are in docs/FORMAT.md; what is proved is in
 * docs/CONTRACT.md. Neither is repeated here beyond what a call needs.
 *
 * Buffers
 *
 * The caller owns every buffer. The library keeps no pointer after a call,
 * allocates nothing, has no state of its own and calls nothing but memcpy and
 * memset. So calls from several threads do not disturb each other if they write
 * to different buffers. Equal arguments give equal results.
 *
 * A buffer is a pointer and a length. The length is in elements of the
 * pointer's type, not in bytes: uint8_t for files, positions and sessions,
 * uint32_t for tables and work areas, uint64_t for the words of results.
 *
 * Of every pointer the caller sees to this, which the library cannot ask:
 *   - it is not null and is aligned for its type, also where its length is 0;
 *   - it points to at least as many elements as its length says, all of them
 *     initialised;
 *   - a buffer that is written (table and work of pushdown_solve, session, and
 *     every out) overlaps no other buffer of the same call.
 * Nothing else is asked. Any bytes, any words and any lengths are answered.
 *
 * Results
 *
 * Every function but pushdown_version returns PUSHDOWN_DONE, the number of the
 * first question that was answered no (PUSHDOWN_REFUSED_..), or
 * PUSHDOWN_WRONG_LENGTH. The rest of the result is in out, whose first word is
 * always the place of a refusal, 0 after PUSHDOWN_DONE. After a refusal every
 * other word of out is 0. After PUSHDOWN_WRONG_LENGTH nothing at all was written,
 * neither out nor any other buffer, and no question was put.
 *
 * Stack
 *
 * Every function is meant to need at most 1 MiB of stack, whatever the file, the
 * words and the position are. This is measured and not proved: the deepest file
 * that was found needs 1,008,896 bytes. docs/CONTRACT.md, "What is outside", has
 * what was measured and how.
 *
 * Time
 *
 * Every call ends, which is proved. No bound on the time of pushdown_solve is
 * promised: where more than ten states can be in sets, small files can be made
 * that take minutes and more. A caller that takes files from elsewhere calls it
 * where it can be given up, in a process of its own for instance.
 * docs/PERFORMANCE.md has such files. The other functions take time that grows
 * with the lengths lent to them.
 */
#ifndef PUSHDOWN_H
#define PUSHDOWN_H

#include <stddef.h>
#include <stdint.h>

#ifdef __cplusplus
extern "C" {
#endif

/* The version of this header. The major number is raised where a caller must
 * change something: a number, a word, a layout or a limit is another one. The
 * minor number is raised where something is only added. CHANGELOG.md says what
 * each version changed. */

#define PUSHDOWN_VERSION_MAJOR 4u
#define PUSHDOWN_VERSION_MINOR 0u
#define PUSHDOWN_VERSION (PUSHDOWN_VERSION_MAJOR * 65536u + PUSHDOWN_VERSION_MINOR)

/* Limits of a game. */

#define PUSHDOWN_MAX_FILE 4096u    /* bytes of a game file */
#define PUSHDOWN_MAX_CONTROL 24u   /* control states, P */
#define PUSHDOWN_MAX_STATES 32u    /* states in all, S */
#define PUSHDOWN_MAX_LETTERS 64u   /* letters, L */
#define PUSHDOWN_MAX_RULES 256u    /* rules */
#define PUSHDOWN_MAX_TARGETS 256u  /* target transitions */
#define PUSHDOWN_MAX_ENTRIES 2048u /* entries of a table */
#define PUSHDOWN_MAX_ROUNDS 40u    /* rounds */
#define PUSHDOWN_MAX_STACK 256u    /* letters of a stack */
#define PUSHDOWN_MAX_BOUND (PUSHDOWN_MAX_STACK * ((UINT64_C(1) << PUSHDOWN_MAX_ROUNDS) - 1)) /* a judged bound, in moves */

/* Lengths of buffers, in their elements. */

#define PUSHDOWN_ENTRY_WORDS 3u /* uint32_t of an entry */
#define PUSHDOWN_MAX_TABLE (PUSHDOWN_ENTRY_WORDS * PUSHDOWN_MAX_ENTRIES) /* uint32_t of the longest table */
#define PUSHDOWN_MAX_POSITION (1u + PUSHDOWN_MAX_STACK) /* uint8_t of the longest position */
#define PUSHDOWN_SESSION_BYTES (3u + PUSHDOWN_MAX_STACK) /* uint8_t of a session, always */
#define PUSHDOWN_READ_WORDS 8u  /* uint64_t of out, always */
#define PUSHDOWN_SOLVE_WORDS 3u
#define PUSHDOWN_JUDGE_WORDS 4u
#define PUSHDOWN_PLAY_WORDS 1u

/* What a function returns. */

#define PUSHDOWN_DONE 0u

/* The questions, in the order in which they are put; the place is in brackets.
 * Questions 2, 19 and 3 to 7 are put to each command before the next one is
 * looked at. 2 is a command that this library does not know, as a newer linker
 * may write it; 19 is a file whose end is missing. */

/* Reading; every other function puts these first. */
#define PUSHDOWN_REFUSED_FILE_LENGTH 1u /* Has the file 1 to 4,096 bytes? [0] */
#define PUSHDOWN_REFUSED_COMMAND 2u     /* Is the command byte known? [offset of the command] */
#define PUSHDOWN_REFUSED_CUT 19u        /* Has the command all its operands before the file's end? [offset of the command] */
#define PUSHDOWN_REFUSED_FIRST 3u       /* Is 01 the first command, and only there? [offset of the command] */
#define PUSHDOWN_REFUSED_OPERAND 4u     /* Are operands in range? [offset of the command] */
#define PUSHDOWN_REFUSED_BOTTOM 5u      /* Does the rule keep the bottom? [offset of the command] */
#define PUSHDOWN_REFUSED_REPEATED 6u    /* Is the statement new (no equal command before)? [offset of the command] */
#define PUSHDOWN_REFUSED_TOO_MANY 7u    /* Were fewer than 256 of its kind before (04, 05)? [offset of the command] */
#define PUSHDOWN_REFUSED_END 8u         /* Is FF there, as the last byte? [its offset, or the file's length] */
#define PUSHDOWN_REFUSED_HEAD 9u        /* Has every head a rule? [offset of FF] */

/* Solving, after 1 to 9 and 19. */
#define PUSHDOWN_REFUSED_AREAS 10u     /* Are table and work of equal length, a multiple of 3 from 3 to 6,144 words? [0] */
#define PUSHDOWN_REFUSED_FULL 11u      /* Does each of rounds 0 to 40, taken in order until settled, fit the table? [the round] */
#define PUSHDOWN_REFUSED_UNSETTLED 12u /* Does round 41 add none? [41] */

/* Judging, after 1 to 9 and 19; moving puts 14, too. */
#define PUSHDOWN_REFUSED_TABLE 13u    /* Is the table well formed? [index of the first entry that fails; 0 for the length] */
#define PUSHDOWN_REFUSED_POSITION 14u /* Are there 2 to 257 position bytes, in form? [index of the first byte that breaks it;
                                         0 for the length, and always 0 for a session] */

/* 15 is not used, and will not be used again: it was for a bound that is too
 * large, and no judged bound is above PUSHDOWN_MAX_BOUND, whatever the file,
 * the table and the position. A caller needs no handler for it. */

/* Moving, after 1 to 9, 19 and 14. */
#define PUSHDOWN_REFUSED_RULE 16u   /* Is the rule one of this head? [0] */
#define PUSHDOWN_REFUSED_HEIGHT 17u /* Is the new stack at most 256 letters? [0] */

/* No question: out, or the session, has another length than it must have. */
#define PUSHDOWN_WRONG_LENGTH 100u

/* Kinds of verdict: word PUSHDOWN_JUDGE_KIND of a judgement, 0 after a refusal. */

#define PUSHDOWN_LOST 1u    /* no run of the table accepts the position; on Abelard's turn the rule that keeps it lost */
#define PUSHDOWN_TARGET 2u  /* the bound is 0 */
#define PUSHDOWN_ELOISE 3u  /* Eloise's turn: the advised rule and the bound */
#define PUSHDOWN_ABELARD 4u /* Abelard's turn: the bound */

/* Words of out. */

#define PUSHDOWN_PLACE 0 /* of every function: the place of a refusal, 0 after PUSHDOWN_DONE */

#define PUSHDOWN_READ_CONTROL 1 /* control states, P */
#define PUSHDOWN_READ_STATES 2  /* states in all, S */
#define PUSHDOWN_READ_LETTERS 3 /* letters, L */
#define PUSHDOWN_READ_ABELARD 4 /* Abelard's control states as a set: bit s for state s */
#define PUSHDOWN_READ_FINALS 5  /* the final states as a set */
#define PUSHDOWN_READ_RULES 6   /* the number of rules */
#define PUSHDOWN_READ_TARGETS 7 /* the number of target transitions */

#define PUSHDOWN_SOLVE_ENTRIES 1 /* used entries of the table */
#define PUSHDOWN_SOLVE_ROUNDS 2  /* the largest birthdate, 0 without entries */

#define PUSHDOWN_JUDGE_KIND 1  /* the kind of verdict */
#define PUSHDOWN_JUDGE_RULE 2  /* PUSHDOWN_ELOISE: the advised rule's number, from 0. PUSHDOWN_LOST: on Abelard's turn the number
                                  plus 1 of his lowest rule that leads to a lost position, also one of 257 letters; 0 on
                                  Eloise's turn, and where no rule does, which only comes over a table from elsewhere.
                                  0 under the other kinds. */
#define PUSHDOWN_JUDGE_BOUND 3 /* the bound, 1 to PUSHDOWN_MAX_BOUND moves; 0 unless PUSHDOWN_ELOISE or PUSHDOWN_ABELARD */

/*
 * The version of the library: major * 65536 + minor. A caller that was compiled
 * with this header links the library that it goes with if
 * pushdown_version() == PUSHDOWN_VERSION.
 */
uint32_t pushdown_version(void);

/*
 * Reads a game file: questions 1 to 9 and 19.
 *
 * file  bytes, any number of them; not written.
 * out   PUSHDOWN_READ_WORDS words; what they held does not matter. After
 *       PUSHDOWN_DONE the words PUSHDOWN_READ_.. above, place 0. After a
 *       refusal the place, then zeros. With another length: 100, untouched.
 */
uint32_t pushdown_read(const uint8_t *file, size_t file_len, uint64_t *out, size_t out_len);

/*
 * Solves a game file: questions 1 to 9 and 19, then 10 to 12.
 *
 * file   bytes, any number of them; not written.
 * table  words, three an entry; what they held does not matter. After
 *        PUSHDOWN_DONE the entries in ascending order of state, letter and set,
 *        then zeros up to table_len. After a refusal all zero, whatever its
 *        length.
 * work   words, as many as table; what they held does not matter. All zero
 *        after PUSHDOWN_DONE and after every refusal, whatever its length.
 * out    PUSHDOWN_SOLVE_WORDS words; what they held does not matter. After
 *        PUSHDOWN_DONE 0, entries, rounds. After a refusal the place, then
 *        zeros. With another length: 100, and out, table and work untouched.
 *
 * A table of PUSHDOWN_MAX_TABLE words holds whatever can be solved; a table of
 * exactly the entries of a solved game is enough for that game.
 */
uint32_t pushdown_solve(const uint8_t *file, size_t file_len, uint32_t *table, size_t table_len, uint32_t *work,
                        size_t work_len, uint64_t *out, size_t out_len);

/*
 * Judges a position over a table: questions 1 to 9 and 19, then 13, 14.
 *
 * file      bytes, any number of them; not written.
 * table     words, three an entry, unused entries (all zero) last; not written.
 *           Won and lost are claimed for the table that pushdown_solve left for
 *           this file: from a lost position no rule of Eloise's leads into the
 *           target while Abelard plays the rule that is reported of each lost
 *           position of his. Over another table that passes 13 the bound is that
 *           of its own entries, and lost means that there is none.
 * position  bytes: control state, then stack, top letter first; not written.
 * out       PUSHDOWN_JUDGE_WORDS words; what they held does not matter. After
 *           PUSHDOWN_DONE 0, kind, rule, bound, unused ones 0. After a refusal
 *           the place, then zeros. With another length: 100, untouched.
 */
uint32_t pushdown_judge(const uint8_t *file, size_t file_len, const uint32_t *table, size_t table_len,
                        const uint8_t *position, size_t position_len, uint64_t *out, size_t out_len);

/*
 * Plays a rule in a session: questions 1 to 9 and 19, then 14, 16, 17.
 *
 * file     bytes, any number of them; not written.
 * session  PUSHDOWN_SESSION_BYTES bytes: control state, height (two bytes, lower
 *          first), then 256 cells, bottom letter first. Cells from the height up
 *          are not looked at. After PUSHDOWN_DONE the session of the new
 *          position, cells from the new height up 0. After a refusal untouched,
 *          every byte.
 * rule     the number of a rule, from 0 in the order of the file; any number is
 *          answered.
 * out      PUSHDOWN_PLAY_WORDS words; what they held does not matter. After
 *          PUSHDOWN_DONE 0, after a refusal the place.
 *
 * With another length of session or out: 100, and both untouched.
 */
uint32_t pushdown_play(const uint8_t *file, size_t file_len, uint8_t *session, size_t session_len, uint32_t rule,
                       uint64_t *out, size_t out_len);

#ifdef __cplusplus
}
#endif

/*
 * Parts of an entry, of a lost verdict and of a session, as macros; they are not
 * of the library and not proved.
 */

/* An entry, const uint32_t *: entry n of a table is at table + 3 * n. */
#define PUSHDOWN_ENTRY_STATE(entry) ((entry)[0] % 256u)
#define PUSHDOWN_ENTRY_LETTER(entry) ((entry)[0] / 256u % 256u)
#define PUSHDOWN_ENTRY_BIRTHDATE(entry) ((entry)[0] / 65536u)
#define PUSHDOWN_ENTRY_SET(entry) ((entry)[1]) /* bit s for state s */
#define PUSHDOWN_ENTRY_HAS_RULE(entry) ((entry)[2] != 0u)
#define PUSHDOWN_ENTRY_RULE(entry) ((entry)[2] - 1u) /* only where it has one */

/* The words of a judgement whose kind is PUSHDOWN_LOST, const uint64_t *. */
#define PUSHDOWN_LOST_HAS_RULE(out) ((out)[PUSHDOWN_JUDGE_RULE] != 0u)
#define PUSHDOWN_LOST_RULE(out) ((uint32_t)((out)[PUSHDOWN_JUDGE_RULE] - 1u)) /* only where it has one */

/* A session, const uint8_t *. A height is in form from 1 to 256, a cell's index
 * is from 0, the bottom, to 255; the top letter is at the height less 1. */
#define PUSHDOWN_SESSION_STATE(session) ((session)[0])
#define PUSHDOWN_SESSION_HEIGHT(session) ((size_t)(session)[1] + 256u * (size_t)(session)[2])
#define PUSHDOWN_SESSION_CELL(session, index) ((session)[3u + (index)])

#endif
