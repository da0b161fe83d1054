/* Rehearsal sheets in ground Transaction Logic: read a sheet, write it as its one
 * fixed text, evaluate its goal, from one start or from a whole class of them, list the
 * path of an answer, find a call; merge two sheets into one; store states by fluent, and
 * restore them; take the figures of a class run; mark what a trainee did; run the goals of
 * two instructors in one pair of tables.
 *
 * The host lends all memory; nothing is allocated, kept between calls, printed or
 * locked, so calls may run in any number of threads. Every call returns, whatever
 * the buffers hold; no call touches a word outside the buffers lent.
 *
 * A buffer is a pointer and a count of elements (not of bytes). The pointer must be
 * aligned to its element type; it may be NULL where the count is 0. A buffer that is
 * written may not overlap another one of the same call.
 *
 * Stack: lawhemuri_evaluate and lawhemuri_class need LAWHEMURI_STACK_EVALUATE bytes of it,
 * lawhemuri_path and lawhemuri_share_path LAWHEMURI_STACK_PATH, lawhemuri_share
 * LAWHEMURI_STACK_SHARE, lawhemuri_store and lawhemuri_restore LAWHEMURI_STACK_ARCHIVE,
 * lawhemuri_report LAWHEMURI_STACK_REPORT, lawhemuri_mark LAWHEMURI_STACK_MARK,
 * lawhemuri_lookup hardly any, the others LAWHEMURI_STACK_READ. A main thread has 8 MiB on
 * most systems, a thread of Rust's 2 MiB, one of musl's only 128 KiB, which is enough for
 * all but lawhemuri_share and the two paths.
 *
 * While lawhemuri_evaluate, lawhemuri_class or lawhemuri_share runs, the tables and the list
 * of calls hold notes of the run: they are to be read when it has returned.
 */
#ifndef LAWHEMURI_H
#define LAWHEMURI_H

#include <stdbool.h>
#include <stddef.h>
#include <stdint.h>

#ifdef __cplusplus
extern "C" {
#endif

/* The version of this header, in words and as 10,000 times the first number, 100 times the second and the third. */
#define LAWHEMURI_VERSION "0.2.0"
#define LAWHEMURI_VERSION_NUMBER 200u

/* ---- Refusals, in the order in which they are looked for ----
 *
 * No.  Exactly when                                          Buffers afterwards
 *
 * Whole sheet (lawhemuri_read):
 *  10  longer than 65,536 bytes                              unchanged
 *  11  a byte not TAB, LF or 33 to 126, other than SPACE
 *      in a comment line and CR directly before LF           unchanged
 *  12  not empty, last byte not LF                           unchanged
 * A line, from the top; in a line 13, 17 and the count part of 14 come first,
 * then fields from the left, each by 14, 15, 16:
 *  13  first field is no record word, or is out of order     unchanged
 *  17  65th fluent or action, 257th rule, or over 16 steps   unchanged
 *  14  fluent or action without exactly one name, rule
 *      without head; then a field that is no name or step    unchanged
 *  15  a name defined before, or twice in `start`            unchanged
 *  16  a used name undefined or of the wrong kind            unchanged
 * Sheet's end:
 *  18  no `start` or no `goal`                               unchanged
 *  19  rule words lent are fewer than 18 times the rules     unchanged
 * Many starts (lawhemuri_class; its starts then meet 20 to 34 one by one):
 *  25  over 1,024 starts, or under 4 result words for each   unchanged
 * Rule words (lawhemuri_evaluate, from here on):
 *  20  over 64 fluents or over 64 actions                    unchanged
 *  21  length not a multiple of 18, or over 256 rules        unchanged
 *  22  bad head, count over 16, bad step, unused word not 0  unchanged
 * Goal:
 *  23  over 16 steps or a bad step                           unchanged
 * Start:
 *  24  a bit at or above the fluent count                    unchanged
 * List of calls (34 comes before 30, whatever its number):
 *  34  fewer places than the call room                       unchanged
 * Tables:
 *  30  the run's calls outnumber the call room, or its       both tables and list of calls
 *      answers the answer room                               wholly 0, ends unchanged
 * List of ends:
 *  31  fewer places than ends                                both tables and list of calls
 *                                                            finished, ends unchanged
 * A call that is looked up (lawhemuri_lookup: 40 of the call count, then 35):
 *  35  a list with fewer places than calls, or a place that
 *      is read not below the call count                      nothing is written
 * Tables that are shown (lawhemuri_path, after 20 to 23):
 *  40  a record count over its room                          list unchanged
 *  41  record number not below the answer count              list unchanged
 *  42  a call record with an action neither 64 nor below
 *      the count, a state bit too high, or a round over
 *      131,071; or an answer not justified                   list unchanged
 *  43  fewer places than states in the path                  list unchanged
 * Text (lawhemuri_write, after 10 to 18):
 *  50  fewer bytes lent than the text has                    text unchanged
 * Recorded steps (lawhemuri_mark, after 20 to 24):
 *  60  over 63 steps                                         table unchanged
 *  61  a table under 4,096 words                             table unchanged
 *  62  a step that is a call or bad                          table unchanged
 * Two sheets (lawhemuri_merge: the first's 10 to 18, the second's, 70, then 17, 10
 * and 50 of the merged text):
 *  70  a name that is a fluent in one sheet and an action
 *      in the other                                          text unchanged
 * States by fluent (lawhemuri_store: 20, 24, 80; lawhemuri_restore: 20, 81, 82, 80;
 * 20 is of the fluents alone, 24 of every state):
 *  81  words not one per fluent for each block of 64 states  output unchanged
 *  82  a set bit past the last state                         output unchanged
 *  80  fewer places than words, or than states               output unchanged
 * Figures of a class run (lawhemuri_report, after 20, which is of the fluents alone):
 *  26  result words not 4 for each of at most 1,024 starts,
 *      an unrefused start with over 65,536 ends, unrefused
 *      starts whose ends do not add up to the ends lent, or
 *      an end with a bit at or above the fluent count        output unchanged
 *  27  fewer than 2 words for each fluent and 4 more         output unchanged
 * Tables of two parties (lawhemuri_open: 90; lawhemuri_share: 20 to 22, 91, 23, 24, 30, 31,
 * with 30 by the party's own limits; lawhemuri_share_path: 20 to 22, 23 of either goal that
 * is kept, 40 to 43, with 42 for an action 64 or 65 whose goal is not kept):
 *  90  the limits of both add up to more than a table's
 *      room                                                  tables unchanged, nothing is kept
 *  91  what is kept is not 44 words or meets 23, 24, 40 or
 *      90, or the tables, counted as kept, do not hold just
 *      that, within the limits                               unchanged, and what is kept too
 * 20 to 22 change nothing either. After 23, 24 and 30 of lawhemuri_share the party holds no
 * rows, and the tables hold the other's alone, 0 past them; after 31 it holds its new ones.
 *
 * A result with a refusal has 0 in every other field, but for four: the line of 13 to 17,
 * the counts of 31, which of two sheets has a fault of its own, and the words kept from a
 * run of lawhemuri_share on.
 */
#define LAWHEMURI_OK 0u
#define LAWHEMURI_TOO_LONG 10u
#define LAWHEMURI_BAD_BYTE 11u
#define LAWHEMURI_NOT_ENDED 12u
#define LAWHEMURI_BAD_WORD 13u
#define LAWHEMURI_BAD_FIELD 14u
#define LAWHEMURI_REPEATED 15u
#define LAWHEMURI_UNDEFINED 16u
#define LAWHEMURI_TOO_MANY 17u
#define LAWHEMURI_INCOMPLETE 18u
#define LAWHEMURI_NO_ROOM 19u
#define LAWHEMURI_BAD_COUNTS 20u
#define LAWHEMURI_BAD_LENGTH 21u
#define LAWHEMURI_BAD_RULE 22u
#define LAWHEMURI_BAD_GOAL 23u
#define LAWHEMURI_BAD_START 24u
#define LAWHEMURI_BAD_CLASS 25u
#define LAWHEMURI_BAD_RESULTS 26u
#define LAWHEMURI_REPORT_SHORT 27u
#define LAWHEMURI_TABLES_FULL 30u
#define LAWHEMURI_LIST_SHORT 31u
#define LAWHEMURI_CALL_LIST_SHORT 34u
#define LAWHEMURI_BAD_CALL_LIST 35u
#define LAWHEMURI_BAD_RECORD_COUNT 40u
#define LAWHEMURI_NO_RECORD 41u
#define LAWHEMURI_BAD_RECORD 42u
#define LAWHEMURI_STATES_SHORT 43u
#define LAWHEMURI_TEXT_SHORT 50u
#define LAWHEMURI_LONG_RECORD 60u
#define LAWHEMURI_MARKS_SHORT 61u
#define LAWHEMURI_BAD_RECORDED_STEP 62u
#define LAWHEMURI_BOTH_KINDS 70u
#define LAWHEMURI_OUTPUT_SHORT 80u
#define LAWHEMURI_BAD_WORD_COUNT 81u
#define LAWHEMURI_BIT_PAST_END 82u
#define LAWHEMURI_OVER_LIMITS 90u
#define LAWHEMURI_NOT_AS_KEPT 91u

/* ---- Words ----
 *
 * State: 64 bits; fluent k holds exactly if bit k is set.
 * Step: 256 times kind plus index. Kinds: 0 query, 1 insert, 2 delete of a fluent,
 *   3 call of an action, 4 denial of a fluent (goes on if it does not hold).
 * Rule: 18 words: head, step count, 16 step words, unused ones 0.
 * Call record: 3 words: action (64 for the goal), state, round.
 * Answer record: 20 words: call record number; final state; rule number (256 for the
 *   goal); 16 evidence words; round. At a call step of the rule the evidence is the number
 *   of the answer record used, always of a smaller number and a smaller round; elsewhere it
 *   is 0.
 * Round: the goal's call stands at round 0. Each round walks every body of every call of
 *   an earlier round with only the answers of earlier rounds, and adds all new calls and
 *   answers at once; a record's round is the one it came in. A run has as many rounds as
 *   added something.
 * Order: calls stand by round, then action, then state; answers by round, then call record,
 *   then final state. Among the justifications of an answer by answers of smaller rounds the
 *   lowest rule number is kept, then the least evidence words from the first on.
 * List of calls: the number of each call record once, by action, then state; the goal, action
 *   64, last. So a call is found by halves, without a walk of the table.
 * Result words of a start in a class: 4 words: refusal number or 0, ends, calls, answers.
 * Room of a table: its length divided by 3 or 20, rounded down, at most 65,536.
 * States by fluent: for each block of 64 states, of which the last may be shorter, one
 *   word per fluent, in fluent order. Bit i of the word of fluent k in block b, which is
 *   word k + b * fluents, is set exactly if fluent k holds in state i of the block, which
 *   is state i + 64 * b; for a state that is missing it is 0.
 * Fraction: 2 words, numerator before denominator, in lowest terms. 0 is 0 over 1; a share
 *   or mean over nothing is 0 over 0.
 * Figures of a class run: a fraction for each fluent in order, the share of the ends in
 *   which it holds; then the mean number of fluents holding in an end, and the mean ends
 *   per unrefused start.
 * Marks: place i of a record stands before its step i, and the last place behind its last
 *   step. Bit j of word 64 * a + i is set exactly if some complete deduction of action a,
 *   from the state that the steps before place i leave, carries out just the steps from
 *   place i up to but not including place j. A word is 0 for an action at or above the
 *   count, for a place past the record's end, and for a place after a step that cannot run.
 * Tables of two parties: call records have 2 words, action and state; answer records 19, as
 *   above, without a round. The first party's goal is action 64, the second's 65, and both
 *   are rule number 256. Rows that both need are stored once. Order, record numbers and
 *   which justification is kept are not said, and may depend on both; the number of evidence
 *   is smaller than the record's own. The room is the length divided by 2 or 19, rounded
 *   down, at most 65,536.
 * Kept beside them: 44 words. 21 for the first party: its limits of calls and of answers, 1 if
 *   it holds rows and else 0, the start and the count of steps of the goal that it holds them
 *   for, and 16 step words, unused ones 0; 21 for the second; the count of call records and
 *   that of answer records. Of a party without rows start, count and steps are 0. Where they
 *   are handed back any word but 0 says that a party holds rows, and start and goal of one
 *   that holds none, and unused step words, are not looked at.
 */
#define LAWHEMURI_RULE_WORDS 18u
#define LAWHEMURI_CALL_WORDS 3u
#define LAWHEMURI_ANSWER_WORDS 20u
#define LAWHEMURI_MOST_FLUENTS 64u
#define LAWHEMURI_MOST_ACTIONS 64u
#define LAWHEMURI_MOST_RULES 256u
#define LAWHEMURI_MOST_STEPS 16u
#define LAWHEMURI_MOST_RECORDS 65536u
#define LAWHEMURI_MOST_CALL_ROUND 131071u
#define LAWHEMURI_MOST_STARTS 1024u
#define LAWHEMURI_START_WORDS 4u
#define LAWHEMURI_MOST_SHEET_BYTES 65536u
#define LAWHEMURI_MOST_RECORDED 63u
#define LAWHEMURI_MARK_WORDS 4096u
#define LAWHEMURI_GOAL_ACTION 64u
#define LAWHEMURI_GOAL_RULE 256u
#define LAWHEMURI_SECOND_GOAL_ACTION 65u
#define LAWHEMURI_SHARED_CALL_WORDS 2u
#define LAWHEMURI_SHARED_ANSWER_WORDS 19u
#define LAWHEMURI_KEPT_WORDS 44u
#define LAWHEMURI_KEPT_CALLS 42u   /* where the count of call records stands */
#define LAWHEMURI_KEPT_ANSWERS 43u /* and that of answer records */
#define LAWHEMURI_REPORT_WORDS(fluents) (2u * (fluents) + 4u)

/* Bytes of stack that a call needs, with some to spare. */
#define LAWHEMURI_STACK_EVALUATE 65536u
#define LAWHEMURI_STACK_PATH 524288u
#define LAWHEMURI_STACK_READ 65536u
#define LAWHEMURI_STACK_ARCHIVE 1024u
#define LAWHEMURI_STACK_REPORT 8192u
#define LAWHEMURI_STACK_MARK 65536u
#define LAWHEMURI_STACK_SHARE 1835008u

/* The two parties that share a pair of tables. */
#define LAWHEMURI_FIRST false
#define LAWHEMURI_SECOND true

/* What a sheet says beside its rule words. */
typedef struct lawhemuri_sheet {
    uint64_t refusal;  /* 0: accepted */
    uint64_t line;     /* for 13 to 17 the line, from 1; else 0 */
    uint64_t fluents;
    uint64_t actions;
    uint64_t rules;    /* 18 words each, at the head of the list lent */
    uint64_t start;
    uint64_t goal_len; /* 0 to 16 */
    uint16_t goal[16]; /* unused words are 0 */
} lawhemuri_sheet;

/* A part of a sheet: `len` bytes from byte `at` on. */
typedef struct lawhemuri_span {
    size_t at;
    size_t len;
} lawhemuri_span;

/* What a run gives. */
typedef struct lawhemuri_run {
    uint64_t refusal; /* 0: the ends are listed */
    uint64_t ends;
    uint64_t calls;   /* records in the call table */
    uint64_t answers; /* records in the answer table */
    uint64_t rounds;  /* rounds that added something: at most calls + answers - 1 */
} lawhemuri_run;

/* What a lookup gives. */
typedef struct lawhemuri_found {
    uint64_t refusal; /* 0: looked up */
    uint64_t found;   /* 1 where there is such a call, else 0 */
    uint64_t row;     /* its record number; 0 where there is none, or refused */
} lawhemuri_found;

/* What a path gives. */
typedef struct lawhemuri_states {
    uint64_t refusal; /* 0: the states are listed */
    uint64_t states;  /* how many; 0 where refused */
} lawhemuri_states;

/* What the writer gives. */
typedef struct lawhemuri_written {
    uint64_t refusal; /* 0: the text is written */
    uint64_t line;    /* for 13 to 17 the sheet's line, from 1; else 0 */
    uint64_t length;  /* bytes of the text; 0 where refused */
} lawhemuri_written;

/* What the merge of two sheets gives. */
typedef struct lawhemuri_merged {
    uint64_t refusal; /* 0: the text is written */
    uint64_t sheet;   /* 1 or 2 for a sheet's own fault, 10 to 18; else 0 */
    uint64_t line;    /* that sheet's line for 13 to 17, from 1; else 0 */
    uint64_t length;  /* bytes of the text; 0 where refused */
} lawhemuri_merged;

/* A part of one of two sheets: `len` bytes of it from byte `at` on. */
typedef struct lawhemuri_part {
    uint64_t sheet; /* 1 or 2; 0: none */
    size_t at;
    size_t len;
} lawhemuri_part;

/* What lawhemuri_store and lawhemuri_restore give. */
typedef struct lawhemuri_archived {
    uint64_t refusal; /* 0: the words or states are written */
    uint64_t count;   /* how many; 0 where refused */
} lawhemuri_archived;

/* What marking gives. */
typedef struct lawhemuri_marked {
    uint64_t refusal; /* 0: the record is marked */
    uint64_t yes;     /* 1 for a yes, else 0 */
} lawhemuri_marked;

/* What is kept beside the tables that two parties share. */
typedef struct lawhemuri_kept {
    uint64_t words[LAWHEMURI_KEPT_WORDS];
} lawhemuri_kept;

/* What an opening gives. */
typedef struct lawhemuri_opened {
    uint64_t refusal;    /* 0: both tables are emptied */
    lawhemuri_kept kept; /* the limits; 0 throughout where refused */
} lawhemuri_opened;

/* What a party's run gives. */
typedef struct lawhemuri_shared {
    uint64_t refusal;    /* 0: the ends are listed */
    uint64_t ends;
    uint64_t calls;      /* of the party alone: those of the tables stand in kept */
    uint64_t answers;
    lawhemuri_kept kept; /* from then on, whatever the refusal */
} lawhemuri_shared;

/* The version of the library that is linked: LAWHEMURI_VERSION_NUMBER of its own header. */
uint64_t lawhemuri_version(void);

/* Reads a sheet (refusals 10 to 19).
 *
 * rules: accepted, the first 18 * result.rules words are the rules and the list past
 *   them is unchanged; refused, it is unchanged. 4,608 words (256 rules) always do.
 */
lawhemuri_sheet lawhemuri_read(const uint8_t *sheet, size_t sheet_len,
                               uint16_t *rules, size_t rules_len);

/* The part of the sheet that defines a fluent's name, for a number below the count of
 * fluents in an accepted sheet; for any other sheet or number `at` and `len` are 0.
 * Each call reads the whole sheet: a host that prints many names keeps the spans.
 */
lawhemuri_span lawhemuri_fluent_name(const uint8_t *sheet, size_t sheet_len,
                                     uint64_t fluent);

/* Writes an accepted sheet as its one fixed text (refusals 10 to 18, then 50): no
 * comments, LF alone at a line's end, the names of `start` in fluent order. The text
 * is never longer than the sheet.
 *
 * text: no refusal, the first result.length bytes are the text and the buffer past
 *   them is unchanged; refused, it is unchanged.
 */
lawhemuri_written lawhemuri_write(const uint8_t *sheet, size_t sheet_len,
                                  uint8_t *text, size_t text_len);

/* Merges two accepted sheets into one fixed text (refusals: the first's 10 to 18, the
 * second's, then 70, 17, 10 and 50 of the two): the names of the first, then the new names
 * of the second; the rules of the first, then those of the second not already written;
 * both starts together; the first's goal. The two sheets may be one buffer.
 *
 * text: no refusal, the first result.length bytes are the text and the buffer past
 *   them is unchanged; refused, it is unchanged. 65,536 bytes always do.
 */
lawhemuri_merged lawhemuri_merge(const uint8_t *first, size_t first_len,
                                 const uint8_t *second, size_t second_len,
                                 uint8_t *text, size_t text_len);

/* The part of whichever sheet brought a merged fluent's name first, for a number below the
 * count of fluents of the merged text; for any other number, and where the merge would be
 * refused other than with 50, `sheet`, `at` and `len` are 0. Each call merges the sheets.
 */
lawhemuri_part lawhemuri_merged_fluent(const uint8_t *first, size_t first_len,
                                       const uint8_t *second, size_t second_len,
                                       uint64_t fluent);

/* Evaluates a goal from a start (refusals 20 to 24, 34, 30, 31).
 *
 * No refusal:
 *   calls: result.calls records, each of the run's calls once, with its round, in the one
 *     order; 0 past them.
 *   answers: result.answers records, each of the run's answers once, with its round, in the
 *     one order, each with the one justification kept; 0 past them. So the request gives
 *     every word of both tables.
 *   ends: the goal's final states, result.ends of them in rising order; unchanged past
 *     them.
 *   list: result.calls numbers, those of the call records by action, then state; 0 past them.
 *     It must have a place for each record that the call table has room for; it may have more.
 * 20 to 24, 34: all four unchanged.
 * 30: calls, answers and list 0 throughout, ends unchanged.
 * 31: calls, answers and list as with no refusal, all counts given, ends unchanged.
 */
lawhemuri_run lawhemuri_evaluate(uint64_t fluents, uint64_t actions,
                                 const uint16_t *rules, size_t rules_len,
                                 const uint16_t *goal, size_t goal_len,
                                 uint64_t start,
                                 uint64_t *calls, size_t calls_len,
                                 uint64_t *answers, size_t answers_len,
                                 uint64_t *ends, size_t ends_len,
                                 uint64_t *list, size_t list_len);

/* Runs a goal from many starts in turn (25, or 0). Everything equals calls of
 * lawhemuri_evaluate made in turn with the same tables and the same list of calls, each lent
 * what is left of the list of ends.
 *
 * 25: all buffers unchanged. Else:
 *   results: four words for each start, in the starts' order: its refusal number (20 to 34)
 *     or 0, its ends, calls and answers, as lawhemuri_evaluate gives them; its rounds have no
 *     word here; unchanged past them.
 *   ends: the ends of the unrefused starts, one start after another, each start's in rising
 *     order; unchanged past them. A refused start takes no places, and later ones still run:
 *     one that has fewer places left than ends is 31.
 *   calls, answers, list: as the last start that was refused with none of 20 to 24 left
 *     them; unchanged if there is none. A list of calls that is too short is 34 in the words
 *     of each start that meets none of 20 to 24, and all three are unchanged.
 * With no starts nothing is changed and nothing is looked at, so a bad book is not refused.
 */
uint64_t lawhemuri_class(uint64_t fluents, uint64_t actions,
                         const uint16_t *rules, size_t rules_len,
                         const uint16_t *goal, size_t goal_len,
                         const uint64_t *starts, size_t starts_len,
                         uint64_t *results, size_t results_len,
                         uint64_t *calls, size_t calls_len,
                         uint64_t *answers, size_t answers_len,
                         uint64_t *ends, size_t ends_len,
                         uint64_t *list, size_t list_len);

/* Lists the path of an answer record (refusals 20 to 23, then 40 to 43): the call's
 * state, then one state for each update of the execution that the record's evidence
 * unfolds to, also where the update changes nothing; queries and denials add none. The
 * tables may come from anybody: all records counted are checked first. The tables that
 * lawhemuri_evaluate leaves, with the same counts, rules and goal and with the record
 * counts of its result, are never refused with 42.
 *
 * states: no refusal, the first result.states words are the states and the list past
 *   them is unchanged; refused, it is unchanged. The tables are only read.
 */
lawhemuri_states lawhemuri_path(uint64_t fluents, uint64_t actions,
                                const uint16_t *rules, size_t rules_len,
                                const uint16_t *goal, size_t goal_len,
                                const uint64_t *calls, size_t calls_len,
                                uint64_t call_count,
                                const uint64_t *answers, size_t answers_len,
                                uint64_t answer_count, uint64_t record,
                                uint64_t *states, size_t states_len);

/* Finds the record of a call by a list of calls (refusals 40, then 35), without a walk of the
 * table: of the places still left the one with half of them, rounded down, before it is read;
 * what is asked stands there, or before it, or after it, by action and then state. At most 17
 * places are read. Action and state are any numbers; the goal is action 64. With the call
 * table, the count of calls and the list that lawhemuri_evaluate left it is never refused and
 * finds what a walk of the table finds.
 *
 * Table and list may come from anybody: a place that is not read is not judged, and a list
 * that is not in order may hide a call. Nothing is written; the two may overlap.
 */
lawhemuri_found lawhemuri_lookup(const uint64_t *calls, size_t calls_len,
                                 uint64_t count,
                                 const uint64_t *list, size_t list_len,
                                 uint64_t action, uint64_t state);

/* Stores states by fluent (refusals 20, 24, 80): any states, of a path or not.
 *
 * words: no refusal, the first result.count words are the words by fluent, which is
 *   fluents for each block of 64 states, and the list past them is unchanged; refused, it
 *   is unchanged.
 */
lawhemuri_archived lawhemuri_store(uint64_t fluents,
                                   const uint64_t *states, size_t states_len,
                                   uint64_t *words, size_t words_len);

/* Restores `count` states from their words (refusals 20, 81, 82, 80). What was stored is
 * restored, given the same fluents, its words alone, the count of the states and room for
 * them; and storing what was restored writes the same words.
 *
 * states: no refusal, the first `count` words, as many as result.count, are the states
 *   and the list past them is unchanged; refused, it is unchanged.
 */
lawhemuri_archived lawhemuri_restore(uint64_t fluents, uint64_t count,
                                     const uint64_t *words, size_t words_len,
                                     uint64_t *states, size_t states_len);

/* Writes the figures of a class run (20, 26, 27, or 0).
 *
 * results: 4 words for each start: refusal number or 0, ends, calls, answers. Of a refused
 *   start only the first word is looked at, of any other the first two.
 * ends: the ends of the unrefused starts, as many as the results say and no more, in any
 *   order; an end from two starts counts twice.
 * out: no refusal, the first LAWHEMURI_REPORT_WORDS(fluents) words are the figures and the
 *   list past them is unchanged; refused, it is unchanged.
 */
uint64_t lawhemuri_report(uint64_t fluents,
                          const uint64_t *results, size_t results_len,
                          const uint64_t *ends, size_t ends_len,
                          uint64_t *out, size_t out_len);

/* Marks what a trainee did (refusals 20 to 24, then 60 to 62): a yes exactly if some
 * complete deduction of the goal from the start carries out the recorded steps, in that
 * order and no others. Queries and denials are steps of the record too; calls are not. A
 * step that cannot run where it stands makes it no. Rules may call themselves first.
 *
 * table: no refusal, the first 4,096 words are the marks and the words past them are
 *   unchanged; refused, it is unchanged. Where the goal is one call, of action a, the
 *   answer is bit recorded_len of word 64 * a.
 */
lawhemuri_marked lawhemuri_mark(uint64_t fluents, uint64_t actions,
                                const uint16_t *rules, size_t rules_len,
                                const uint16_t *goal, size_t goal_len,
                                uint64_t start,
                                const uint16_t *recorded, size_t recorded_len,
                                uint64_t *table, size_t table_len);

/* Opens one pair of tables for two parties (90, or 0), each with a limit of calls and of
 * answers. The limits of both together must be within the room of each table.
 *
 * No refusal: both tables are 0 throughout, and result.kept has the limits.
 * 90: both tables unchanged, result.kept 0 throughout.
 */
lawhemuri_opened lawhemuri_open(uint64_t first_calls, uint64_t first_answers,
                                uint64_t second_calls, uint64_t second_answers,
                                uint64_t *calls, size_t calls_len,
                                uint64_t *answers, size_t answers_len);

/* Runs the goal of one of two parties from a start, in tables that both share (refusals 20 to
 * 22, 91, 23, 24, 30, 31). First the party gives up its earlier rows that the other does not
 * need. Its refusal, ends and counts are those of a run alone, in tables of its limits,
 * whatever the other party does; only 91 may depend on both.
 *
 * second: LAWHEMURI_FIRST or LAWHEMURI_SECOND.
 * kept: the words that the last lawhemuri_open or lawhemuri_share of these tables gave;
 *   result.kept has those to hand over next time. They, and the tables, may come from
 *   anybody: with 91 they are refused. What an opening that was not refused left, or a run
 *   that was refused with none of 20 to 22 and 91, is not, under the same book.
 * No refusal:
 *   calls, answers: exactly the calls and answers of the goals that are kept, each once, every
 *     answer justified; 0 past them. How many there are stands in result.kept.
 *   ends: the party's final states, result.ends of them in rising order; unchanged past them.
 * 20 to 22, 91: all three unchanged, result.kept as it was handed over (0 throughout where it
 *   was not 44 words).
 * 23, 24, 30: calls and answers as with no refusal, where the party has no rows and no goal;
 *   ends unchanged.
 * 31: calls and answers as with no refusal, all counts given, ends unchanged.
 */
lawhemuri_shared lawhemuri_share(bool second,
                                 uint64_t fluents, uint64_t actions,
                                 const uint16_t *rules, size_t rules_len,
                                 const uint16_t *goal, size_t goal_len,
                                 uint64_t start,
                                 const uint64_t *kept, size_t kept_len,
                                 uint64_t *calls, size_t calls_len,
                                 uint64_t *answers, size_t answers_len,
                                 uint64_t *ends, size_t ends_len);

/* Lists the path of an answer record of tables that two parties share (refusals 20 to 22, 23
 * of either goal that is kept, then 40 to 43), as lawhemuri_path does for one: goals and
 * record counts are those of the words kept. Words that are not 44 keep no records: 41. The
 * tables and the words may come from anybody; 90 and 91 are not looked for.
 *
 * states: no refusal, the first result.states words are the states and the list past
 *   them is unchanged; refused, it is unchanged. The tables are only read.
 */
lawhemuri_states lawhemuri_share_path(uint64_t fluents, uint64_t actions,
                                      const uint16_t *rules, size_t rules_len,
                                      const uint64_t *kept, size_t kept_len,
                                      const uint64_t *calls, size_t calls_len,
                                      const uint64_t *answers, size_t answers_len,
                                      uint64_t record,
                                      uint64_t *states, size_t states_len);

#ifdef __cplusplus
}
#endif

#endif
