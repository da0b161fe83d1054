/* The operations as a C host meets them: results, refusals, what each buffer holds afterwards, and the stack of a run, of a path and of a party's
 * run. */
#define _POSIX_C_SOURCE 200809L
#include "lawhemuri.h"

#include <pthread.h>
#include <stdio.h>
#include <stdlib.h>
#include <string.h>
#include <unistd.h>

#define MARK 0x5555555555555555u
#define WORDS(a) (sizeof(a) / sizeof(a)[0])

static unsigned failures;

static void expect(int holds, const char *what, int line) {
    if (!holds) {
        failures++;
        printf("hosts/c/test.c:%d: %s\n", line, what);
    }
}
#define EXPECT(c) expect((c), #c, __LINE__)

static const char EXAMPLE[] = "fluent\topen\nfluent\tlit\naction\tpurge\naction\tlight\nrule\tpurge\t+open\n"
                              "rule\tlight\t!purge\t?open\t+lit\t-open\nstart\ngoal\t!light\n";

/* Drill D2: g: !g ?a +b; g: +a; goal !g. */
static const uint16_t RULES[36] = {0, 3, 768, 0, 257, [18] = 0, 1, 256};
static const uint16_t GOAL[1] = {768};

static uint64_t calls[LAWHEMURI_CALL_WORDS * 8], answers[LAWHEMURI_ANSWER_WORDS * 8], ends[8], list[8];

static int all(const uint64_t *words, size_t len, uint64_t value) {
    for (size_t i = 0; i < len; i++)
        if (words[i] != value)
            return 0;
    return 1;
}

static void fill(uint64_t *words, size_t len) {
    for (size_t i = 0; i < len; i++)
        words[i] = MARK;
}

static void fill_all(void) {
    fill(calls, WORDS(calls));
    fill(answers, WORDS(answers));
    fill(ends, WORDS(ends));
    fill(list, WORDS(list));
}

/* Whether all buffers are as `fill_all` left them. */
static int as_lent(void) {
    return all(calls, WORDS(calls), MARK) && all(answers, WORDS(answers), MARK) && all(ends, WORDS(ends), MARK) && all(list, WORDS(list), MARK);
}

/* Runs drill D2 in these rooms, over buffers filled with marks. */
static lawhemuri_run in_rooms_with(size_t call_room, size_t answer_room, size_t places, size_t listed) {
    fill_all();
    return lawhemuri_evaluate(2, 1, RULES, 36, GOAL, 1, 0, calls, LAWHEMURI_CALL_WORDS * call_room, answers,
                              LAWHEMURI_ANSWER_WORDS * answer_room, ends, places, list, listed);
}

/* The same with a list of calls that just fits. */
static lawhemuri_run in_rooms(size_t call_room, size_t answer_room, size_t places) {
    return in_rooms_with(call_room, answer_room, places, call_room);
}

static lawhemuri_sheet read_text(const char *text, uint16_t *rules, size_t len) {
    return lawhemuri_read((const uint8_t *)text, strlen(text), rules, len);
}

static void test_example(void) {
    uint16_t rules[40];
    memset(rules, 0x77, sizeof rules);
    lawhemuri_sheet s = read_text(EXAMPLE, rules, WORDS(rules));
    EXPECT(s.refusal == LAWHEMURI_OK && s.line == 0);
    EXPECT(s.fluents == 2 && s.actions == 2 && s.rules == 2 && s.start == 0);
    EXPECT(s.goal_len == 1 && s.goal[0] == 769 && s.goal[1] == 0 && s.goal[15] == 0);
    EXPECT(rules[35] == 0 && rules[36] == 0x7777 && rules[39] == 0x7777);
    fill(ends, WORDS(ends));
    lawhemuri_run r = lawhemuri_evaluate(s.fluents, s.actions, rules, LAWHEMURI_RULE_WORDS * s.rules, s.goal, s.goal_len,
                                         s.start, calls, WORDS(calls), answers, WORDS(answers), ends, WORDS(ends), list, WORDS(list));
    EXPECT(r.refusal == LAWHEMURI_OK && r.ends == 1 && r.calls == 3 && r.answers == 3 && r.rounds == 5);
    EXPECT(ends[0] == 2 && all(ends + 1, WORDS(ends) - 1, MARK));
    EXPECT(all(calls + 9, WORDS(calls) - 9, 0) && all(answers + 60, WORDS(answers) - 60, 0));
}

static void test_names(void) {
    const uint8_t *text = (const uint8_t *)EXAMPLE;
    size_t len = strlen(EXAMPLE);
    lawhemuri_span lit = lawhemuri_fluent_name(text, len, 1), none = lawhemuri_fluent_name(text, len, 2);
    EXPECT(lit.at == 19 && lit.len == 3 && memcmp(text + 19, "lit", 3) == 0);
    EXPECT(none.at == 0 && none.len == 0);
    none = lawhemuri_fluent_name(NULL, 0, 0);
    EXPECT(none.at == 0 && none.len == 0);
}

static void test_text(void) {
    static const char dressed[] = "# a\tb c\r\nfluent\ta\r\nfluent\tb\n#\naction\tg\r\nrule\tg\t+a\t?b\r\nstart\tb\ta\r\ngoal\t!g\r\n# end\n";
    static const char plain[] = "fluent\ta\nfluent\tb\naction\tg\nrule\tg\t+a\t?b\nstart\ta\tb\ngoal\t!g\n";
    uint8_t text[60];
    memset(text, 7, sizeof text);
    lawhemuri_written w = lawhemuri_write((const uint8_t *)dressed, strlen(dressed), text, 57);
    EXPECT(w.refusal == LAWHEMURI_TEXT_SHORT && w.line == 0 && w.length == 0 && text[0] == 7 && text[56] == 7);
    w = lawhemuri_write((const uint8_t *)dressed, strlen(dressed), text, sizeof text);
    EXPECT(w.refusal == LAWHEMURI_OK && w.line == 0 && w.length == 58);
    EXPECT(memcmp(text, plain, 58) == 0 && text[58] == 7 && text[59] == 7);
    w = lawhemuri_write((const uint8_t *)"# 1\nfluent\tA\n", 13, text, sizeof text);
    EXPECT(w.refusal == LAWHEMURI_BAD_FIELD && w.line == 2 && w.length == 0 && memcmp(text, plain, 58) == 0);
    w = lawhemuri_write(NULL, 0, NULL, 0);
    EXPECT(w.refusal == LAWHEMURI_INCOMPLETE && w.line == 0 && w.length == 0);
    uint8_t again[58];
    w = lawhemuri_write(text, 58, again, sizeof again);
    EXPECT(w.refusal == LAWHEMURI_OK && w.length == 58 && memcmp(again, plain, 58) == 0);
    lawhemuri_span b = lawhemuri_fluent_name((const uint8_t *)dressed, strlen(dressed), 1);
    EXPECT(b.at == 26 && b.len == 1);
}

static lawhemuri_merged merged(const char *first, const char *second, uint8_t *text, size_t len) {
    return lawhemuri_merge((const uint8_t *)first, strlen(first), (const uint8_t *)second, strlen(second), text, len);
}

static void test_merge(void) {
    static const char maker[] = "fluent\ta\nfluent\tb\naction\tg\nrule\tg\t+a\nstart\ta\ngoal\t!g\n";
    static const char site[] = "# site\r\nfluent\tc\r\nfluent\ta\r\naction\th\r\naction\tg\r\nrule\tg\t+a\r\nrule\th\t-c\t!g\r\n"
                               "rule\th\t-c\t!g\r\nstart\tc\r\ngoal\t!h\r\n";
    static const char both[] = "fluent\ta\nfluent\tb\nfluent\tc\naction\tg\naction\th\nrule\tg\t+a\nrule\th\t-c\t!g\nstart\ta\tc\ngoal\t!g\n";
    uint8_t text[88];
    memset(text, 7, sizeof text);
    lawhemuri_merged m = merged(maker, site, text, 85);
    EXPECT(m.refusal == LAWHEMURI_TEXT_SHORT && m.sheet == 0 && m.line == 0 && m.length == 0 && text[0] == 7 && text[84] == 7);
    m = merged(maker, site, text, sizeof text);
    EXPECT(m.refusal == LAWHEMURI_OK && m.sheet == 0 && m.line == 0 && m.length == 86);
    EXPECT(memcmp(text, both, 86) == 0 && text[86] == 7 && text[87] == 7);
    m = merged(maker, maker, text, sizeof text);
    EXPECT(m.refusal == LAWHEMURI_OK && m.length == strlen(maker) && memcmp(text, maker, strlen(maker)) == 0);
    m = merged("fluent\tA\n", site, text, sizeof text);
    EXPECT(m.refusal == LAWHEMURI_BAD_FIELD && m.sheet == 1 && m.line == 1 && m.length == 0);
    m = merged(maker, "# x\nfluent\tA\n", text, sizeof text);
    EXPECT(m.refusal == LAWHEMURI_BAD_FIELD && m.sheet == 2 && m.line == 2 && m.length == 0);
    m = merged(maker, "action\ta\nstart\ngoal\n", text, sizeof text);
    EXPECT(m.refusal == LAWHEMURI_BOTH_KINDS && m.sheet == 0 && m.line == 0 && m.length == 0);
    static const struct {
        uint64_t fluent, sheet;
        size_t at, len;
    } names[] = {{0, 1, 7, 1}, {1, 1, 16, 1}, {2, 2, 15, 1}, {3, 0, 0, 0}};
    for (size_t i = 0; i < WORDS(names); i++) {
        lawhemuri_part p = lawhemuri_merged_fluent((const uint8_t *)maker, strlen(maker), (const uint8_t *)site, strlen(site), names[i].fluent);
        EXPECT(p.sheet == names[i].sheet && p.at == names[i].at && p.len == names[i].len);
    }
    lawhemuri_part none = lawhemuri_merged_fluent((const uint8_t *)maker, strlen(maker), NULL, 0, 0);
    EXPECT(none.sheet == 0 && none.at == 0 && none.len == 0);
}

static void test_refused_sheets(void) {
    static const struct {
        const char *text;
        uint64_t refusal, line;
    } cases[] = {
        {"fluent open\n", LAWHEMURI_BAD_BYTE, 0},         {"start", LAWHEMURI_NOT_ENDED, 0},
        {"\n", LAWHEMURI_BAD_WORD, 1},                    {"start\ngoal\t\n", LAWHEMURI_BAD_FIELD, 2},
        {"fluent\ta\naction\ta\n", LAWHEMURI_REPEATED, 2}, {"start\ta\n", LAWHEMURI_UNDEFINED, 1},
        {"start\ngoal" "\t+a\t+a\t+a\t+a\t+a\t+a\t+a\t+a\t+a\t+a\t+a\t+a\t+a\t+a\t+a\t+a\t+a\n", LAWHEMURI_TOO_MANY, 2},
        {"", LAWHEMURI_INCOMPLETE, 0},                    {"start\ngoal\n# x y", LAWHEMURI_NOT_ENDED, 0},
        {"start\r\r\ngoal\n", LAWHEMURI_BAD_BYTE, 0},     {"# 1\r\n# 2\nfluent\tA\n", LAWHEMURI_BAD_FIELD, 3},
    };
    for (size_t i = 0; i < WORDS(cases); i++) {
        uint16_t rules[36];
        memset(rules, 0x77, sizeof rules);
        lawhemuri_sheet s = read_text(cases[i].text, rules, WORDS(rules));
        EXPECT(s.refusal == cases[i].refusal && s.line == cases[i].line);
        EXPECT(s.fluents == 0 && s.actions == 0 && s.rules == 0 && s.start == 0 && s.goal_len == 0);
        EXPECT(rules[0] == 0x7777 && rules[35] == 0x7777);
    }
    uint16_t few[35] = {7};
    EXPECT(read_text(EXAMPLE, few, WORDS(few)).refusal == LAWHEMURI_NO_ROOM && few[0] == 7);
    static uint8_t lines[65537];
    memset(lines, '\n', sizeof lines);
    EXPECT(lawhemuri_read(lines, sizeof lines, NULL, 0).refusal == LAWHEMURI_TOO_LONG);
    EXPECT(lawhemuri_read(lines, sizeof lines - 1, NULL, 0).refusal == LAWHEMURI_BAD_WORD);
}

static void test_rooms(void) {
    lawhemuri_run r = in_rooms(2, 4, 2);
    EXPECT(r.refusal == LAWHEMURI_OK && r.ends == 2 && r.calls == 2 && r.answers == 4 && r.rounds == 4);
    EXPECT(ends[0] == 1 && ends[1] == 3 && all(ends + 2, WORDS(ends) - 2, MARK));
    EXPECT(all(calls + 6, WORDS(calls) - 6, MARK) && all(answers + 80, WORDS(answers) - 80, MARK));
    static const size_t short_rooms[3][2] = {{1, 4}, {2, 3}, {0, 4}};
    for (size_t i = 0; i < 3; i++) {
        size_t c = short_rooms[i][0], a = short_rooms[i][1];
        r = in_rooms(c, a, 2);
        EXPECT(r.refusal == LAWHEMURI_TABLES_FULL && r.ends == 0 && r.calls == 0 && r.answers == 0 && r.rounds == 0);
        EXPECT(all(calls, LAWHEMURI_CALL_WORDS * c, 0) && all(answers, LAWHEMURI_ANSWER_WORDS * a, 0) && all(ends, WORDS(ends), MARK));
    }
    r = in_rooms(2, 4, 1);
    EXPECT(r.refusal == LAWHEMURI_LIST_SHORT && r.ends == 2 && r.calls == 2 && r.answers == 4 && r.rounds == 4);
    EXPECT(calls[0] == LAWHEMURI_GOAL_ACTION && all(ends, WORDS(ends), MARK));
}

/* The numbers of the call records by action and then state, the goal last, and 0 past them: drills D1 and D2. */
static void test_call_list(void) {
    static const uint16_t rules[36] = {0, 1, 256, [18] = 1, 4, 768, 0, 257, 512};
    static const uint16_t goal[1] = {769};
    static const uint64_t records[9] = {64, 0, 0, 1, 0, 1, 0, 0, 2};
    fill_all();
    lawhemuri_run r = lawhemuri_evaluate(2, 2, rules, 36, goal, 1, 0, calls, 12, answers, WORDS(answers), ends, WORDS(ends), list, 5);
    EXPECT(r.refusal == LAWHEMURI_OK && r.calls == 3 && memcmp(calls, records, sizeof records) == 0);
    EXPECT(list[0] == 2 && list[1] == 1 && all(list + 2, 3, 0) && all(list + 5, WORDS(list) - 5, MARK));
    r = in_rooms_with(2, 4, 2, 4);
    EXPECT(r.refusal == LAWHEMURI_OK && list[0] == 1 && all(list + 1, 3, 0) && all(list + 4, WORDS(list) - 4, MARK));
    r = in_rooms_with(2, 4, 1, 4);
    EXPECT(r.refusal == LAWHEMURI_LIST_SHORT && list[0] == 1 && all(list + 1, 3, 0) && all(ends, WORDS(ends), MARK));
}

/* 34 comes after 24 and before 30 and 31, and leaves every buffer; 30 sets the list wholly to 0. */
static void test_short_call_list(void) {
    static const size_t rooms[5][4] = {{2, 4, 2, 1}, {8, 8, 8, 7}, {2, 4, 1, 1}, {2, 3, 2, 1}, {1, 4, 2, 0}};
    for (size_t i = 0; i < WORDS(rooms); i++) {
        lawhemuri_run r = in_rooms_with(rooms[i][0], rooms[i][1], rooms[i][2], rooms[i][3]);
        EXPECT(r.refusal == LAWHEMURI_CALL_LIST_SHORT && r.ends == 0 && r.calls == 0 && r.answers == 0 && r.rounds == 0 && as_lent());
    }
    EXPECT(lawhemuri_evaluate(2, 1, RULES, 36, GOAL, 1, 4, calls, 6, answers, 80, ends, 2, list, 1).refusal == LAWHEMURI_BAD_START);
    EXPECT(as_lent());
    EXPECT(in_rooms_with(2, 3, 2, 4).refusal == LAWHEMURI_TABLES_FULL);
    EXPECT(all(calls, 6, 0) && all(answers, 60, 0) && all(list, 4, 0) && all(list + 4, WORDS(list) - 4, MARK) && all(ends, WORDS(ends), MARK));
}

static void test_lookup(void) {
    static const uint64_t table[12] = {64, 0, 0, 0, 0, 1, 0, 1, 2, 1, 0, 2};
    static const struct {
        uint64_t count, list[4], places, action, state;
        lawhemuri_found found;
    } cases[] = {
        {4, {1, 2, 3, 0}, 4, 0, 0, {0, 1, 1}},
        {4, {1, 2, 3, 0}, 4, 0, 1, {0, 1, 2}},
        {4, {1, 2, 3, 0}, 4, 1, 0, {0, 1, 3}},
        {4, {1, 2, 3, 0}, 4, 64, 0, {0, 1, 0}},
        {4, {1, 2, 3, 0}, 4, 64, 1, {0, 0, 0}},
        {4, {1, 2, 3, 0}, 4, 0, 2, {0, 0, 0}},
        {4, {1, 2, 3, 0}, 4, UINT64_MAX, UINT64_MAX, {0, 0, 0}},
        {0, {0}, 0, 64, 0, {0, 0, 0}},
        {5, {1, 2, 3, 0}, 4, 0, 1, {LAWHEMURI_BAD_RECORD_COUNT, 0, 0}},
        {4, {1, 2, 3}, 3, 0, 1, {LAWHEMURI_BAD_CALL_LIST, 0, 0}},
        {4, {1, 2, 4, 0}, 4, 0, 1, {LAWHEMURI_BAD_CALL_LIST, 0, 0}}, /* place 2 is read first */
        {4, {9, 2, 3, 0}, 4, 64, 0, {0, 1, 0}},                      /* place 0 is not read */
        {4, {9, 2, 3, 0}, 4, 0, 0, {LAWHEMURI_BAD_CALL_LIST, 0, 0}},
        {4, {3, 2, 1, 0}, 4, 0, 0, {0, 1, 1}}, /* not rising: as the procedure comes to it */
    };
    for (size_t i = 0; i < WORDS(cases); i++) {
        lawhemuri_found f = lawhemuri_lookup(table, WORDS(table), cases[i].count, cases[i].list, cases[i].places, cases[i].action, cases[i].state);
        EXPECT(f.refusal == cases[i].found.refusal && f.found == cases[i].found.found && f.row == cases[i].found.row);
    }
    lawhemuri_found none = lawhemuri_lookup(NULL, 0, 0, NULL, 0, 64, 0), over = lawhemuri_lookup(NULL, 0, UINT64_MAX, NULL, 0, 64, 0);
    EXPECT(none.refusal == LAWHEMURI_OK && none.found == 0 && none.row == 0 && over.refusal == LAWHEMURI_BAD_RECORD_COUNT);
}

/* Every call of a run is found by its list, and a call that is none is not. */
static void test_lookup_of_run(void) {
    lawhemuri_run r = in_rooms(8, 8, 8);
    for (uint64_t row = 0; row < r.calls; row++) {
        lawhemuri_found f = lawhemuri_lookup(calls, WORDS(calls), r.calls, list, WORDS(list), calls[3 * row], calls[3 * row + 1]);
        EXPECT(f.refusal == LAWHEMURI_OK && f.found == 1 && f.row == row);
    }
    lawhemuri_found none = lawhemuri_lookup(calls, WORDS(calls), r.calls, list, WORDS(list), 0, 1);
    EXPECT(r.calls == 2 && none.refusal == LAWHEMURI_OK && none.found == 0 && none.row == 0);
}

/* A list that is too short is told of each start but one refused before it; else the last start's list is left. */
static void test_call_list_of_class(void) {
    static const uint64_t starts[2] = {4, 2}, told[8] = {24, 0, 0, 0, 34}, served[8] = {24, 0, 0, 0, 0, 1, 2, 2};
    uint64_t results[8];
    fill_all();
#define LISTED(places) lawhemuri_class(2, 1, RULES, 36, GOAL, 1, starts, 2, results, 8, calls, 9, answers, 100, ends, 4, list, places)
    EXPECT(LISTED(2) == LAWHEMURI_OK && memcmp(results, told, sizeof told) == 0 && as_lent());
    EXPECT(LISTED(4) == LAWHEMURI_OK && memcmp(results, served, sizeof served) == 0);
    EXPECT(list[0] == 1 && all(list + 1, 3, 0) && all(list + 4, WORDS(list) - 4, MARK));
}

static void test_refused_questions(void) {
    uint16_t bad[36], goal[17] = {0};
    memcpy(bad, RULES, sizeof bad);
    bad[17] = 1; /* an unused word that is not 0 */
    fill_all();
#define RUN(f, a, rules, len, goal, goal_len, start) \
    lawhemuri_evaluate(f, a, rules, len, goal, goal_len, start, calls, 24, answers, 160, ends, 8, list, 8).refusal
    EXPECT(RUN(LAWHEMURI_MOST_FLUENTS + 1, 1, RULES, 36, GOAL, 1, 0) == LAWHEMURI_BAD_COUNTS);
    EXPECT(RUN(2, LAWHEMURI_MOST_ACTIONS + 1, RULES, 36, GOAL, 1, 0) == LAWHEMURI_BAD_COUNTS);
    EXPECT(RUN(2, 1, RULES, 35, GOAL, 1, 0) == LAWHEMURI_BAD_LENGTH);
    EXPECT(RUN(2, 1, bad, 36, GOAL, 1, 0) == LAWHEMURI_BAD_RULE);
    EXPECT(RUN(2, 1, RULES, 36, goal, 17, 0) == LAWHEMURI_BAD_GOAL);
    EXPECT(RUN(2, 1, RULES, 36, GOAL, 1, 4) == LAWHEMURI_BAD_START);
    EXPECT(as_lent());
    EXPECT(lawhemuri_evaluate(0, 0, NULL, 0, NULL, 0, 0, NULL, 0, NULL, 0, NULL, 0, NULL, 0).refusal == LAWHEMURI_TABLES_FULL);
}

/* The step `~`: goes on where the fluent does not hold, and nowhere else. */
static void test_denial(void) {
    static const uint16_t deny_b[1] = {1025}, deny_none[1] = {1026}, kind_five[1] = {1280};
    lawhemuri_sheet s = read_text("fluent\ta\nfluent\tb\nstart\ngoal\t~b\t?a\n", NULL, 0);
    EXPECT(s.refusal == LAWHEMURI_OK && s.goal_len == 2 && s.goal[0] == 1025 && s.goal[1] == 0);
    EXPECT(read_text("action\tg\nstart\ngoal\t~g\n", NULL, 0).refusal == LAWHEMURI_UNDEFINED);
#define DENY(goal, start) \
    lawhemuri_evaluate(2, 0, NULL, 0, goal, 1, start, calls, WORDS(calls), answers, WORDS(answers), ends, WORDS(ends), list, WORDS(list))
    lawhemuri_run r = DENY(deny_b, 1);
    EXPECT(r.refusal == LAWHEMURI_OK && r.ends == 1 && r.calls == 1 && r.answers == 1 && ends[0] == 1);
    r = DENY(deny_b, 2);
    EXPECT(r.refusal == LAWHEMURI_OK && r.ends == 0 && r.calls == 1 && r.answers == 0);
    EXPECT(DENY(deny_none, 0).refusal == LAWHEMURI_BAD_GOAL && DENY(kind_five, 0).refusal == LAWHEMURI_BAD_GOAL);
}

/* Drill D1: the path of the goal's answer, and each refusal of the path. */
static void test_path(void) {
    static const uint16_t rules[36] = {0, 1, 256, [18] = 1, 4, 768, 0, 257, 512};
    static const uint16_t goal[1] = {769};
    uint64_t states[5];
    lawhemuri_run r = lawhemuri_evaluate(2, 2, rules, 36, goal, 1, 0, calls, WORDS(calls), answers, WORDS(answers), ends, WORDS(ends), list,
                                         WORDS(list));
    EXPECT(r.refusal == LAWHEMURI_OK && r.calls == 3 && r.answers == 3);
    uint64_t record = r.answers;
    for (uint64_t x = 0; x < r.answers; x++)
        if (calls[LAWHEMURI_CALL_WORDS * answers[LAWHEMURI_ANSWER_WORDS * x]] == LAWHEMURI_GOAL_ACTION)
            record = x;
#define PATH(count, call_room, record, places) \
    lawhemuri_path(2, 2, rules, 36, goal, 1, calls, LAWHEMURI_CALL_WORDS * (call_room), r.calls, answers, WORDS(answers), count, record, states, places)
    fill(states, WORDS(states));
    lawhemuri_states p = PATH(r.answers, 8, record, 5);
    EXPECT(p.refusal == LAWHEMURI_OK && p.states == 4);
    EXPECT(states[0] == 0 && states[1] == 1 && states[2] == 3 && states[3] == 2 && states[4] == MARK);
    fill(states, WORDS(states));
    EXPECT(PATH(r.answers, 2, record, 5).refusal == LAWHEMURI_BAD_RECORD_COUNT);
    EXPECT(PATH(r.answers, 8, 3, 5).refusal == LAWHEMURI_NO_RECORD);
    EXPECT(PATH(r.answers, 8, record, 3).refusal == LAWHEMURI_STATES_SHORT);
    answers[LAWHEMURI_ANSWER_WORDS * record + 1] ^= 1;
    p = PATH(r.answers, 8, record, 5);
    EXPECT(p.refusal == LAWHEMURI_BAD_RECORD && p.states == 0 && all(states, WORDS(states), MARK));
}

/* Answers of one call, in state 0: +a -a for the first, and for each other the one before it, twice. The last of n adds 2^n states. */
static const uint16_t DOUBLES[36] = {0, 2, 256, 512, [18] = 0, 2, 768, 768};
static const uint64_t DOUBLED[LAWHEMURI_CALL_WORDS];

static void doubles(uint64_t *table, uint64_t count) {
    memset(table, 0, LAWHEMURI_ANSWER_WORDS * count * sizeof *table);
    for (uint64_t n = 1; n < count; n++) {
        uint64_t *record = table + LAWHEMURI_ANSWER_WORDS * n;
        record[2] = 1;
        record[3] = record[4] = n - 1;
        record[LAWHEMURI_ANSWER_WORDS - 1] = n;
    }
}

/* A path that is listed in a thread of its own. */
struct asked {
    const uint64_t *table;
    uint64_t count, record, *states;
    size_t places;
    lawhemuri_states listed;
};

static void *list_path(void *asked) {
    struct asked *a = asked;
    a->listed = lawhemuri_path(1, 1, DOUBLES, 36, GOAL, 1, DOUBLED, WORDS(DOUBLED), 1, a->table, LAWHEMURI_ANSWER_WORDS * a->count, a->count,
                               a->record, a->states, a->places);
    return NULL;
}

/* Whether the work is done in a thread with so many bytes of stack, rounded up to pages. The thread's own data take some of them. */
static int done_with(size_t stack, void *(*work)(void *), void *lent) {
    size_t page = (size_t)sysconf(_SC_PAGESIZE);
    pthread_attr_t attributes;
    pthread_t thread;
    return pthread_attr_init(&attributes) == 0 && pthread_attr_setstacksize(&attributes, (stack + page - 1) / page * page) == 0 &&
           pthread_create(&thread, &attributes, work, lent) == 0 && pthread_join(thread, NULL) == 0 &&
           pthread_attr_destroy(&attributes) == 0;
}

/* Lists it with so many bytes of stack, and frees the list; whether the states are 0, 1, 0, 1 and so on. */
static int listed_with(size_t stack, struct asked *a) {
    a->states = malloc(a->places * sizeof *a->states);
    int holds = a->states != NULL && done_with(stack, list_path, a) && a->listed.states <= a->places;
    for (uint64_t i = 0; holds && i < a->listed.states; i++)
        holds = a->states[i] == i % 2;
    free(a->states);
    return holds;
}

/* The stack that the header asks for lists every path: a short one, with all records that there may be; one of 2^24 states and one more, in a
 * list of as many places and in a longer one; and it is enough for the refusal of one place too few, and of a path of more states than 64 bits
 * count. */
static void test_stack_of_path(void) {
    enum { MOST = 65536, LONG = 1 << 24 };
    uint64_t *table = malloc(LAWHEMURI_ANSWER_WORDS * MOST * sizeof *table);
    EXPECT(table != NULL);
    if (table == NULL)
        return;
    doubles(table, MOST);
    struct asked a = {.table = table, .count = MOST, .record = 15, .places = LONG - 1};
    EXPECT(listed_with(LAWHEMURI_STACK_PATH, &a) && a.listed.refusal == LAWHEMURI_OK && a.listed.states == 65537);
    a.record = MOST - 1;
    EXPECT(listed_with(LAWHEMURI_STACK_PATH, &a) && a.listed.refusal == LAWHEMURI_STATES_SHORT && a.listed.states == 0);
    a.places = LONG + 1;
    EXPECT(listed_with(LAWHEMURI_STACK_PATH, &a) && a.listed.refusal == LAWHEMURI_STATES_SHORT && a.listed.states == 0);
    a.record = 23;
    EXPECT(listed_with(LAWHEMURI_STACK_PATH, &a) && a.listed.refusal == LAWHEMURI_OK && a.listed.states == LONG + 1);
    a.places = LONG;
    EXPECT(listed_with(LAWHEMURI_STACK_PATH, &a) && a.listed.refusal == LAWHEMURI_STATES_SHORT && a.listed.states == 0);
    a.places = 2 * (size_t)LONG;
    EXPECT(listed_with(LAWHEMURI_STACK_PATH, &a) && a.listed.refusal == LAWHEMURI_OK && a.listed.states == LONG + 1);
    free(table);
}

/* How many rounds drills D1, D3, D4, D7, D8 and D9 take, and a goal that is stuck at once. */
static void test_rounds(void) {
    static const struct {
        uint16_t rules[36], goal[2];
        size_t goal_len;
        uint64_t start, rounds, calls, answers;
    } drills[] = {
        {{0, 1, 256, [18] = 1, 4, 768, 0, 257, 512}, {769}, 1, 0, 5, 3, 3}, {{0, 1, 768, [18] = 1}, {768}, 1, 0, 1, 2, 0},
        {{0}, {0}, 0, 2, 1, 1, 1},                                         {{0, 1, 256, [18] = 1}, {768, 1}, 2, 0, 2, 2, 1},
        {{0, 2, 256, 768, [18] = 0, 1, 0}, {768}, 1, 0, 5, 3, 3},          {{0, 2, 256, 512, [18] = 1, 2, 768, 768}, {769}, 1, 0, 5, 3, 3},
        {{0}, {1}, 1, 0, 0, 1, 0},
    };
    for (size_t i = 0; i < WORDS(drills); i++) {
        lawhemuri_run r = lawhemuri_evaluate(2, 2, drills[i].rules, 36, drills[i].goal, drills[i].goal_len, drills[i].start, calls,
                                             WORDS(calls), answers, WORDS(answers), ends, WORDS(ends), list, WORDS(list));
        EXPECT(r.refusal == LAWHEMURI_OK && r.rounds == drills[i].rounds && r.calls == drills[i].calls && r.answers == drills[i].answers);
    }
    EXPECT(lawhemuri_evaluate(65, 1, RULES, 36, GOAL, 1, 0, NULL, 0, NULL, 0, NULL, 0, NULL, 0).rounds == 0);
    EXPECT(lawhemuri_evaluate(2, 1, RULES, 35, GOAL, 1, 0, NULL, 0, NULL, 0, NULL, 0, NULL, 0).rounds == 0);
    EXPECT(lawhemuri_evaluate(2, 0, RULES, 36, GOAL, 1, 0, NULL, 0, NULL, 0, NULL, 0, NULL, 0).rounds == 0);
    EXPECT(lawhemuri_evaluate(2, 1, RULES, 36, drills[0].goal, 1, 0, NULL, 0, NULL, 0, NULL, 0, NULL, 0).rounds == 0);
    EXPECT(lawhemuri_evaluate(2, 1, RULES, 36, GOAL, 1, 4, NULL, 0, NULL, 0, NULL, 0, NULL, 0).rounds == 0);
}

/* The records of drill D2 with their rounds, and the rounds that the path refuses with 42. */
static void test_rounds_of_records(void) {
    static const uint64_t call_records[2][3] = {{64, 0, 0}, {0, 0, 1}};
    static const uint64_t heads[4][4] = {{1, 1, 1, 0}, {0, 1, 256, 0}, {1, 3, 0, 0}, {0, 3, 256, 2}}, rounds[4] = {2, 3, 3, 4};
    uint64_t states[4];
    lawhemuri_run r = in_rooms(2, 4, 2);
    EXPECT(r.refusal == LAWHEMURI_OK && r.rounds == 4 && memcmp(calls, call_records, sizeof call_records) == 0);
    for (size_t x = 0; x < 4; x++) {
        const uint64_t *record = answers + LAWHEMURI_ANSWER_WORDS * x;
        EXPECT(memcmp(record, heads[x], sizeof heads[x]) == 0 && all(record + 4, 15, 0) && record[19] == rounds[x]);
    }
#define SHOWN() lawhemuri_path(2, 1, RULES, 36, GOAL, 1, calls, 6, 2, answers, 80, 4, 3, states, WORDS(states)).refusal
    EXPECT(SHOWN() == LAWHEMURI_OK);
    calls[2] = LAWHEMURI_MOST_CALL_ROUND;
    EXPECT(SHOWN() == LAWHEMURI_OK);
    calls[2] = LAWHEMURI_MOST_CALL_ROUND + 1;
    EXPECT(SHOWN() == LAWHEMURI_BAD_RECORD);
    calls[2] = 0;
    answers[79] = UINT64_MAX;
    EXPECT(SHOWN() == LAWHEMURI_OK);
    answers[59] = answers[19];
    EXPECT(SHOWN() == LAWHEMURI_BAD_RECORD);
}

/* g: +b; g: +a; g: +a +b; goal !g !g: every word of both tables, in the one order and with the one justification that are promised. */
static void test_one_order(void) {
    static const uint16_t rules[54] = {0, 1, 257, [19] = 1, 256, [37] = 2, 256, 257}, goal[2] = {768, 768};
    static const uint64_t wanted_calls[6][3] = {{64, 0, 0}, {0, 0, 1}, {0, 1, 3}, {0, 2, 3}, {0, 3, 3}};
    static const uint64_t wanted[12][20] = {
        {1, 1, 1, [19] = 2},        {1, 2, 0, [19] = 2},        {1, 3, 2, [19] = 2},        {2, 1, 1, [19] = 4},
        {2, 3, 0, [19] = 4},        {3, 2, 0, [19] = 4},        {3, 3, 1, [19] = 4},        {4, 3, 0, [19] = 4},
        {0, 1, 256, 0, 3, [19] = 5}, {0, 2, 256, 1, 5, [19] = 5}, {0, 3, 256, 0, 4, [19] = 5},
    };
    uint64_t got_calls[6][3], got[12][20], got_ends[3];
    static const uint64_t wanted_list[6] = {1, 2, 3, 4, 0, 0};
    lawhemuri_run r = lawhemuri_evaluate(2, 1, rules, 54, goal, 2, 0, *got_calls, 18, *got, 240, got_ends, 3, list, 6);
    EXPECT(r.refusal == LAWHEMURI_OK && r.ends == 3 && r.calls == 5 && r.answers == 11 && r.rounds == 5);
    EXPECT(memcmp(got_calls, wanted_calls, sizeof wanted_calls) == 0 && memcmp(list, wanted_list, sizeof wanted_list) == 0);
    EXPECT(memcmp(got, wanted, sizeof wanted) == 0);
}

/* Drill D5: an insert of what holds is an update too, so its path has two states. */
static void test_idle_update(void) {
    static const uint16_t goal[1] = {256};
    uint64_t states[3];
    lawhemuri_run r = lawhemuri_evaluate(2, 0, NULL, 0, goal, 1, 1, calls, WORDS(calls), answers, WORDS(answers), ends, WORDS(ends), list,
                                         WORDS(list));
    EXPECT(r.refusal == LAWHEMURI_OK && r.ends == 1 && ends[0] == 1);
#define IDLE(places) lawhemuri_path(2, 0, NULL, 0, goal, 1, calls, WORDS(calls), r.calls, answers, WORDS(answers), r.answers, 0, states, places)
    fill(states, WORDS(states));
    lawhemuri_states p = IDLE(1);
    EXPECT(p.refusal == LAWHEMURI_STATES_SHORT && p.states == 0 && all(states, WORDS(states), MARK));
    p = IDLE(3);
    EXPECT(p.refusal == LAWHEMURI_OK && p.states == 2 && states[0] == 1 && states[1] == 1 && states[2] == MARK);
}

/* The buffers of one run, and what it gives. */
typedef struct run_of {
    uint64_t calls[LAWHEMURI_CALL_WORDS * 2048], answers[LAWHEMURI_ANSWER_WORDS * 6144], ends[2048], list[2048];
    lawhemuri_run run;
} run_of;

static void *run_left_recursion(void *lent) {
    run_of *r = lent;
    r->run = lawhemuri_evaluate(2, 1, RULES, 36, GOAL, 1, 0, r->calls, WORDS(r->calls), r->answers, WORDS(r->answers), r->ends, WORDS(r->ends),
                                r->list, WORDS(r->list));
    return NULL;
}

/* The goal calls 11 actions in a row, and each inserts its fluent or does nothing. */
static void *run_choices(void *lent) {
    uint16_t rules[22 * LAWHEMURI_RULE_WORDS] = {0}, goal[11];
    for (uint16_t i = 0; i < 11; i++) {
        uint16_t *inserts = rules + 36 * i;
        inserts[0] = inserts[18] = i;
        inserts[1] = 1;
        inserts[2] = 256 + i;
        goal[i] = 768 + i;
    }
    run_of *r = lent;
    r->run = lawhemuri_evaluate(11, 11, rules, WORDS(rules), goal, 11, 0, r->calls, WORDS(r->calls), r->answers, WORDS(r->answers), r->ends,
                                WORDS(r->ends), r->list, WORDS(r->list));
    return NULL;
}

/* Whether a run in a thread with the stack that the header asks for gives what it gives here, in every word. */
static int same_in_small_thread(void *(*run)(void *), run_of *here) {
    static run_of there;
    memset(&there, 0x55, sizeof there);
    memset(here, 0x55, sizeof *here);
    run(here);
    return done_with(LAWHEMURI_STACK_EVALUATE, run, &there) && memcmp(here, &there, sizeof there) == 0;
}

static void test_small_stack(void) {
    static run_of here;
    EXPECT(same_in_small_thread(run_left_recursion, &here));
    EXPECT(here.run.refusal == LAWHEMURI_OK && here.run.ends == 2 && here.run.calls == 2 && here.run.answers == 4 && here.ends[1] == 3);
    EXPECT(same_in_small_thread(run_choices, &here));
    EXPECT(here.run.refusal == LAWHEMURI_OK && here.run.ends == 2048 && here.run.calls == 2048 && here.run.answers == 6142);
    EXPECT(here.ends[2047] == 2047 && LAWHEMURI_STACK_EVALUATE <= 65536);
}

/* Drill D9's path, kept by fluent and taken back. */
static void test_store(void) {
    static const uint16_t rules[36] = {0, 2, 256, 512, [18] = 1, 2, 768, 768};
    static const uint16_t goal[1] = {769};
    uint64_t states[6], words[3], back[6];
    lawhemuri_run r = lawhemuri_evaluate(2, 2, rules, 36, goal, 1, 0, calls, WORDS(calls), answers, WORDS(answers), ends, WORDS(ends), list,
                                         WORDS(list));
    EXPECT(r.refusal == LAWHEMURI_OK && r.answers == 3);
    uint64_t record = 0;
    while (record < r.answers && calls[LAWHEMURI_CALL_WORDS * answers[LAWHEMURI_ANSWER_WORDS * record]] != LAWHEMURI_GOAL_ACTION)
        record++;
    lawhemuri_states p = lawhemuri_path(2, 2, rules, 36, goal, 1, calls, WORDS(calls), r.calls, answers, WORDS(answers), r.answers,
                                        record, states, WORDS(states));
    EXPECT(p.refusal == LAWHEMURI_OK && p.states == 5);
    fill(words, WORDS(words));
    lawhemuri_archived a = lawhemuri_store(2, states, p.states, words, WORDS(words));
    EXPECT(a.refusal == LAWHEMURI_OK && a.count == 2);
    EXPECT(words[0] == 10 && words[1] == 0 && words[2] == MARK);
    fill(back, WORDS(back));
    a = lawhemuri_restore(2, p.states, words, a.count, back, WORDS(back));
    EXPECT(a.refusal == LAWHEMURI_OK && a.count == 5);
    EXPECT(memcmp(back, states, 5 * sizeof back[0]) == 0 && back[5] == MARK);
}

/* 130 states of 3 fluents: three blocks, bit by bit, and both ways. */
static void test_blocks(void) {
    uint64_t states[130], words[10], back[131], again[9];
    for (size_t i = 0; i < WORDS(states); i++)
        states[i] = i * i / 3 % 8;
    fill(words, WORDS(words));
    lawhemuri_archived a = lawhemuri_store(3, states, WORDS(states), words, WORDS(words));
    EXPECT(a.refusal == LAWHEMURI_OK && a.count == 9 && words[9] == MARK);
    for (size_t i = 0; i < WORDS(states); i++)
        for (size_t k = 0; k < 3; k++)
            EXPECT((words[i / 64 * 3 + k] >> i % 64 & 1) == (states[i] >> k & 1));
    EXPECT((words[6] | words[7] | words[8]) >> 2 == 0);
    fill(back, WORDS(back));
    a = lawhemuri_restore(3, WORDS(states), words, 9, back, WORDS(back));
    EXPECT(a.refusal == LAWHEMURI_OK && a.count == 130);
    EXPECT(memcmp(back, states, sizeof states) == 0 && back[130] == MARK);
    a = lawhemuri_store(3, back, 130, again, WORDS(again));
    EXPECT(a.refusal == LAWHEMURI_OK && a.count == 9 && memcmp(again, words, sizeof again) == 0);
}

static void test_refused_stores(void) {
    static const uint64_t zeros[3] = {0}, high[1] = {2}, path[2] = {6, 12}, past[2] = {2, 0};
    uint64_t out[3];
    fill(out, WORDS(out));
#define STORE(fluents, states, len, room) lawhemuri_store(fluents, states, len, out, room)
#define RESTORE(fluents, count, words, len, room) lawhemuri_restore(fluents, count, words, len, out, room)
    EXPECT(STORE(65, zeros, 1, 3).refusal == LAWHEMURI_BAD_COUNTS);
    EXPECT(STORE(1, high, 1, 0).refusal == LAWHEMURI_BAD_START);
    EXPECT(STORE(2, zeros, 1, 1).refusal == LAWHEMURI_OUTPUT_SHORT);
    EXPECT(RESTORE(65, 1, NULL, 0, 3).refusal == LAWHEMURI_BAD_COUNTS);
    EXPECT(RESTORE(2, 1, zeros, 1, 3).refusal == LAWHEMURI_BAD_WORD_COUNT);
    EXPECT(RESTORE(64, UINT64_MAX, NULL, 0, 3).refusal == LAWHEMURI_BAD_WORD_COUNT);
    EXPECT(RESTORE(2, 1, past, 2, 0).refusal == LAWHEMURI_BIT_PAST_END);
    EXPECT(RESTORE(2, 4, path, 2, 3).refusal == LAWHEMURI_OUTPUT_SHORT);
    lawhemuri_archived a = RESTORE(0, UINT64_MAX, NULL, 0, 3);
    EXPECT(a.refusal == LAWHEMURI_OUTPUT_SHORT && a.count == 0 && all(out, WORDS(out), MARK));
    a = lawhemuri_store(0, zeros, 3, NULL, 0);
    EXPECT(a.refusal == LAWHEMURI_OK && a.count == 0);
    a = RESTORE(0, 3, NULL, 0, 3);
    EXPECT(a.refusal == LAWHEMURI_OK && a.count == 3 && all(out, WORDS(out), 0));
}

/* Drill D2's goal from four starts: each as a single call would have it, with what is left of the list. */
static void test_class(void) {
    static const uint64_t starts[4] = {0, 2, 4, 1};
    static const uint64_t told[16] = {0, 2, 2, 4, 0, 1, 2, 2, 24, 0, 0, 0, 31, 2, 2, 4};
    uint64_t results[17], kept_calls[WORDS(calls)], kept_answers[WORDS(answers)];
    fill(results, WORDS(results));
    fill_all();
    EXPECT(lawhemuri_class(2, 1, RULES, 36, GOAL, 1, starts, 4, results, WORDS(results), calls, WORDS(calls), answers, WORDS(answers),
                           ends, 4, list, WORDS(list)) == LAWHEMURI_OK);
    EXPECT(memcmp(results, told, sizeof told) == 0 && results[16] == MARK);
    EXPECT(ends[0] == 1 && ends[1] == 3 && ends[2] == 3 && all(ends + 3, WORDS(ends) - 3, MARK));
    memcpy(kept_calls, calls, sizeof calls);
    memcpy(kept_answers, answers, sizeof answers);
    lawhemuri_run r = lawhemuri_evaluate(2, 1, RULES, 36, GOAL, 1, 1, calls, WORDS(calls), answers, WORDS(answers), NULL, 0, list,
                                         WORDS(list));
    EXPECT(r.refusal == LAWHEMURI_LIST_SHORT && r.ends == 2);
    EXPECT(memcmp(kept_calls, calls, sizeof calls) == 0 && memcmp(kept_answers, answers, sizeof answers) == 0);
}

/* 25 comes before all and changes nothing; a class of no starts is not refused, whatever the book. */
static void test_refused_class(void) {
    static const uint64_t starts[LAWHEMURI_MOST_STARTS + 1] = {4};
    static uint64_t results[4 * (LAWHEMURI_MOST_STARTS + 1)];
    fill(results, WORDS(results));
    fill_all();
#define CLASS(fluents, count, words) \
    lawhemuri_class(fluents, 1, RULES, 36, GOAL, 1, starts, count, results, words, calls, 6, answers, 80, ends, 2, list, 2)
    EXPECT(CLASS(2, LAWHEMURI_MOST_STARTS + 1, WORDS(results)) == LAWHEMURI_BAD_CLASS);
    EXPECT(CLASS(2, 1, 3) == LAWHEMURI_BAD_CLASS);
    EXPECT(CLASS(65, 0, 0) == LAWHEMURI_OK);
    EXPECT(all(results, WORDS(results), MARK) && as_lent());
    EXPECT(CLASS(2, LAWHEMURI_MOST_STARTS, WORDS(results)) == LAWHEMURI_OK);
    EXPECT(results[0] == LAWHEMURI_BAD_START && all(results + 1, 3, 0) && results[4] == 0 && results[5] == 2);
    EXPECT(results[8] == LAWHEMURI_LIST_SHORT && results[9] == 2 && ends[0] == 1 && ends[1] == 3);
    EXPECT(all(results + 4 * LAWHEMURI_MOST_STARTS, 4, MARK));
}

/* Two unrefused starts and one refused, an end twice, and no starts, ends or fluents at all. */
static void test_report(void) {
    static const uint64_t results[12] = {0, 2, 2, 4, 31, 5, 5, 5, 0, 1, 1, 1}, listed[3] = {1, 3, 1};
    static const uint64_t figures[8] = {1, 1, 1, 3, 4, 3, 3, 2}, no_ends[4] = {0, 0, 2, 0};
    uint64_t out[133];
    fill(out, WORDS(out));
    EXPECT(lawhemuri_report(2, results, 12, listed, 3, out, 9) == LAWHEMURI_OK);
    EXPECT(memcmp(out, figures, sizeof figures) == 0 && all(out + 8, WORDS(out) - 8, MARK));
    EXPECT(LAWHEMURI_REPORT_WORDS(2) == 8 && lawhemuri_report(2, NULL, 0, NULL, 0, out, 8) == LAWHEMURI_OK);
    EXPECT(all(out, 8, 0) && out[8] == MARK);
    EXPECT(lawhemuri_report(1, no_ends, 4, NULL, 0, out, 6) == LAWHEMURI_OK);
    EXPECT(all(out, 5, 0) && out[5] == 1);
    static const uint64_t one[4] = {0, 1, 1, 1}, full[1] = {UINT64_MAX};
    EXPECT(lawhemuri_report(64, one, 4, full, 1, out, WORDS(out)) == LAWHEMURI_OK);
    EXPECT(all(out, 128, 1) && out[128] == 64 && all(out + 129, 3, 1) && out[132] == MARK);
}

/* 1,024 starts of 65,536 ends at most, and of one more: no sum wraps. */
static void test_report_bounds(void) {
    static uint64_t results[4 * (LAWHEMURI_MOST_STARTS + 1)], many[65537];
    uint64_t out[7];
    fill(out, WORDS(out));
    EXPECT(lawhemuri_report(1, results, 4 * LAWHEMURI_MOST_STARTS, NULL, 0, out, 7) == LAWHEMURI_OK);
    EXPECT(all(out, 5, 0) && out[5] == 1 && out[6] == MARK);
    results[1] = 65536;
    for (size_t i = 0; i < WORDS(many); i++)
        many[i] = i % 3 == 0;
    EXPECT(lawhemuri_report(1, results, 4, many, 65536, out, 6) == LAWHEMURI_OK);
    EXPECT(out[0] == 10923 && out[1] == 32768 && out[2] == 10923 && out[3] == 32768 && out[4] == 65536 && out[5] == 1);
    fill(out, WORDS(out));
    results[1] = 65537;
    EXPECT(lawhemuri_report(1, results, 4, many, 65537, out, 6) == LAWHEMURI_BAD_RESULTS);
    results[1] = 0;
    EXPECT(lawhemuri_report(1, results, WORDS(results), NULL, 0, out, 6) == LAWHEMURI_BAD_RESULTS);
    EXPECT(all(out, WORDS(out), MARK));
}

/* Drill D2's goal from four starts, of which one is refused with 24 and one with 31: its results and ends as they come. */
static void test_report_of_class(void) {
    static const uint64_t starts[4] = {0, 2, 4, 1}, figures[8] = {1, 1, 2, 3, 5, 3, 3, 2};
    uint64_t results[17], out[9], listed = 0;
    fill(results, WORDS(results));
    fill(out, WORDS(out));
    EXPECT(lawhemuri_class(2, 1, RULES, 36, GOAL, 1, starts, 4, results, WORDS(results), calls, WORDS(calls), answers, WORDS(answers),
                           ends, 4, list, WORDS(list)) == LAWHEMURI_OK);
    for (size_t i = 0; i < 4; i++)
        listed += results[4 * i] == 0 ? results[4 * i + 1] : 0;
    EXPECT(listed == 3 && lawhemuri_report(2, results, 16, ends, listed, out, WORDS(out)) == LAWHEMURI_OK);
    EXPECT(memcmp(out, figures, sizeof figures) == 0 && out[8] == MARK);
    EXPECT(lawhemuri_report(2, results, 17, ends, listed, out, WORDS(out)) == LAWHEMURI_BAD_RESULTS);
    EXPECT(lawhemuri_report(2, results, 16, ends, 4, out, WORDS(out)) == LAWHEMURI_BAD_RESULTS);
}

static void test_refused_reports(void) {
    static const uint64_t one[5] = {0, 1, 1, 1}, wraps[8] = {0, UINT64_MAX, 0, 0, 0, 1}, low[1] = {1}, high[1] = {2};
    uint64_t out[6];
    fill(out, WORDS(out));
#define REPORT(fluents, results, len, ends, count, room) lawhemuri_report(fluents, results, len, ends, count, out, room)
    EXPECT(REPORT(65, one, 5, high, 1, 0) == LAWHEMURI_BAD_COUNTS);
    EXPECT(REPORT(1, one, 5, low, 1, 6) == LAWHEMURI_BAD_RESULTS);
    EXPECT(REPORT(1, one, 4, NULL, 0, 6) == LAWHEMURI_BAD_RESULTS);
    EXPECT(REPORT(1, wraps, 8, NULL, 0, 6) == LAWHEMURI_BAD_RESULTS);
    EXPECT(REPORT(1, one, 4, high, 1, 0) == LAWHEMURI_BAD_RESULTS);
    EXPECT(REPORT(1, one, 4, low, 1, 5) == LAWHEMURI_REPORT_SHORT);
    EXPECT(REPORT(0, NULL, 0, NULL, 0, 3) == LAWHEMURI_REPORT_SHORT);
    EXPECT(all(out, WORDS(out), MARK));
}

/* Drill D2's book: records that are its goal's and records that are not, in a table with one word more. */
static void test_mark(void) {
    static const uint16_t record[5] = {256, 0, 257, 0, 257}, stuck[2] = {256, 1};
    static uint64_t table[LAWHEMURI_MARK_WORDS + 1];
#define MARKED(steps, len) (fill(table, WORDS(table)), lawhemuri_mark(2, 1, RULES, 36, GOAL, 1, 0, steps, len, table, WORDS(table)))
    lawhemuri_marked m = MARKED(record, 5);
    EXPECT(m.refusal == LAWHEMURI_OK && m.yes == 1 && table[0] == 42 && all(table + 1, 4095, 0) && table[4096] == MARK);
    m = MARKED(record, 3);
    EXPECT(m.refusal == LAWHEMURI_OK && m.yes == 1 && table[0] == 10);
    m = MARKED(record, 2);
    EXPECT(m.refusal == LAWHEMURI_OK && m.yes == 0 && table[0] == 2);
    m = MARKED(stuck, 2);
    EXPECT(m.refusal == LAWHEMURI_OK && m.yes == 0 && table[0] == 2);
    m = MARKED(NULL, 0);
    EXPECT(m.refusal == LAWHEMURI_OK && m.yes == 0 && all(table, 4096, 0) && table[4096] == MARK);
}

/* A rule that does its step and calls itself, or does nothing: 63 steps; and what is refused, with the table unchanged. */
static void test_refused_marks(void) {
    static const uint16_t rules[36] = {0, 2, 256, 768};
    static uint64_t table[LAWHEMURI_MARK_WORDS];
    uint16_t record[64];
    for (size_t i = 0; i < WORDS(record); i++)
        record[i] = 256;
    lawhemuri_marked m = lawhemuri_mark(2, 1, rules, 36, GOAL, 1, 0, record, LAWHEMURI_MOST_RECORDED, table, WORDS(table));
    EXPECT(m.refusal == LAWHEMURI_OK && m.yes == 1 && table[0] == UINT64_MAX && table[63] == (uint64_t)1 << 63);
    fill(table, WORDS(table));
#define REFUSED(actions, len, room) lawhemuri_mark(2, actions, rules, 36, GOAL, 1, 0, record, len, table, room).refusal
    EXPECT(REFUSED(65, 64, 0) == LAWHEMURI_BAD_COUNTS && REFUSED(0, 64, 0) == LAWHEMURI_BAD_RULE);
    EXPECT(lawhemuri_mark(2, 1, rules, 36, GOAL, 1, 4, record, 64, table, WORDS(table)).refusal == LAWHEMURI_BAD_START);
    EXPECT(REFUSED(1, 64, 4095) == LAWHEMURI_LONG_RECORD);
    record[62] = 768;
    EXPECT(REFUSED(1, 63, 4095) == LAWHEMURI_MARKS_SHORT && REFUSED(1, 63, 4096) == LAWHEMURI_BAD_RECORDED_STEP);
    record[62] = 258;
    m = lawhemuri_mark(2, 1, rules, 36, GOAL, 1, 0, record, 63, table, WORDS(table));
    EXPECT(m.refusal == LAWHEMURI_BAD_RECORDED_STEP && m.yes == 0 && all(table, WORDS(table), MARK));
}

/* ---- two parties: drill D2's book in tables for 4 calls and 10 answers, with some words more ---- */

struct tables {
    uint64_t calls[LAWHEMURI_SHARED_CALL_WORDS * 4 + 1], answers[LAWHEMURI_SHARED_ANSWER_WORDS * 10 + 7];
};

static struct tables panel;

static lawhemuri_opened opened_for(uint64_t first_calls, uint64_t first_answers, uint64_t second_calls, uint64_t second_answers) {
    fill(panel.calls, WORDS(panel.calls));
    fill(panel.answers, WORDS(panel.answers));
    return lawhemuri_open(first_calls, first_answers, second_calls, second_answers, panel.calls, WORDS(panel.calls), panel.answers,
                          WORDS(panel.answers));
}

static void test_open(void) {
    static const uint64_t limits[LAWHEMURI_KEPT_WORDS] = {2, 4, [21] = 2, 6};
    lawhemuri_opened o = opened_for(2, 4, 2, 6);
    EXPECT(o.refusal == LAWHEMURI_OK && memcmp(o.kept.words, limits, sizeof limits) == 0);
    EXPECT(all(panel.calls, WORDS(panel.calls), 0) && all(panel.answers, WORDS(panel.answers), 0));
    static const uint64_t over[5][4] = {{3, 4, 2, 4}, {2, 4, 2, 7}, {0, 0, 5, 0}, {1, 0, UINT64_MAX, 0}, {0, UINT64_MAX, 0, UINT64_MAX}};
    for (size_t i = 0; i < WORDS(over); i++) {
        o = opened_for(over[i][0], over[i][1], over[i][2], over[i][3]);
        EXPECT(o.refusal == LAWHEMURI_OVER_LIMITS && all(o.kept.words, LAWHEMURI_KEPT_WORDS, 0));
        EXPECT(all(panel.calls, WORDS(panel.calls), MARK) && all(panel.answers, WORDS(panel.answers), MARK));
    }
    o = lawhemuri_open(0, 0, 0, 0, NULL, 0, NULL, 0);
    EXPECT(o.refusal == LAWHEMURI_OK && all(o.kept.words, LAWHEMURI_KEPT_WORDS, 0));
}

/* A party's run: what it asks, and what it is told; then the counts of the tables and their calls. */
struct party_run {
    bool second;
    uint16_t goal[2];
    size_t goal_len, places;
    uint64_t start, told[4], ends[2], counts[2], calls[4][2];
};

/* The run with these words kept; the list of ends is filled before. */
static lawhemuri_shared shared_with(const struct party_run *p, uint64_t fluents, const uint64_t *kept, size_t kept_len) {
    fill(ends, WORDS(ends));
    return lawhemuri_share(p->second, fluents, 1, RULES, 36, p->goal, p->goal_len, p->start, kept, kept_len, panel.calls, WORDS(panel.calls),
                           panel.answers, WORDS(panel.answers), ends, p->places);
}

/* The record of an answer in the shared tables, or their count. */
static uint64_t answer_of(const lawhemuri_kept *kept, uint64_t action, uint64_t state, uint64_t final) {
    uint64_t x = 0;
    for (; x < kept->words[LAWHEMURI_KEPT_ANSWERS]; x++) {
        const uint64_t *record = panel.answers + LAWHEMURI_SHARED_ANSWER_WORDS * x, *call = panel.calls + LAWHEMURI_SHARED_CALL_WORDS * record[0];
        if (call[0] == action && call[1] == state && record[1] == final)
            break;
    }
    return x;
}

/* Whether the tables have these calls, each once, and 0 past both tables' records. */
static int hold_calls(const lawhemuri_kept *kept, const uint64_t wanted[4][2]) {
    uint64_t n = kept->words[LAWHEMURI_KEPT_CALLS], m = kept->words[LAWHEMURI_KEPT_ANSWERS];
    for (uint64_t i = 0; i < n; i++) {
        uint64_t found = 0;
        for (uint64_t row = 0; row < n; row++)
            found += memcmp(panel.calls + LAWHEMURI_SHARED_CALL_WORDS * row, wanted[i], sizeof wanted[i]) == 0;
        if (found != 1)
            return 0;
    }
    return all(panel.calls + LAWHEMURI_SHARED_CALL_WORDS * n, WORDS(panel.calls) - LAWHEMURI_SHARED_CALL_WORDS * n, 0) &&
           all(panel.answers + LAWHEMURI_SHARED_ANSWER_WORDS * m, WORDS(panel.answers) - LAWHEMURI_SHARED_ANSWER_WORDS * m, 0);
}

/* What is kept after a run: a party refused with 23, 24 or 30 holds no rows, one with 31 or no refusal those of its goal. */
static void enter(uint64_t *kept, const struct party_run *p) {
    uint64_t *account = kept + (p->second ? 21 : 0);
    memset(account + 2, 0, 19 * sizeof *account);
    if (p->told[0] == LAWHEMURI_OK || p->told[0] == LAWHEMURI_LIST_SHORT) {
        account[2] = 1;
        account[3] = p->start;
        account[4] = p->goal_len;
        for (size_t i = 0; i < p->goal_len; i++)
            account[5 + i] = p->goal[i];
    }
    memcpy(kept + LAWHEMURI_KEPT_CALLS, p->counts, sizeof p->counts);
}

/* Seven runs in a row, each over what the one before left. */
static lawhemuri_kept runs_in_a_row(void) {
    static const struct party_run row[] = {
        {LAWHEMURI_FIRST, {768}, 1, 2, 0, {0, 2, 2, 4}, {1, 3}, {2, 4}, {{64, 0}, {0, 0}}},
        {LAWHEMURI_SECOND, {768}, 1, 1, 0, {31, 2, 2, 4}, {0}, {3, 6}, {{64, 0}, {65, 0}, {0, 0}}},
        {LAWHEMURI_SECOND, {768, 1}, 2, 4, 0, {0, 1, 2, 3}, {3}, {3, 5}, {{64, 0}, {65, 0}, {0, 0}}},
        {LAWHEMURI_FIRST, {768}, 1, 4, 2, {0, 1, 2, 2}, {3}, {4, 5}, {{64, 2}, {0, 2}, {65, 0}, {0, 0}}},
        {LAWHEMURI_FIRST, {769}, 1, 4, 0, {23}, {0}, {2, 3}, {{65, 0}, {0, 0}}},
        {LAWHEMURI_FIRST, {768, 768}, 2, 4, 0, {30}, {0}, {2, 3}, {{65, 0}, {0, 0}}},
        {LAWHEMURI_FIRST, {768}, 1, 4, 4, {24}, {0}, {2, 3}, {{65, 0}, {0, 0}}},
    };
    lawhemuri_kept kept = opened_for(2, 4, 2, 4).kept;
    uint64_t wanted[LAWHEMURI_KEPT_WORDS];
    memcpy(wanted, kept.words, sizeof wanted);
    for (size_t i = 0; i < WORDS(row); i++) {
        const struct party_run *p = row + i;
        lawhemuri_shared s = shared_with(p, 2, kept.words, LAWHEMURI_KEPT_WORDS);
        uint64_t listed = s.refusal == LAWHEMURI_OK ? s.ends : 0;
        EXPECT(s.refusal == p->told[0] && s.ends == p->told[1] && s.calls == p->told[2] && s.answers == p->told[3]);
        EXPECT(memcmp(ends, p->ends, listed * sizeof *ends) == 0 && all(ends + listed, WORDS(ends) - listed, MARK));
        enter(wanted, p);
        EXPECT(memcmp(s.kept.words, wanted, sizeof wanted) == 0 && hold_calls(&s.kept, p->calls));
        kept = s.kept;
    }
    return kept;
}

/* After the row the second party's rows are left: the path of each, and what the path refuses. */
static void test_share(void) {
    static const struct {
        uint64_t action, final, count, states[3];
    } paths[3] = {{0, 1, 2, {0, 1}}, {0, 3, 3, {0, 1, 3}}, {65, 3, 3, {0, 1, 3}}};
    lawhemuri_kept kept = runs_in_a_row();
    uint64_t states[4];
#define TRACE(fluents, words, len, record, places) \
    lawhemuri_share_path(fluents, 1, RULES, 36, words, len, panel.calls, WORDS(panel.calls), panel.answers, WORDS(panel.answers), record, states, \
                         places)
    for (size_t i = 0; i < WORDS(paths); i++) {
        fill(states, WORDS(states));
        lawhemuri_states p = TRACE(2, kept.words, LAWHEMURI_KEPT_WORDS, answer_of(&kept, paths[i].action, 0, paths[i].final), WORDS(states));
        EXPECT(p.refusal == LAWHEMURI_OK && p.states == paths[i].count);
        EXPECT(memcmp(states, paths[i].states, p.states * sizeof *states) == 0 && all(states + p.states, WORDS(states) - p.states, MARK));
    }
    uint64_t goal = answer_of(&kept, 65, 0, 3);
    fill(states, WORDS(states));
    EXPECT(TRACE(65, kept.words, LAWHEMURI_KEPT_WORDS, goal, 4).refusal == LAWHEMURI_BAD_COUNTS);
    EXPECT(TRACE(2, kept.words, LAWHEMURI_KEPT_WORDS, 3, 4).refusal == LAWHEMURI_NO_RECORD);
    EXPECT(TRACE(2, kept.words, LAWHEMURI_KEPT_WORDS - 1, goal, 4).refusal == LAWHEMURI_NO_RECORD);
    EXPECT(TRACE(2, kept.words, LAWHEMURI_KEPT_WORDS, goal, 2).refusal == LAWHEMURI_STATES_SHORT);
    static const struct {
        size_t word;
        uint64_t value, refusal;
    } wrong[] = {{26, 769, 23}, {25, 17, 23}, {42, 5, 40}, {43, 11, 40}, {23, 0, 42}, {43, 4, 42}};
    for (size_t i = 0; i < WORDS(wrong); i++) {
        lawhemuri_kept other = kept;
        other.words[wrong[i].word] = wrong[i].value;
        lawhemuri_states p = TRACE(2, other.words, LAWHEMURI_KEPT_WORDS, goal, 4);
        EXPECT(p.refusal == wrong[i].refusal && p.states == 0);
    }
    EXPECT(all(states, WORDS(states), MARK));
}

/* Whether a run was refused with this number, gave no counts and these words, and left the tables as they are here, and the list. */
static int changed_nothing(uint64_t number, const lawhemuri_shared *s, const uint64_t *kept, const struct tables *before) {
    return s->refusal == number && s->ends == 0 && s->calls == 0 && s->answers == 0 && memcmp(s->kept.words, kept, sizeof s->kept.words) == 0 &&
           memcmp(&panel, before, sizeof panel) == 0 && all(ends, WORDS(ends), MARK);
}

/* 20 comes before 91, and 91 before 23 and 24; neither changes anything. */
static void test_not_as_kept(void) {
    static const struct party_run plain = {LAWHEMURI_FIRST, {768}, 1, 4, 0, {0}, {0}, {0}, {{0}}};
    static const struct party_run bad = {LAWHEMURI_FIRST, {769}, 1, 4, 4, {0}, {0}, {0}, {{0}}};
    static const struct {
        size_t word;
        uint64_t value;
    } wrong[] = {
        {23, 0}, {2, 1}, {26, 769}, {25, 17}, {24, 4}, {24, 1}, {21, 1}, {22, 2}, /* what is held, and limits that are too low */
        {21, 3}, {0, 3}, {1, 7},    {42, 3},  {42, 1}, {43, 2}, {43, 4}, {42, UINT64_MAX},
    };
    static const uint64_t none[LAWHEMURI_KEPT_WORDS + 1];
    lawhemuri_kept kept = runs_in_a_row();
    struct tables before = panel;
    lawhemuri_shared s = shared_with(&plain, 65, kept.words, LAWHEMURI_KEPT_WORDS);
    EXPECT(changed_nothing(LAWHEMURI_BAD_COUNTS, &s, kept.words, &before));
    for (size_t i = 0; i < WORDS(wrong); i++) {
        lawhemuri_kept other = kept;
        other.words[wrong[i].word] = wrong[i].value;
        s = shared_with(&bad, 2, other.words, LAWHEMURI_KEPT_WORDS);
        EXPECT(changed_nothing(LAWHEMURI_NOT_AS_KEPT, &s, other.words, &before));
    }
    for (size_t len = LAWHEMURI_KEPT_WORDS - 1; len <= LAWHEMURI_KEPT_WORDS + 1; len += 2) {
        s = shared_with(&plain, 2, none, len);
        EXPECT(changed_nothing(LAWHEMURI_NOT_AS_KEPT, &s, none, &before));
        s = shared_with(&plain, 65, none, len);
        EXPECT(changed_nothing(LAWHEMURI_BAD_COUNTS, &s, none, &before));
    }
    uint64_t *changed[] = {panel.calls,       panel.calls + 1,   panel.calls + WORDS(panel.calls) - 1,    panel.answers,
                           panel.answers + 1, panel.answers + 2, panel.answers + WORDS(panel.answers) - 1, panel.answers + 3};
    for (size_t i = 0; i < WORDS(changed); i++) {
        uint64_t word = *changed[i];
        *changed[i] = word + 63;
        before = panel;
        s = shared_with(&plain, 2, kept.words, LAWHEMURI_KEPT_WORDS);
        EXPECT(changed_nothing(LAWHEMURI_NOT_AS_KEPT, &s, kept.words, &before));
        *changed[i] = word;
    }
    s = shared_with(&plain, 2, kept.words, LAWHEMURI_KEPT_WORDS);
    EXPECT(s.refusal == LAWHEMURI_OK && s.ends == 2 && ends[0] == 1 && ends[1] == 3);
}

/* Two runs in tables for 65,536 records: 13 actions in a row, each of which inserts its fluent or does nothing. */
struct panel_of {
    uint64_t *calls, *answers, *ends;
    lawhemuri_shared first, second;
};

enum { CALL_TABLE = LAWHEMURI_SHARED_CALL_WORDS * LAWHEMURI_MOST_RECORDS, ANSWER_TABLE = LAWHEMURI_SHARED_ANSWER_WORDS * LAWHEMURI_MOST_RECORDS };

static void *run_both(void *lent) {
    enum { ACTIONS = 13 };
    struct panel_of *p = lent;
    uint16_t rules[36 * ACTIONS] = {0}, goal[ACTIONS];
    for (uint16_t i = 0; i < ACTIONS; i++) {
        uint16_t *inserts = rules + 36 * i;
        inserts[0] = inserts[18] = i;
        inserts[1] = 1;
        inserts[2] = 256 + i;
        goal[i] = 768 + i;
    }
    lawhemuri_kept kept = lawhemuri_open(32768, 32768, 32768, 32768, p->calls, CALL_TABLE, p->answers, ANSWER_TABLE).kept;
#define BOTH(second, start) \
    lawhemuri_share(second, ACTIONS + 1, ACTIONS, rules, WORDS(rules), goal, ACTIONS, start, kept.words, LAWHEMURI_KEPT_WORDS, p->calls, CALL_TABLE, \
                    p->answers, ANSWER_TABLE, p->ends, 8192)
    p->first = BOTH(LAWHEMURI_FIRST, 0);
    kept = p->first.kept;
    p->second = BOTH(LAWHEMURI_SECOND, 8192);
    return NULL;
}

/* With the stack that the header asks for they give what they give here, in every word; that is no more than a thread of Rust's has. */
static void test_stack_of_share(void) {
    struct panel_of here = {0}, there = {0}, *both[2] = {&here, &there};
    int lent = 1;
    for (size_t i = 0; i < 2; i++) {
        both[i]->calls = malloc(CALL_TABLE * sizeof(uint64_t));
        both[i]->answers = malloc(ANSWER_TABLE * sizeof(uint64_t));
        both[i]->ends = malloc(8192 * sizeof(uint64_t));
        lent = lent && both[i]->calls != NULL && both[i]->answers != NULL && both[i]->ends != NULL;
    }
    EXPECT(lent && LAWHEMURI_STACK_SHARE <= 2097152);
    if (lent) {
        run_both(&here);
        EXPECT(done_with(LAWHEMURI_STACK_SHARE, run_both, &there));
        EXPECT(here.second.refusal == LAWHEMURI_OK && here.second.ends == 8192 && here.ends[8191] == 16383);
        EXPECT(here.first.calls == 8192 && here.first.answers == 24574 && here.second.calls == 8192 && here.second.answers == 24574);
        EXPECT(here.second.kept.words[LAWHEMURI_KEPT_CALLS] == 16384 && here.second.kept.words[LAWHEMURI_KEPT_ANSWERS] == 49148);
        EXPECT(memcmp(&here.first, &there.first, sizeof here.first) == 0 && memcmp(&here.second, &there.second, sizeof here.second) == 0);
        EXPECT(memcmp(here.calls, there.calls, CALL_TABLE * sizeof(uint64_t)) == 0);
        EXPECT(memcmp(here.answers, there.answers, ANSWER_TABLE * sizeof(uint64_t)) == 0);
        EXPECT(memcmp(here.ends, there.ends, 8192 * sizeof(uint64_t)) == 0);
    }
    for (size_t i = 0; i < 2; i++) {
        free(both[i]->calls);
        free(both[i]->answers);
        free(both[i]->ends);
    }
}

int main(void) {
    test_example();
    test_names();
    test_text();
    test_merge();
    test_refused_sheets();
    test_rooms();
    test_call_list();
    test_short_call_list();
    test_lookup();
    test_lookup_of_run();
    test_call_list_of_class();
    test_refused_questions();
    test_denial();
    test_path();
    test_stack_of_path();
    test_rounds();
    test_rounds_of_records();
    test_one_order();
    test_small_stack();
    test_idle_update();
    test_store();
    test_blocks();
    test_refused_stores();
    test_class();
    test_refused_class();
    test_report();
    test_report_bounds();
    test_report_of_class();
    test_refused_reports();
    test_mark();
    test_refused_marks();
    test_open();
    test_share();
    test_not_as_kept();
    test_stack_of_share();
    printf("hosts/c: %s\n", failures == 0 ? "ok" : "failed");
    return failures != 0;
}
