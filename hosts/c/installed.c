/* Built by pkg-config from an installed library, without this repository: drill D1 is read, evaluated, its path listed and a call found, then
 * run for the second of two parties; and the header's version is the library's. */
#include <lawhemuri.h>
#include <stdio.h>
#include <string.h>

static const char SHEET[] =
    "fluent\topen\nfluent\tlit\naction\tpurge\naction\tlight\nrule\tpurge\t+open\nrule\tlight\t!purge\t?open\t+lit\t-open\nstart\ngoal\t!light\n";

static int failed(const char *what) {
    fprintf(stderr, "installed: %s\n", what);
    return 1;
}

int main(void) {
    static uint16_t rules[LAWHEMURI_MOST_RULES * LAWHEMURI_RULE_WORDS];
    static uint64_t calls[8 * LAWHEMURI_CALL_WORDS], answers[8 * LAWHEMURI_ANSWER_WORDS], ends[4], list[8], states[4];
    const uint64_t path[4] = {0, 1, 3, 2};
    if (lawhemuri_version() != LAWHEMURI_VERSION_NUMBER)
        return failed("the header is not of the library's version");
    lawhemuri_sheet sheet = lawhemuri_read((const uint8_t *)SHEET, sizeof SHEET - 1, rules, sizeof rules / sizeof *rules);
    if (sheet.refusal != LAWHEMURI_OK)
        return failed("the sheet is refused");
    size_t words = sheet.rules * LAWHEMURI_RULE_WORDS;
    lawhemuri_run run = lawhemuri_evaluate(sheet.fluents, sheet.actions, rules, words, sheet.goal, sheet.goal_len, sheet.start, calls,
                                           sizeof calls / sizeof *calls, answers, sizeof answers / sizeof *answers, ends, 4, list, 8);
    if (run.refusal != LAWHEMURI_OK || run.ends != 1 || ends[0] != 2)
        return failed("the ends are others");
    lawhemuri_states listed =
        lawhemuri_path(sheet.fluents, sheet.actions, rules, words, sheet.goal, sheet.goal_len, calls, sizeof calls / sizeof *calls, run.calls,
                       answers, sizeof answers / sizeof *answers, run.answers, run.answers - 1, states, 4);
    if (listed.refusal != LAWHEMURI_OK || listed.states != 4 || memcmp(states, path, sizeof path) != 0)
        return failed("the path is another");
    lawhemuri_found light = lawhemuri_lookup(calls, sizeof calls / sizeof *calls, run.calls, list, 8, 1, 0);
    if (light.refusal != LAWHEMURI_OK || light.found != 1 || light.row != 1)
        return failed("the call is not found");
    lawhemuri_opened opened = lawhemuri_open(4, 4, 4, 4, calls, sizeof calls / sizeof *calls, answers, sizeof answers / sizeof *answers);
    lawhemuri_shared shared = lawhemuri_share(LAWHEMURI_SECOND, sheet.fluents, sheet.actions, rules, words, sheet.goal, sheet.goal_len, sheet.start,
                                              opened.kept.words, LAWHEMURI_KEPT_WORDS, calls, sizeof calls / sizeof *calls, answers,
                                              sizeof answers / sizeof *answers, ends, 4);
    if (opened.refusal != LAWHEMURI_OK || shared.refusal != LAWHEMURI_OK || shared.ends != 1 || ends[0] != 2 || shared.calls != 3)
        return failed("the second party's ends are others");
    printf("lawhemuri %s: ok\n", LAWHEMURI_VERSION);
    return 0;
}
