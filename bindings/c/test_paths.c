/* For the tests: standard input has the number of a snapshot's words, the words, and questions of seven words each. Prints a line for each: the
 * path as text, or why there is none, and any path; ends where the answer on checked words is another. */
#include "find_path.h"

#include <stdio.h>
#include <string.h>

static uint32_t area[KELUMAVOR_AREA];
static uint32_t kept[KELUMAVOR_AREA];
static uint32_t words[KELUMAVOR_MOST_WORDS + 1];

int main(void)
{
    uint32_t count, tables[KELUMAVOR_MOST_NAMES], question[KELUMAVOR_QUESTION], report[KELUMAVOR_REPORT], again[KELUMAVOR_REPORT];
    size_t checked[KELUMAVOR_CHECKED];
    if (kelumavor_version() != KELUMAVOR_VERSION || fread(&count, sizeof count, 1, stdin) != 1 || count > KELUMAVOR_MOST_WORDS + 1 ||
        fread(words, sizeof *words, count, stdin) != count)
        return 2;
    if (kelumavor_check(words, count, area, KELUMAVOR_AREA, checked) != 0) {
        printf("%s\n", kelumavor_refusal_text(checked[KELUMAVOR_REFUSAL]));
        return 1;
    }
    if (kelumavor_new_crate(checked[KELUMAVOR_CRATES], 0) != checked[KELUMAVOR_CRATES] || kelumavor_new_map(checked[KELUMAVOR_MAPS], 0) != checked[KELUMAVOR_MAPS] ||
        kelumavor_new_module(checked[KELUMAVOR_MODULES], 2) != checked[KELUMAVOR_MODULES] + 2)
        return 3;
    memcpy(tables, area, checked[KELUMAVOR_NAMES] * sizeof *tables);
    memcpy(kept, area, kelumavor_table_words() * sizeof *kept);
    while (fread(question, sizeof *question, KELUMAVOR_QUESTION, stdin) == KELUMAVOR_QUESTION) {
        kelumavor_find_path(words, count, area, KELUMAVOR_AREA, question, report, KELUMAVOR_REPORT);
        kelumavor_find_path_checked(words, count, kept, KELUMAVOR_AREA, checked, question, again, KELUMAVOR_REPORT);
        if (memcmp(report, again, sizeof report) != 0)
            return 3;
        const size_t from = question[KELUMAVOR_FROM];
        uint8_t path[KELUMAVOR_PATH_TEXT];
        const size_t n = kelumavor_path(words, count, tables, checked[KELUMAVOR_NAMES], report, from, path, sizeof path);
        printf("%zu ", kelumavor_edition(words, count, from));
        if (n > 0)
            printf("%.*s %d\n", (int)n, (const char *)path, kelumavor_is_use_line(report));
        else if (report[KELUMAVOR_OUTCOME] == KELUMAVOR_MISLEADS)
            printf("misleads %d\n", kelumavor_is_use_line(report));
        else
            puts(report[KELUMAVOR_OUTCOME] == KELUMAVOR_NONE ? "none" : kelumavor_refusal_text(report[KELUMAVOR_NUMBER]));
        const uint32_t any_question[3] = {question[KELUMAVOR_NAMESPACE], question[KELUMAVOR_DEFINITION], question[KELUMAVOR_FROM]};
        size_t head[KELUMAVOR_ANY_HEAD], any_names[16], route[16];
        uint8_t any[KELUMAVOR_ANY_TEXT];
        const size_t refused = kelumavor_any_path(words, count, area, KELUMAVOR_AREA, any_question, head, any_names, route);
        const size_t m = kelumavor_any_text(words, count, tables, checked[KELUMAVOR_NAMES], head, any_names, from, any, sizeof any);
        if (refused != 0)
            puts(kelumavor_refusal_text(refused));
        else if (head[KELUMAVOR_ANY_OUTCOME] == KELUMAVOR_ANY_FOUND)
            printf("%.*s\n", (int)m, (const char *)any);
        else
            puts(head[KELUMAVOR_ANY_OUTCOME] == KELUMAVOR_ANY_NOWHERE ? "nowhere" : "longer");
    }
    return 0;
}
