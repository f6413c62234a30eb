/* Asks for the path of a function, and prints the use line. */
#include "find_path.h"

#include <stdio.h>
#include <string.h>

/* A crate of the edition 2021 with a module `a` that holds a function `f`. */
static const uint32_t words[] = {
    0x10000001, 0x61, 0x10000001, 0x66, 0x20000000, 2021, 0x40000000, 0, 0, 0x50000000, 0, 0x50000000, 1,
    0x60000000, 1, 0x80000001, 1, 0, 0x80000004, 1, 0, 0x90000000, 0, 0, 0, 0, 0, 1, 0,
    0x90000001, 1, 1, 1, 0, 0, 1, 0,
};
static const size_t words_len = sizeof words / sizeof *words;

static uint32_t area[KELUMAVOR_AREA];

int main(void)
{
    if (kelumavor_version() != KELUMAVOR_VERSION) {
        puts("the library was built for another header");
        return 2;
    }
    size_t checked[KELUMAVOR_CHECKED];
    if (kelumavor_check(words, words_len, area, KELUMAVOR_AREA, checked) != 0) {
        const size_t number = checked[KELUMAVOR_REFUSAL];
        printf("refused %zu at word %zu: %s\n", number, checked[KELUMAVOR_PLACE], kelumavor_refusal_text(number));
        return 1;
    }
    /* The answer to a question clears the area, so the tables are kept. */
    uint32_t tables[KELUMAVOR_MOST_NAMES];
    const size_t names = checked[KELUMAVOR_NAMES];
    memcpy(tables, area, names * sizeof *tables);

    /* Definition 1, seen from module 0, without options. */
    const uint32_t question[KELUMAVOR_QUESTION] = {
        KELUMAVOR_VALUES, 1, 0, KELUMAVOR_PLAIN, 0, KELUMAVOR_MOST_FUEL, KELUMAVOR_MOST_LIMIT,
    };
    uint32_t report[KELUMAVOR_REPORT];
    kelumavor_find_path(words, words_len, area, KELUMAVOR_AREA, question, report, KELUMAVOR_REPORT);
    if (report[KELUMAVOR_OUTCOME] == KELUMAVOR_FOUND) {
        uint8_t path[KELUMAVOR_PATH_TEXT];
        const size_t n = kelumavor_path(words, words_len, tables, names, report, question[KELUMAVOR_FROM], path, sizeof path);
        if (kelumavor_is_use_line(report))
            printf("use %.*s;\n", (int)n, (const char *)path);
        else
            printf("%.*s names the module: a keyword alone is no use line\n", (int)n, (const char *)path);
        return 0;
    }
    if (report[KELUMAVOR_OUTCOME] == KELUMAVOR_NONE) {
        puts(report[KELUMAVOR_EMPTY] ? "not known: the fuel ran out" : "the search finds none: ask kelumavor_any_path");
        return 1;
    }
    printf("refused: %s\n", kelumavor_refusal_text(report[KELUMAVOR_NUMBER]));
    return 1;
}
