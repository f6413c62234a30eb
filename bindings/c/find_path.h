/* Kelumavor: which path names an item in a module. Link libkelumavor.a, which bindings/c/build writes to target/staticlib/.
 *
 * The functions are proved. They keep no state but what the caller lends, may be called from several threads, and take any lengths
 * and numbers; only those that end in _checked ask for more, which stands at each. Each pointer must be that of as many elements as the length beside it says, not null even where that is 0, and what a
 * function writes to must not overlap what else it is given. */
#ifndef KELUMAVOR_FIND_PATH_H
#define KELUMAVOR_FIND_PATH_H

#include <stdbool.h>
#include <stddef.h>
#include <stdint.h>

#ifdef __cplusplus
extern "C" {
#endif

/* The version of what this header declares: 65,536 times that of the format, plus the words of a report. A library that answers another
 * number was built for another header: nothing else of it should be called. Takes no area. */
#define KELUMAVOR_VERSION 131114
size_t kelumavor_version(void);

/* Words of a work area, at least. */
#define KELUMAVOR_AREA 16384

/* Bytes of a name's text, at most. */
#define KELUMAVOR_TEXT 255

/* What a snapshot may have, at most. */
#define KELUMAVOR_MOST_WORDS 16384
#define KELUMAVOR_MOST_NAMES 2048
#define KELUMAVOR_MOST_CRATES 64
#define KELUMAVOR_MOST_MODULES 512
#define KELUMAVOR_MOST_DEFINITIONS 2048

/* Fuel and limit of a question, at most. */
#define KELUMAVOR_MOST_FUEL 10000
#define KELUMAVOR_MOST_LIMIT 15

/* Why words, questions, calls or edits are refused. */
enum kelumavor_refusal {
    KELUMAVOR_REFUSED_SMALL_WORK_AREA = 20,
    KELUMAVOR_REFUSED_TOO_MUCH_FUEL = 21,
    KELUMAVOR_REFUSED_OUT_OF_RANGE = 22,       /* the namespace, the prefix or the options of a question */
    KELUMAVOR_REFUSED_NO_SUCH_ITEM = 23,       /* no such definition, module or crate */
    KELUMAVOR_REFUSED_NO_MACRO = 24,           /* the macros namespace, with a definition that is no macro */
    KELUMAVOR_REFUSED_TOO_MANY_WORDS = 30,
    KELUMAVOR_REFUSED_WRONG_KIND = 31,         /* an unknown or falling kind, an argument that is missing or has a kind */
    KELUMAVOR_REFUSED_WRONG_FIELD = 32,        /* a field outside its range */
    KELUMAVOR_REFUSED_UNDEFINED = 33,          /* the number of a thing that is not defined yet */
    KELUMAVOR_REFUSED_REPEATED = 34,           /* something that may stand once only */
    KELUMAVOR_REFUSED_MISPLACED = 35,          /* a record that does not fit those before it; a map or a crate left incomplete */
    KELUMAVOR_REFUSED_TOO_MANY_RECORDS = 36,
    KELUMAVOR_REFUSED_UNKNOWN_EDITION = 43,
    KELUMAVOR_REFUSED_BATCH_TOO_LONG = 44,     /* too many questions, a part of one, or too few words for the reports */
    KELUMAVOR_REFUSED_TARGET_TOO_SHORT = 45,   /* fewer words than an import list has */
    KELUMAVOR_REFUSED_LIMIT_OUT_OF_RANGE = 46,
    KELUMAVOR_REFUSED_ENTRY_THERE_OR_NOT = 47, /* an added name that is there already, or a removal of one that isn't */
    KELUMAVOR_REFUSED_NO_ROOM = 48,
    KELUMAVOR_REFUSED_NO_SUCH_WINDOW = 49,
    KELUMAVOR_REFUSED_WINDOW_WAITS = 50,
    KELUMAVOR_REFUSED_JOIN_TOO_LARGE = 51      /* a joined snapshot that passes a limit or the target */
};

/* What the check answers: the number of the refusal, 0 for none; the word at which the refused record begins, or the number of
 * words for a fault that shows only after the last; and for accepted words how many records of each kind there are. */
enum kelumavor_checked {
    KELUMAVOR_REFUSAL,
    KELUMAVOR_PLACE,
    KELUMAVOR_NAMES,
    KELUMAVOR_CRATES,
    KELUMAVOR_DEPENDENCIES,
    KELUMAVOR_MAPS,
    KELUMAVOR_MODULES,
    KELUMAVOR_CHILDREN,
    KELUMAVOR_PRELUDES,
    KELUMAVOR_DEFINITIONS,
    KELUMAVOR_SCOPES,
    KELUMAVOR_IMPORTS,
    KELUMAVOR_EXTERNS,
    KELUMAVOR_MEMBERS,
    KELUMAVOR_CHECKED /* how many */
};

/* Checks a snapshot, and answers the number of the refusal as well. For accepted words the first words of the area, one for each
 * name, are the tables of kelumavor_name, and with those after them, kelumavor_table_words() in all, the tables of the functions that end in
 * _checked. These keep them; the others below that take an area clear them: who reads names later copies them first.
 * Of the other words up to the 16,384th nothing is said then; those past them stay. After a refusal the area is left as by
 * kelumavor_find_path. */
size_t kelumavor_check(const uint32_t *words, size_t words_len, uint32_t *area, size_t area_len,
                       size_t answer[KELUMAVOR_CHECKED]);

/* Copies the text of a name, without an end mark, where there is room for all of it, and answers its length. A number that is
 * not below tables_len has no text: the answer is 0. Takes no area, and writes to out alone. */
size_t kelumavor_name(const uint32_t *words, size_t words_len, const uint32_t *tables, size_t tables_len, size_t name,
                      uint8_t *out, size_t out_len);

/* Whether a name is a keyword that the edition (2015, 2018, 2021 or 2024) of the viewing module's crate writes with r# in front. The
 * tables are those of kelumavor_name; a number that is not below tables_len is no name. Takes no area, and writes nothing. */
bool kelumavor_is_raw(const uint32_t *words, size_t words_len, const uint32_t *tables, size_t tables_len, size_t name,
                      size_t edition);

/* In which namespace an item is asked for. */
enum kelumavor_namespace { KELUMAVOR_TYPES, KELUMAVOR_VALUES, KELUMAVOR_MACROS };

/* How a path should begin: with self, super or crate, with its first name, or with crate. */
enum kelumavor_prefix { KELUMAVOR_BY_SELF, KELUMAVOR_PLAIN, KELUMAVOR_BY_CRATE };

/* Options of a question, added up. */
enum kelumavor_option {
    KELUMAVOR_PREFER_NO_STD = 1,
    KELUMAVOR_PREFER_PRELUDE = 2,
    KELUMAVOR_PREFER_ABSOLUTE = 4,
    KELUMAVOR_ALLOW_UNSTABLE = 8,
    KELUMAVOR_IGNORE_LOCAL_IMPORTS = 16,
    KELUMAVOR_OLD_NAMES_LAST = 32,
    KELUMAVOR_READ_BACK = 64 /* a found path is read from the viewing module: KELUMAVOR_MISLEADS */
};

/* A question: namespace (enum kelumavor_namespace), definition, viewing module, prefix (enum kelumavor_prefix), options (enum
 * kelumavor_option), fuel (10,000 at most), limit (the length left at the start, 1 to 15: names of the path, or one more for a
 * variant). */
enum kelumavor_question {
    KELUMAVOR_NAMESPACE,
    KELUMAVOR_DEFINITION,
    KELUMAVOR_FROM,
    KELUMAVOR_PREFIX,
    KELUMAVOR_OPTIONS,
    KELUMAVOR_FUEL,
    KELUMAVOR_LIMIT,
    KELUMAVOR_QUESTION /* how many */
};

/* What a question came to. A path that misleads means another thing in the viewing module, or nothing: no use line is to be made of it. */
enum kelumavor_outcome { KELUMAVOR_FOUND, KELUMAVOR_NONE, KELUMAVOR_REFUSED, KELUMAVOR_MISLEADS };

/* What a path begins with; the last is a leading ::. A path of a keyword alone, without names, is no use line. */
enum kelumavor_path_kind {
    KELUMAVOR_PATH_PLAIN,
    KELUMAVOR_PATH_SELF,
    KELUMAVOR_PATH_SUPER,
    KELUMAVOR_PATH_CRATE,
    KELUMAVOR_PATH_ABSOLUTE
};

/* A report: outcome (enum kelumavor_outcome), number of the refusal; path kind (enum kelumavor_path_kind), sixteen names and how many of
 * them are the path's; charges; 1 where the fuel ran out. Only where that is 0 does none say that the rules find no path, and with a
 * limit below 15 it says so of paths of that length alone; kelumavor_any_path says whether there is one at all. Of the first
 * search that found no fuel: the length left there, and the module that it looked for,
 * +1, or 0 where it was the question's own item or its enum; both are 0 where the fuel did not run out. How the path came about: the
 * number of steps, and seventeen of them. A step is 8 times the word at which the record used begins, 0 for a keyword, plus the rule
 * (enum kelumavor_rule); there is one for the path's start, a keyword without names or the first name with any prefix, then one for
 * each further name. */
enum kelumavor_report {
    KELUMAVOR_OUTCOME,
    KELUMAVOR_NUMBER,
    KELUMAVOR_KIND,
    KELUMAVOR_PATH,
    KELUMAVOR_COUNT = KELUMAVOR_PATH + 16,
    KELUMAVOR_CHARGES,
    KELUMAVOR_EMPTY,
    KELUMAVOR_EMPTY_LEFT,
    KELUMAVOR_EMPTY_MODULE,
    KELUMAVOR_STEPS,
    KELUMAVOR_ROUTE,
    KELUMAVOR_REPORT = KELUMAVOR_ROUTE + 17 /* how many */
};

/* The rules of a route. */
enum kelumavor_rule {
    KELUMAVOR_BUILTIN,
    KELUMAVOR_SCOPE,
    KELUMAVOR_PRELUDE,
    KELUMAVOR_EXTERN,
    KELUMAVOR_KEYWORD,
    KELUMAVOR_VARIANT,
    KELUMAVOR_LOCAL,
    KELUMAVOR_IMPORT
};

/* Answers a question on a snapshot, which is checked again. Writes the report where there is room for it, and says whether there
 * was. The first 16,384 words of the area are 0 afterwards; an area that is smaller stays as it is. */
bool kelumavor_find_path(const uint32_t *words, size_t words_len, uint32_t *area, size_t area_len,
                         const uint32_t question[KELUMAVOR_QUESTION], uint32_t *report, size_t report_len);

/* Questions of a call of kelumavor_find_paths, at most. */
#define KELUMAVOR_QUESTIONS 64

/* Answers several questions on a snapshot, which is checked once. The questions are KELUMAVOR_QUESTION words each, one after the
 * other; the reports, KELUMAVOR_REPORT words each, are written in the same order, and each is the one that kelumavor_find_path
 * writes for its question, a refusal included. Answers 0, or the number by which the whole call is refused, with the reports
 * unwritten: 20 for an area of fewer than 16,384 words; 44 for more than KELUMAVOR_QUESTIONS questions, a number of words that is
 * not a multiple of KELUMAVOR_QUESTION, or a reports_len that is too small. The area is left as by kelumavor_find_path. */
size_t kelumavor_find_paths(const uint32_t *words, size_t words_len, uint32_t *area, size_t area_len,
                            const uint32_t *questions, size_t questions_len, uint32_t *reports, size_t reports_len);

/* How many words at the front of an area the tables take that kelumavor_check leaves for accepted words. Takes no area. */
size_t kelumavor_table_words(void);

/* Answers a question as kelumavor_find_path does, without the check and without clearing the area: it costs the search alone. The caller
 * answers for this, and nothing is promised otherwise, not even that only its own memory is read: kelumavor_check accepted these very words, and wrote
 * checked; the area has 16,384 words or more; and its first kelumavor_table_words() words are as that check left them, or a call that
 * ends in _checked, or a copy of them. They stay so, for the next question and for kelumavor_name; of the words after them up to the 16,384th nothing is
 * said, those past them stay. */
bool kelumavor_find_path_checked(const uint32_t *words, size_t words_len, uint32_t *area, size_t area_len,
                                 const size_t checked[KELUMAVOR_CHECKED], const uint32_t question[KELUMAVOR_QUESTION],
                                 uint32_t *report, size_t report_len);

/* Answers several questions as kelumavor_find_paths does, on what kelumavor_find_path_checked asks for; the area is left as by that. */
size_t kelumavor_find_paths_checked(const uint32_t *words, size_t words_len, uint32_t *area, size_t area_len,
                                    const size_t checked[KELUMAVOR_CHECKED], const uint32_t *questions, size_t questions_len,
                                    uint32_t *reports, size_t reports_len);

/* Windows that share one search, each with a question that waits or none. The state is the caller's; all zeros is the one in which no
 * question waits. Word 0 is the window from which the next turn counts; a row of eight words for each window follows: 1 where its
 * question waits, and the question. */
#define KELUMAVOR_WINDOWS 8
#define KELUMAVOR_STATE (1 + KELUMAVOR_WINDOWS * (1 + KELUMAVOR_QUESTION))

/* Places a question for a window. Answers 0, or the number by which it is refused, with the state unchanged: 49 for a window above 7,
 * 50 for one whose question waits already. Takes no area. */
size_t kelumavor_place(uint32_t state[KELUMAVOR_STATE], size_t window, const uint32_t question[KELUMAVOR_QUESTION]);

/* Serves the next window that waits, counting round from the one after that served last: writes the report that kelumavor_find_path
 * writes for its question on these words, a refusal included, and answers the window, whose question waits no more. The area is left
 * as by kelumavor_find_path. Where no question waits it answers KELUMAVOR_WINDOWS and changes nothing. A question placed is served
 * within eight turns, whatever the other windows place. With a report_len below KELUMAVOR_REPORT it answers KELUMAVOR_UNSERVED and changes
 * nothing. */
#define KELUMAVOR_UNSERVED 9
size_t kelumavor_turn(uint32_t state[KELUMAVOR_STATE], const uint32_t *words, size_t words_len, uint32_t *area, size_t area_len,
                      uint32_t *report, size_t report_len);

/* An entry of a module's scope: module, namespace, name, definition, visibility (0 public, 1 crate, 2 module explicit, 3 module
 * implicit) and its number, declared (0 imported, 1 declared there, 2 and 3 the same and deprecated), bits (1 hidden plus 2
 * unstable). */
enum kelumavor_entry {
    KELUMAVOR_ENTRY_MODULE,
    KELUMAVOR_ENTRY_NAMESPACE,
    KELUMAVOR_ENTRY_NAME,
    KELUMAVOR_ENTRY_DEFINITION,
    KELUMAVOR_ENTRY_VISIBILITY,
    KELUMAVOR_ENTRY_NUMBER,
    KELUMAVOR_ENTRY_DECLARED,
    KELUMAVOR_ENTRY_BITS,
    KELUMAVOR_ENTRY /* how many */
};

/* Adds an entry to the snapshot in the first count words, after its last scope record; the words after it move up, those past the new
 * end become 0, and count grows. Answers 0, or the number by which the edit is refused, with words and count unchanged: 20 for an area
 * of fewer than 16,384 words; 30 for a count above words_len; 30 to 36 and 43 for the snapshot; 32, 33 and 35 for the entry; 47 for a name that
 * is there already; 48 for an entry that would pass 16,384 words or words_len. The area is left as by kelumavor_find_path. */
size_t kelumavor_add_entry(uint32_t *words, size_t words_len, size_t *count, uint32_t *area, size_t area_len,
                           const uint32_t entry[KELUMAVOR_ENTRY]);

/* Removes the entry of a module, a namespace and a name; the words after its record move down, those past the new end become 0, and
 * count falls. Answers as kelumavor_add_entry does, with 47 for a name that is not there. The area is left as by kelumavor_find_path. */
size_t kelumavor_remove_entry(uint32_t *words, size_t words_len, size_t *count, uint32_t *area, size_t area_len, size_t module,
                              size_t name_space, size_t name);

/* Words of an import record: its head, 0xA0000000 and the crate; namespace, definition, name, module that holds it, bits (1 hidden plus
 * 2 unstable). */
#define KELUMAVOR_IMPORT_WORDS 6

/* Writes the import records of a crate, built from the scope entries and members of a snapshot, to the target: those that rust-analyzer
 * adds for it, in that order. What stands past them stays; count becomes their number of words, at most 6 for each entry and member
 * met. Answers 0, or the number by which the call is refused, with the target unchanged and count 0: 20 for an area of fewer than 16,384
 * words; 30 to 36 and 43 for the snapshot; 23 for an unknown crate; 45 for a target that is too short. The area is left as by
 * kelumavor_find_path. */
size_t kelumavor_import_list(const uint32_t *words, size_t words_len, uint32_t *area, size_t area_len, size_t crate, uint32_t *target,
                             size_t target_len, size_t *count);

/* Joins two snapshots in one: writes its words to the target, and count becomes their number; what stands past them stays. The records of the first keep
 * their numbers, those of the second follow, each kind in its old order; equal names are one name, equal builtins one definition. Every question on either
 * part has the same line on the joined words, put with its numbers moved. Answers 0, or the number by which the call is refused, with the target
 * unchanged and count 0: 20 for an area of fewer than 16,384 words; 30 to 36 and 43 for the first snapshot, then for the second; 51 for a result that
 * passes a limit of a snapshot or target_len. The area is left as by kelumavor_find_path. */
size_t kelumavor_join(const uint32_t *first, size_t first_len, const uint32_t *second, size_t second_len, uint32_t *area,
                      size_t area_len, uint32_t *target, size_t target_len, size_t *count);

/* Leaves in the area where the names and definitions of the second go in a join, for the two functions below, and answers 0; or the number by which the
 * call is refused, as kelumavor_join but for 51, with the area left as by kelumavor_find_path. The words past the first 16,384 stay. The first's
 * numbers stay. */
size_t kelumavor_join_numbers(const uint32_t *first, size_t first_len, const uint32_t *second, size_t second_len, uint32_t *area,
                              size_t area_len);

/* The number in the joined snapshot of a name and of a definition of the second, below how many it has, from the area that kelumavor_join_numbers
 * left. It is read alone. */
size_t kelumavor_new_name(const uint32_t *area, size_t area_len, size_t name);
size_t kelumavor_new_definition(const uint32_t *area, size_t area_len, size_t definition);

/* The same of a crate, a map and a module of the second: the first has so many, as kelumavor_check writes. They take no area. */
size_t kelumavor_new_crate(size_t first, size_t number);
size_t kelumavor_new_map(size_t first, size_t number);
size_t kelumavor_new_module(size_t first, size_t number);

/* Who asks for a reach: viewing module, prefix, options, and the fuel and the limit of each search. */
enum kelumavor_viewer {
    KELUMAVOR_VIEWER_FROM,
    KELUMAVOR_VIEWER_PREFIX,
    KELUMAVOR_VIEWER_OPTIONS,
    KELUMAVOR_VIEWER_FUEL,
    KELUMAVOR_VIEWER_LIMIT,
    KELUMAVOR_VIEWER /* how many */
};

/* Counts of a reach: items with a path of 0 to 16 names, with a misleading one, without one, without one because the fuel ran out; and the
 * names of all paths together. */
enum kelumavor_reach_counts {
    KELUMAVOR_REACH_FOUND,
    KELUMAVOR_REACH_MISLEADING = KELUMAVOR_REACH_FOUND + 17,
    KELUMAVOR_REACH_NONE,
    KELUMAVOR_REACH_UNKNOWN,
    KELUMAVOR_REACH_NAMES,
    KELUMAVOR_REACH /* how many */
};

/* How much of a snapshot can be named from a module: a search for each distinct item among the scope entries. Writes the counts, and answers 0;
 * or the number by which the call is refused, with zeros written: those of a question, and 23 for an unknown module. The area is left as by
 * kelumavor_find_path. */
size_t kelumavor_reach(const uint32_t *words, size_t words_len, uint32_t *area, size_t area_len,
                       const uint32_t viewer[KELUMAVOR_VIEWER], size_t counts[KELUMAVOR_REACH]);

/* Whether any path names an item, in this order: the outcome (enum kelumavor_any), the path's kind, how many times super stands at its start
 * (more than once is possible), how many names it has. */
enum kelumavor_any_head {
    KELUMAVOR_ANY_OUTCOME,
    KELUMAVOR_ANY_KIND,
    KELUMAVOR_ANY_SUPERS,
    KELUMAVOR_ANY_COUNT,
    KELUMAVOR_ANY_HEAD /* how many */
};

enum kelumavor_any {
    KELUMAVOR_ANY_FOUND = 0,   /* a path; none that names the item has fewer names */
    KELUMAVOR_ANY_NOWHERE = 1, /* no path of any length names the item there */
    KELUMAVOR_ANY_REFUSED = 2,
    KELUMAVOR_ANY_LONGER = 3   /* paths name it, each of more than sixteen names */
};

/* Whether any path names a definition in a module, as the compiler reads paths: a second opinion on KELUMAVOR_NONE, to be asked before an
 * item is made public. The question is namespace, definition and viewing module; no fuel and no limit play a part. Writes the head, the
 * numbers of the names, and for each name the word at which the record begins that it is read by (a scope or extern record, for a variant its
 * definition), zeros past them, and answers 0; or the number by which the call is refused: 20, 22, those of the check, 23, 24. The area
 * is left as by kelumavor_find_path. */
size_t kelumavor_any_path(const uint32_t *words, size_t words_len, uint32_t *area, size_t area_len, const uint32_t question[3],
                          size_t head[KELUMAVOR_ANY_HEAD], size_t names[16], size_t route[16]);

/* The functions below are no part of the library and not proved: they are written in terms of it, and tested. */

/* The edition of a module's crate, 0 where accepted words have no such module. Takes no area. */
static inline size_t kelumavor_edition(const uint32_t *words, size_t words_len, size_t module)
{
    size_t map_place = 0, crates_place = 0, crates = 0, modules = 0;
    for (size_t at = 0; at < words_len; at++) {
        const uint32_t kind = words[at] >> 28;
        if (kind == 2 && crates++ == 0)
            crates_place = at;
        if (kind == 4)
            map_place = at;
        if (kind == 5 && modules++ == module)
            return words[crates_place + 2 * (size_t)(words[map_place] & 0xFFFFFFF) + 1];
    }
    return 0;
}

/* Bytes of a path as text, at most: sixteen names with r#, and :: between them. */
#define KELUMAVOR_PATH_TEXT (16 * (KELUMAVOR_TEXT + 4) + 7)

/* Appends bytes where there is room for them, and counts them in any case. */
static inline size_t kelumavor_append(uint8_t *out, size_t out_len, size_t at, const char *bytes, size_t count)
{
    for (size_t i = 0; i < count; i++)
        if (at + i < out_len)
            out[at + i] = (uint8_t)bytes[i];
    return at + count;
}

/* Appends a name of a path, with r# where the edition takes it for a keyword, and :: before it where it is not the path's beginning. */
static inline size_t kelumavor_append_name(const uint32_t *words, size_t words_len, const uint32_t *tables, size_t tables_len,
                                           size_t name, size_t edition, bool first, uint8_t *out, size_t out_len, size_t at)
{
    uint8_t text[KELUMAVOR_TEXT];
    const size_t count = kelumavor_name(words, words_len, tables, tables_len, name, text, sizeof text);
    if (!first)
        at = kelumavor_append(out, out_len, at, "::", 2);
    if (kelumavor_is_raw(words, words_len, tables, tables_len, name, edition))
        at = kelumavor_append(out, out_len, at, "r#", 2);
    return kelumavor_append(out, out_len, at, (const char *)text, count);
}

/* Writes the path of a report as it stands in the viewing module, keywords of its crate's edition with r#, without an end mark, and answers its
 * length: KELUMAVOR_PATH_TEXT bytes are always enough, and of a longer text than out_len its first bytes are written. The tables are those of
 * kelumavor_name, copied before the question was asked. For any outcome but
 * KELUMAVOR_FOUND the answer is 0, for a path that misleads too. Takes no area. */
static inline size_t kelumavor_path(const uint32_t *words, size_t words_len, const uint32_t *tables, size_t tables_len,
                                    const uint32_t report[KELUMAVOR_REPORT], size_t from, uint8_t *out, size_t out_len)
{
    static const char *const starts[] = {"", "self", "super", "crate", ""};
    static const size_t lengths[] = {0, 4, 5, 5, 0};
    const size_t edition = kelumavor_edition(words, words_len, from);
    if (report[KELUMAVOR_OUTCOME] != KELUMAVOR_FOUND)
        return 0;
    const size_t kind = report[KELUMAVOR_KIND];
    size_t at = kelumavor_append(out, out_len, 0, starts[kind], lengths[kind]);
    for (size_t i = 0; i < report[KELUMAVOR_COUNT]; i++)
        at = kelumavor_append_name(words, words_len, tables, tables_len, report[KELUMAVOR_PATH + i], edition,
                                   i == 0 && kind == KELUMAVOR_PATH_PLAIN, out, out_len, at);
    return at;
}

/* Bytes of any path as text, at most: it may begin with super as often as there are modules. */
#define KELUMAVOR_ANY_TEXT (KELUMAVOR_PATH_TEXT + 7 * KELUMAVOR_MOST_MODULES)

/* The same for the path of kelumavor_any_path, of which head and names are: KELUMAVOR_ANY_TEXT bytes are always enough. For any outcome but
 * KELUMAVOR_ANY_FOUND the answer is 0. Takes no area. */
static inline size_t kelumavor_any_text(const uint32_t *words, size_t words_len, const uint32_t *tables, size_t tables_len,
                                        const size_t head[KELUMAVOR_ANY_HEAD], const size_t names[16], size_t from, uint8_t *out,
                                        size_t out_len)
{
    const size_t edition = kelumavor_edition(words, words_len, from), kind = head[KELUMAVOR_ANY_KIND];
    size_t at = 0;
    if (head[KELUMAVOR_ANY_OUTCOME] != KELUMAVOR_ANY_FOUND)
        return 0;
    if (kind == KELUMAVOR_PATH_SELF)
        at = kelumavor_append(out, out_len, at, "self", 4);
    if (kind == KELUMAVOR_PATH_CRATE)
        at = kelumavor_append(out, out_len, at, "crate", 5);
    if (kind == KELUMAVOR_PATH_SUPER)
        for (size_t i = 0; i < head[KELUMAVOR_ANY_SUPERS]; i++) {
            at = kelumavor_append(out, out_len, at, "::", i > 0 ? 2 : 0);
            at = kelumavor_append(out, out_len, at, "super", 5);
        }
    for (size_t i = 0; i < head[KELUMAVOR_ANY_COUNT]; i++)
        at = kelumavor_append_name(words, words_len, tables, tables_len, names[i], edition, i == 0 && kind == KELUMAVOR_PATH_PLAIN,
                                   out, out_len, at);
    return at;
}

/* Whether `use`, the path and `;` make a line: not for a keyword alone. Takes no area. */
static inline bool kelumavor_is_use_line(const uint32_t report[KELUMAVOR_REPORT])
{
    return report[KELUMAVOR_OUTCOME] == KELUMAVOR_FOUND && report[KELUMAVOR_COUNT] > 0;
}

/* What the number of a refusal means, in words; "no refusal" for 0. Takes no area. */
static inline const char *kelumavor_refusal_text(size_t number)
{
    switch (number) {
    case KELUMAVOR_REFUSED_SMALL_WORK_AREA:
        return "the work area has fewer than 16,384 words";
    case KELUMAVOR_REFUSED_TOO_MUCH_FUEL:
        return "the fuel is above 10,000";
    case KELUMAVOR_REFUSED_OUT_OF_RANGE:
        return "the namespace, the prefix or the options are outside their range";
    case KELUMAVOR_REFUSED_NO_SUCH_ITEM:
        return "the snapshot has no such definition, module or crate";
    case KELUMAVOR_REFUSED_NO_MACRO:
        return "the macros namespace is asked for a definition that is no macro";
    case KELUMAVOR_REFUSED_TOO_MANY_WORDS:
        return "more than 16,384 words";
    case KELUMAVOR_REFUSED_WRONG_KIND:
        return "an unknown or falling kind, or an argument that is missing or has a kind";
    case KELUMAVOR_REFUSED_WRONG_FIELD:
        return "a field outside its range, bits past a name's text, or a builtin with another name";
    case KELUMAVOR_REFUSED_UNDEFINED:
        return "the number of a thing that is not defined yet";
    case KELUMAVOR_REFUSED_REPEATED:
        return "something that may stand once only is repeated";
    case KELUMAVOR_REFUSED_MISPLACED:
        return "a record that does not fit the records before it, or a map or a crate left incomplete";
    case KELUMAVOR_REFUSED_TOO_MANY_RECORDS:
        return "more than 64 crates, 512 modules, 2,048 names or 2,048 definitions";
    case KELUMAVOR_REFUSED_UNKNOWN_EDITION:
        return "an edition other than 2015, 2018, 2021 and 2024";
    case KELUMAVOR_REFUSED_BATCH_TOO_LONG:
        return "more than 64 questions, a part of one, or too few words for their reports";
    case KELUMAVOR_REFUSED_TARGET_TOO_SHORT:
        return "a target with fewer words than the import list has";
    case KELUMAVOR_REFUSED_LIMIT_OUT_OF_RANGE:
        return "the limit is outside 1 to 15";
    case KELUMAVOR_REFUSED_ENTRY_THERE_OR_NOT:
        return "an added name that is there already, or a removal of one that isn't";
    case KELUMAVOR_REFUSED_NO_ROOM:
        return "an addition that would pass 16,384 words or the lent slice";
    case KELUMAVOR_REFUSED_NO_SUCH_WINDOW:
        return "a window above 7";
    case KELUMAVOR_REFUSED_WINDOW_WAITS:
        return "the window has a question that waits already";
    case KELUMAVOR_REFUSED_JOIN_TOO_LARGE:
        return "a joined snapshot that passes a limit or the target";
    default:
        return number == 0 ? "no refusal" : "an unknown refusal";
    }
}

#ifdef __cplusplus
}
#endif

#endif
