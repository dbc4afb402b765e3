// Tests the static library from C: `outside TOP [GROUP]`, with the repository's top. All groups are run, or the named one.
// `outside groups` prints their names.
#include "check.h"
#include "groups.h"

#include <stdio.h>
#include <string.h>

static const struct {
    const char *name;
    void (*test)(const char *top);
} groups[] = {
    {"vectors", test_vectors},
    {"stored calls", test_stored_calls},
    {"examples", test_examples},
    {"table inside", test_table_inside},
    {"changed sheets", test_changed_sheets},
    {"lent memory", test_lent_memory},
    {"largest table", test_largest_table},
    {"needs", test_needs},
    {"measured lists", test_measured_lists},
    {"document 01", test_document},
    {"halves", test_halves},
    {"all lists", test_all_lists},
    {"all lists afresh", test_all_lists_afresh},
    {"planned afresh", test_planned_afresh},
    {"kept plans", test_kept_plans},
    {"random sheets", test_random_sheets},
    {"noise", test_noise},
    {"threads", test_threads},
};

enum { GROUPS = sizeof groups / sizeof groups[0] };

// One name in each line.
static int print_groups(void)
{
    for (size_t i = 0; i < GROUPS; i++)
        puts(groups[i].name);
    return 0;
}

int main(int count, char **words)
{
    if (count < 2 || count > 3) {
        fprintf(stderr, "usage: outside TOP [GROUP] | outside groups\n");
        return 2;
    }
    if (strcmp(words[1], "groups") == 0)
        return print_groups();
    for (size_t i = 0; i < GROUPS; i++) {
        if (count == 3 && strcmp(words[2], groups[i].name) != 0)
            continue;
        begin_group(groups[i].name);
        groups[i].test(words[1]);
        end_group();
    }
    if (all_checks() == 0) {
        fprintf(stderr, "outside: no group %s\n", words[2]);
        return 2;
    }
    printf("outside tests: %lu checks passed\n", all_checks());
    return 0;
}
