// The groups of checks, with the repository's top, where the stored sheets are.
#ifndef GROUPS_H
#define GROUPS_H

void test_vectors(const char *top);
void test_stored_calls(const char *top);
void test_examples(const char *top);
void test_table_inside(const char *top);
void test_changed_sheets(const char *top);
void test_lent_memory(const char *top);
void test_largest_table(const char *top);
void test_needs(const char *top);
void test_measured_lists(const char *top);
void test_document(const char *top);
void test_halves(const char *top);
void test_all_lists(const char *top);
void test_all_lists_afresh(const char *top);
void test_planned_afresh(const char *top);
void test_kept_plans(const char *top);
void test_random_sheets(const char *top);
void test_noise(const char *top);
void test_threads(const char *top);

#endif
