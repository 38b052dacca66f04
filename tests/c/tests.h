/* The groups of checks that the programs are made of. */
#ifndef ASPEN_TESTS_TESTS_H
#define ASPEN_TESTS_TESTS_H

/* With libwriter.a, and a box for what it wrote. */
void test_sizes(void);
void test_texts(void);
void test_writer(void);
void test_pieces(void);

/* With libengine.a. */
void test_form(void);
void test_format(void);
void test_cases(void);
void test_audit(void);
void test_count(void);
void test_views(void);
void test_refusals(void);
void test_lists(void);
void test_changes(void);
void test_alike(void);
void test_restore(void);
void test_retire(void);
void test_convert(void);
void test_convert_2_3(void);

/* With libplay.a. */
void test_play(void);

#endif
