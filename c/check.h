/* Counting the tests that passed and failed. */
#ifndef CHECK_H
#define CHECK_H

/* From here on every check belongs to this test. It has failed if one of its checks does, or if it has none. */
void test(const char *name);

/* One check; if it failed, what it was about goes to the standard error. */
void check(int good, const char *format, ...) __attribute__((format(printf, 2, 3)));

/* Writes 'N passed, M failed', of tests; whether there were some and none failed. */
int counted(void);

#endif
