#include "check.h"

#include <stdarg.h>
#include <stdio.h>

/* The test that is running, its checks and how many of them failed; then what has come of all. */
static const char *running;
static unsigned checks, wrong, all_checks, passed, failed;

static void close_test(void) {
    if (running == NULL)
        return;
    if (checks > 0 && wrong == 0) {
        passed++;
        printf("ok: %s (%u checks)\n", running, checks);
    } else {
        failed++;
        printf("FAILED: %s (%u checks, %u of them failed)\n", running, checks, wrong);
    }
    all_checks += checks;
    checks = wrong = 0;
}

void test(const char *name) {
    close_test();
    running = name;
}

void check(int good, const char *format, ...) {
    va_list arguments;
    checks++;
    if (good)
        return;
    wrong++;
    fprintf(stderr, "FAILED: ");
    va_start(arguments, format);
    vfprintf(stderr, format, arguments);
    va_end(arguments);
    fprintf(stderr, "\n");
}

int counted(void) {
    close_test();
    printf("%u checks in all\n%u passed, %u failed\n", all_checks, passed, failed);
    return passed > 0 && failed == 0;
}
