/* What the tests share. Each test is a program that ends with the status 0 where all was as it should be. */
#ifndef TESTS_H
#define TESTS_H
#include "topichub.h"

#include <stdio.h>
#include <stdlib.h>

static int passed, failed;

static inline void expect_true(int holds, const char *what, int line) {
    if (holds) {
        passed++;
        return;
    }
    failed++;
    fprintf(stderr, "line %d: not so: %s\n", line, what);
}

static inline void expect_reply(topichub_reply told, uint32_t status, uint32_t let_go, uint64_t number, const char *what, int line) {
    if (told.status == status && told.let_go == let_go && told.number == number) {
        passed++;
        return;
    }
    failed++;
    fprintf(stderr, "line %d: %s: status %u, let_go %u, number %llu in place of %u, %u, %llu\n", line, what, told.status,
            told.let_go, (unsigned long long)told.number, status, let_go, (unsigned long long)number);
}

#define EXPECT(holds) expect_true((holds) != 0, #holds, __LINE__)
#define TELLS(call, status, let_go, number) expect_reply((call), TOPICHUB_##status, (let_go), (number), #call, __LINE__)

static inline int ended(const char *name) {
    printf("%s: %d passed, %d failed\n", name, passed, failed);
    return failed != 0;
}

#endif
