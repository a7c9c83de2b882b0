/* A small host: answers each text of a table and compares with what the rules give it; prints a line for each difference. */
#include "yurqobal.h"

#include <stdio.h>
#include <stdlib.h>
#include <string.h>

static int wrong, cases;

/* One call into a buffer of `room` bytes on the heap, so that a tool sees each byte beyond it; the bytes beyond the answer must stay. */
static void check(const char *what, const uint8_t *text, size_t length, size_t room, int64_t expected, const char *printed) {
    uint8_t *in = malloc(length ? length : 1), *out = malloc(room ? room : 1);
    memcpy(in, text, length);
    memset(out, '#', room);
    int64_t n = yurqobal_answer(in, length, out, room);
    size_t shown = n > 0 ? (size_t)n : 0;
    int good = n == expected && (!printed || (shown == strlen(printed) && !memcmp(out, printed, shown)));
    for (size_t i = shown; i < room; i++) good = good && out[i] == '#';
    good = good && (length == 0 || !memcmp(in, text, length));
    cases++;
    if (!good) {
        wrong++;
        printf("%s: %lld [%.*s]\n", what, (long long)n, (int)shown, (const char *)out);
    }
    free(in);
    free(out);
}

static void text(const char *t, const char *printed) { check(t, (const uint8_t *)t, strlen(t), 512, (int64_t)strlen(printed), printed); }

int main(void) {
    static uint8_t big[40000];
    /* good */
    text("p cnf 3 3\n1 3 0\n-3 2 0\n-2 0\n", "s SATISFIABLE\nv 1 -2 -3 0\nr 3 2 3 0\n");
    text("c a comment\np cnf 1 2\n1 0\n-1 0\n", "s UNSATISFIABLE\nr 2 1 1 0\n");
    text("p cnf 1 0\n", "s SATISFIABLE\nv -1 0\nr 0 0 0 0\n");
    /* damaged */
    text("p cnf 3 3\n1 3 0\n-3 2 0\n-2 -0\n", "e 5 26\n");
    text("p cnf 65 1\n1 0\n", "e 6 6\n");
    text("p cnf 3 1\n1 -1 0\n", "e 7 12\n");
    text("p cnf 3 1\n0\n", "e 8 10\n");
    text("p cnf 3 2\n1 0\n", "e 9 14\n");
    text("p cnf 3 1\r\n1 0\r\n", "e 5 8\n");
    /* empty, of the greatest length, oversized */
    check("empty", (const uint8_t *)"", 0, 512, 6, "e 5 0\n");
    memset(big, '\n', sizeof big);
    check("blank lines", big, 32768, 512, 10, "e 5 32768\n");
    check("oversized", big, 32769, 512, 6, "e 4 0\n");
    check("oversized by far", big, sizeof big, 512, 6, "e 4 0\n");
    /* every short buffer, and larger ones */
    for (size_t room = 0; room < 512; room++) check("short buffer", (const uint8_t *)"p cnf 1 0\n", 10, room, -12, NULL);
    check("larger buffer", (const uint8_t *)"p cnf 1 0\n", 10, 5000, 31, "s SATISFIABLE\nv -1 0\nr 0 0 0 0\n");
    /* the longest valuation, and as many clauses as there are places */
    char *many = malloc(32768);
    size_t at = (size_t)sprintf(many, "p cnf 64 1024\n");
    for (int i = 0; i < 1024; i++) at += (size_t)sprintf(many + at, "%d -%d 0\n", i % 64 + 1, (i + 1 + i / 64) % 64 + 1);
    uint8_t out[512];
    int64_t n = yurqobal_answer((const uint8_t *)many, at, out, sizeof out);
    cases++;
    if (n < 0 || memcmp(out, "s SATISFIABLE\nv -1 -2", 21)) {
        wrong++;
        printf("many clauses: %lld [%.*s]\n", (long long)n, n > 0 ? (int)n : 0, (const char *)out);
    }
    free(many);
    printf("%d calls, %d wrong\n", cases, wrong);
    return wrong != 0;
}
