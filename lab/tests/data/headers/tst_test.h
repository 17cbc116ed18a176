// What exported tests use of the library of the Linux Test Project, as its documentation says it: for tests of the export alone.
#include <stdio.h>
#include <stdlib.h>

enum { TPASS, TFAIL, TCONF, TINFO };

struct tst_test {
    void (*test_all)(void);
    int forks_child, timeout;
};

static struct tst_test test;
static int tst_failures;

#define tst_res(kind, ...)                                                                                      \
    (tst_failures += (kind) == TFAIL, printf("%s: ", ((const char *[]){"TPASS", "TFAIL", "TCONF", "TINFO"})[kind]), \
     printf(__VA_ARGS__), printf("\n"), fflush(stdout))
#define tst_brk(kind, ...) (tst_res(kind, __VA_ARGS__), exit(32))

int main(void)
{
    test.test_all();
    return tst_failures != 0;
}
