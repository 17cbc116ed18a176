// ---- a test of the Linux Test Project, by its new library
#include "tst_test.h"

static void plan(unsigned count)
{
    (void)count;
}

static void remark(const char *what)
{
    tst_res(TINFO, "%s", what);
}

static void pass(const char *name)
{
    tst_res(TPASS, "%s", name);
}

static void fail(const char *name)
{
    tst_res(TFAIL, "%s", name);
}

static void skip(const char *name, const char *why)
{
    tst_res(TCONF, "%s: %s", name, why);
}

static void skip_all(const char *why)
{
    tst_brk(TCONF, "%s", why);
    exit(0);
}

static void finish(void)
{
    exit(0);
}

static struct tst_test test = {
    .test_all = run_test,
    .forks_child = 1,
    .timeout = 300,
};
