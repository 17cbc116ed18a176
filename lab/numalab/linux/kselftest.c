// ---- a test of the kernel's own, by its header: the file's place is a folder of tools/testing/selftests
#include "../kselftest.h"

static void plan(unsigned count)
{
    ksft_set_plan(count);
}

static void remark(const char *what)
{
    ksft_print_msg("%s\n", what);
}

static void pass(const char *name)
{
    ksft_test_result_pass("%s\n", name);
}

static void fail(const char *name)
{
    ksft_test_result_fail("%s\n", name);
}

static void skip(const char *name, const char *why)
{
    ksft_test_result_skip("%s: %s\n", name, why);
}

static void skip_all(const char *why)
{
    ksft_exit_skip("%s\n", why);
    exit(KSFT_SKIP);
}

static void finish(void)
{
    ksft_finished();
    exit(KSFT_FAIL);
}

int main(void)
{
    ksft_print_header();
    run_test();
    finish();
}
