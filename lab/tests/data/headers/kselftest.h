// What exported tests use of the header of the kernel's tests, as its documentation says it: for tests of the export alone.
#include <stdio.h>
#include <stdlib.h>

enum { KSFT_PASS = 0, KSFT_FAIL = 1, KSFT_SKIP = 4 };
static unsigned ksft_count, ksft_plan, ksft_failures;

static inline void ksft_print_header(void)
{
    setvbuf(stdout, NULL, _IOLBF, 0);
    printf("TAP version 13\n");
}

static inline void ksft_set_plan(unsigned count)
{
    printf("1..%u\n", ksft_plan = count);
}

#define ksft_print_msg(...) (printf("# "), printf(__VA_ARGS__))
#define ksft_test_result_pass(...) (printf("ok %u ", ++ksft_count), printf(__VA_ARGS__))
#define ksft_test_result_fail(...) (ksft_failures++, printf("not ok %u ", ++ksft_count), printf(__VA_ARGS__))
#define ksft_test_result_skip(...) (printf("ok %u # SKIP ", ++ksft_count), printf(__VA_ARGS__))
#define ksft_exit_skip(...) (printf("1..0 # SKIP "), printf(__VA_ARGS__), exit(KSFT_SKIP))

static inline void ksft_finished(void)
{
    exit(ksft_failures || ksft_count != ksft_plan ? KSFT_FAIL : KSFT_PASS);
}
