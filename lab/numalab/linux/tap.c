// ---- the Test Anything Protocol, on standard output

static unsigned reported, failures;

static void plan(unsigned count)
{
    printf("1..%u\n", count);
    fflush(stdout);
}

static void remark(const char *what)
{
    printf("# %s\n", what);
    fflush(stdout);
}

static void pass(const char *name)
{
    printf("ok %u - %s\n", ++reported, name);
    fflush(stdout);
}

static void fail(const char *name)
{
    failures++;
    printf("not ok %u - %s\n", ++reported, name);
    fflush(stdout);
}

static void skip(const char *name, const char *why)
{
    printf("ok %u - %s # SKIP %s\n", ++reported, name, why);
    fflush(stdout);
}

static void skip_all(const char *why)
{
    printf("1..0 # SKIP %s\n", why);
    fflush(stdout);
    exit(0);
}

static void finish(void)
{
    exit(failures != 0);
}

int main(void)
{
    printf("TAP version 13\n");
    fflush(stdout);
    run_test();
    finish();
}
