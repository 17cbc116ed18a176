// Walks a matrix of 64 rows, each of which is a page, reading one number of each 64 bytes: row by row, or with -DCOLUMNS column by
// column. It needs no library, so that lackey shows little else:
//
//     gcc -O1 -static -nostdlib -fno-stack-protector -fno-tree-vectorize -fno-pie -no-pie [-DCOLUMNS] matrix.c
enum { ROWS = 64, LINES = 64, STEP = 16 };
static volatile int matrix[ROWS][LINES * STEP] __attribute__((aligned(4096)));

void _start(void) {
    for (int outer = 0; outer < 64; outer++) {
        for (int inner = 0; inner < 64; inner++) {
#ifdef COLUMNS
            (void)matrix[inner][outer * STEP];
#else
            (void)matrix[outer][inner * STEP];
#endif
        }
    }
    __asm__ volatile("syscall" : : "a"(60), "D"(0) : "rcx", "r11", "memory");
    __builtin_unreachable();
}
