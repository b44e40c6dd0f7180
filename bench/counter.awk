# Prints a C program that makes the steps of a counter with DIGITS binary digits, a statement for each line of its equations.
BEGIN {
    print "#include <stdio.h>"
    print "#include <stdlib.h>"
    print "#include <time.h>"
    printf "static unsigned short digit[%d], after[%d];\n", DIGITS, DIGITS
    printf "static unsigned char bit[%d];\n", 2 * DIGITS + 1
    print "__attribute__((noinline)) static int step(int input)\n{"
    print "    bit[0] = input;"
    for (k = 0; k < DIGITS; k++) {
        printf "    bit[%d] = digit[%d] == 1;\n", 2 * k + 1, k
        printf "    bit[%d] = bit[%d] & bit[%d];\n", 2 * k + 2, 2 * k, 2 * k + 1
        printf "    after[%d] = bit[%d] ? 0 : bit[%d] ? 1 : digit[%d];\n", k, 2 * k + 2, 2 * k, k
    }
    printf "    for (int k = 0; k < %d; k++)\n        digit[k] = after[k];\n", DIGITS
    printf "    return bit[%d];\n}\n", 2 * DIGITS
    print "int main(int count, char **words)\n{"
    print "    int steps = count > 1 ? atoi(words[1]) : 20, carries = 0;"
    print "    struct timespec start, end;"
    print "    clock_gettime(CLOCK_MONOTONIC, &start);"
    print "    for (int k = 0; k < steps; k++)\n        carries += step(1);"
    print "    clock_gettime(CLOCK_MONOTONIC, &end);"
    print "    double time = (end.tv_sec - start.tv_sec) * 1e6 + (end.tv_nsec - start.tv_nsec) / 1e3;"
    printf "    printf(\"counter %d: %%d steps, %%d carries, %%.0f microseconds\\n\", steps, carries, time);\n", DIGITS
    print "    return 0;\n}"
}
