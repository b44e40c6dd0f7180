/* The pairwise equality function of N pairs in BuDDy: all first variables before all second ones, built pair by pair. */
#include <bdd.h>
#include <stdio.h>
#include <stdlib.h>
#include <time.h>

static double microseconds(void)
{
    struct timespec now;
    clock_gettime(CLOCK_MONOTONIC, &now);
    return now.tv_sec * 1e6 + now.tv_nsec / 1e3;
}

int main(int count, char **words)
{
    int pairs = count > 1 ? atoi(words[1]) : 4;
    bdd_init(1000000, 65536);
    bdd_gbc_hook(NULL);
    bdd_setvarnum(2 * pairs);
    double start = microseconds();
    BDD all = bddtrue;
    for (int k = 0; k < pairs; k++) {
        BDD same = bdd_addref(bdd_biimp(bdd_ithvar(k), bdd_ithvar(pairs + k)));
        BDD more = bdd_addref(bdd_and(all, same));
        bdd_delref(all);
        bdd_delref(same);
        all = more;
    }
    double end = microseconds();
    printf("pairs %d: %d nodes, %.0f microseconds\n", pairs, bdd_nodecount(all), end - start);
    bdd_done();
    return 0;
}
