/* Calls every function of suongkivat.h with good and with bad input, and holds the answers to document 01: its marked cases, its
   refusals in their order, and zeros beside each; and to document 02: which record of a map is bad, where a line record comes from, and
   what lies inside a block's own length. Ends 'N checks, M failed'. */
#include "check.h"
#include <stdio.h>

static int done, failed;

void check(int good, const char *file, int line, const char *what)
{
    done++;
    if (!good) {
        failed++;
        printf("%s:%d: not so: %s\n", file, line, what);
    }
}

int main(void)
{
    sizes();
    fields();
    edges();
    lengths();
    maps();
    records();
    lines();
    sources();
    s2();
    c6();
    curves();
    logs();
    printf("%d checks, %d failed\n", done, failed);
    return failed == 0 ? 0 : 1;
}
