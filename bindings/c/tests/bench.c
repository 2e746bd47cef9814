/* What a call costs: bench TREE FOLDER ROUNDS
 *
 * Lines that force nothing, a line at a time, by rstar_node_line; and of each, the nanoseconds of a call, the least of
 * fifty runs, and how many allocations a call asks for. */
#include "rstar.h"
#include "faults.h"
#include <stdio.h>
#include <stdlib.h>
#include <string.h>
#include <time.h>

static double now(void)
{
    struct timespec t;
    clock_gettime(CLOCK_MONOTONIC, &t);
    return (double)t.tv_sec + (double)t.tv_nsec / 1e9;
}

int main(int argc, char **argv)
{
    static char tree[4096], room[1 << 16], path[600];
    static const char *const lines[] = { "", "doubt", "ask a1.77", "outcome a1.77", "status", "help", "junk", "begin pa" };
    rstar_node node = RSTAR_NODE_NONE;
    FILE *f;
    size_t tree_size, size, i;
    int rounds, run, k;
    if (argc != 4)
        return 2;
    f = fopen(argv[1], "rb");
    tree_size = f ? fread(tree, 1, sizeof tree, f) : 0;
    if (f)
        fclose(f);
    sprintf(path, "%.500s/1.log", argv[2]);
    rounds = atoi(argv[3]);
    if (rstar_node_open(tree, tree_size, 1, path, strlen(path), RSTAR_NEW, &node) != RSTAR_DONE)
        return 1;
    for (i = 0; i < sizeof lines / sizeof *lines; i++) {
        double least = 1e9;
        unsigned long before = allocations(), count;
        for (run = 0; run < 50; run++) {
            double from = now(), took;
            for (k = 0; k < rounds; k++)
                if (rstar_node_line(&node, lines[i], strlen(lines[i]), room, sizeof room, &size) != RSTAR_DONE)
                    return 1;
            took = (now() - from) / rounds * 1e9;
            least = took < least ? took : least;
        }
        count = allocations() - before;
        printf("%-14s %8.0f ns %8.2f allocations\n", lines[i], least, (double)count / (50.0 * rounds));
    }
    return rstar_node_close(&node) == RSTAR_DONE ? 0 : 1;
}
