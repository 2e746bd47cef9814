/* Opens two nodes in a child, has it commit until it is killed (SIGKILL), and opens them again: kills TREE FOLDER ROUNDS
 *
 * The child tells each transaction that was told committed. The kill comes at a random time after none to three of them.
 * What was told committed is committed for ever: each opening after a kill asks the root's log for it. At the end
 * nothing is in doubt. */
#include "rstar.h"
#include <signal.h>
#include <stdio.h>
#include <stdlib.h>
#include <string.h>
#include <sys/types.h>
#include <sys/wait.h>
#include <unistd.h>

static char tree[4096], path[3][600], begun[64], committed[64];
static size_t tree_size;
static rstar_node node[3];

static void stop(const char *what, unsigned int why)
{
    fprintf(stderr, "%s: %u\n", what, why);
    _exit(9);
}

static void tell(int p, const char *line);

/* Gives each message of an answer to the node that it is for. */
static void carry(char *text)
{
    char *line = text, *end;
    for (; (end = strchr(line, '\n')) != 0; line = end + 1) {
        int to;
        *end = 0;
        sscanf(line, "begin %60s", begun);
        if (strstr(line, "told ") && strstr(line, " committed"))
            sscanf(line, "told %60s", committed);
        if (sscanf(line, "%*d %*d->%d", &to) == 1)
            tell(to, line);
    }
}

static void tell(int p, const char *line)
{
    char room[1 << 14];
    size_t size = 0;
    unsigned int why = rstar_node_line(&node[p], line, strlen(line), room, sizeof room - 1, &size);
    if (why != RSTAR_DONE || size >= sizeof room)
        stop(line, why);
    room[size] = 0;
    carry(room);
}

/* Opens both, and then hands round what they say. */
static void open_both(unsigned int how)
{
    static char later[3][1 << 14];
    size_t size;
    int p;
    for (p = 1; p <= 2; p++) {
        unsigned int why = rstar_node_open(tree, tree_size, (unsigned int)p, path[p], strlen(path[p]), how, &node[p]);
        if (why == RSTAR_MISSING)
            why = rstar_node_open(tree, tree_size, (unsigned int)p, path[p], strlen(path[p]), RSTAR_NEW, &node[p]);
        if (why != RSTAR_DONE)
            stop("open", why);
        rstar_node_answer(&node[p], later[p], sizeof later[p] - 1, &size);
        later[p][size] = 0;
    }
    carry(later[1]);
    carry(later[2]);
}

static void close_both(void)
{
    int p;
    for (p = 1; p <= 2; p++) {
        unsigned int why = rstar_node_close(&node[p]);
        if (why != RSTAR_DONE)
            stop("close", why);
    }
}

/* Whether the root's log tells that this committed; a trim takes what has ended. */
static int is_committed(const char *name)
{
    char line[100], room[200];
    size_t size = 0;
    sprintf(line, "outcome %.60s", name);
    if (rstar_node_line(&node[1], line, strlen(line), room, sizeof room - 1, &size) != RSTAR_DONE)
        stop(line, 0);
    room[size] = 0;
    return strstr(room, " committed") != 0;
}

static void work(int out)
{
    unsigned long i;
    char line[100];
    for (i = 0;; i++) {
        committed[0] = 0;
        tell(1, "begin pa");
        sprintf(line, "join %.60s 2", begun);
        tell(1, line);
        sprintf(line, "work %.60s 2 put x%lu 1", begun, i % 10);
        tell(1, line);
        sprintf(line, "commit %.60s", begun);
        tell(1, line);
        if (strlen(committed) > 0 && write(out, committed, 64) != 64)
            _exit(8);
    }
}

int main(int argc, char **argv)
{
    FILE *f;
    int rounds, round, wait, pipes[2], status, p;
    unsigned long all = 0, checked = 0;
    char name[64], last[64] = "";
    if (argc != 4)
        return 2;
    f = fopen(argv[1], "rb");
    tree_size = f ? fread(tree, 1, sizeof tree, f) : 0;
    if (f)
        fclose(f);
    for (p = 1; p <= 2; p++)
        sprintf(path[p], "%.500s/%d.log", argv[2], p);
    rounds = atoi(argv[3]);
    srand(7);
    for (round = 0; round < rounds; round++) {
        pid_t child;
        if (pipe(pipes) < 0)
            return 3;
        child = fork();
        if (child == 0) {
            close(pipes[0]);
            open_both(RSTAR_EXISTING);
            if (*last) {
                if (!is_committed(last))
                    stop(last, 77);
                if (round % 20 == 0) {
                    tell(1, "trim");
                    tell(2, "trim");
                }
            }
            memset(name, 0, sizeof name);
            if (write(pipes[1], name, 64) != 64)
                _exit(8);
            work(pipes[1]);
        }
        close(pipes[1]);
        if (read(pipes[0], name, 64) != 64) {
            waitpid(child, &status, 0);
            fprintf(stderr, "round %d: the child ended by itself: %d\n", round, status);
            return 4;
        }
        checked += *last != 0;
        last[0] = 0;
        for (wait = rand() % 4; wait > 0 && read(pipes[0], name, 64) == 64; wait--) {
            all++;
            memcpy(last, name, 64);
        }
        usleep((useconds_t)(rand() % 4000));
        kill(child, SIGKILL);
        waitpid(child, &status, 0);
        if (!WIFSIGNALED(status)) {
            fprintf(stderr, "round %d: the child ended by itself: %d\n", round, status);
            return 5;
        }
        while (read(pipes[0], name, 64) == 64) {
            all++;
            memcpy(last, name, 64);
        }
        close(pipes[0]);
    }
    open_both(RSTAR_EXISTING);
    tell(1, "doubt");
    for (p = 1; p <= 2; p++) {
        char room[400];
        size_t size = 0;
        unsigned int why = rstar_node_line(&node[p], "doubt", 5, room, sizeof room, &size);
        if (why != RSTAR_DONE || size != 3) {
            fprintf(stderr, "process %d: %u, and in doubt: %.*s", p, why, (int)size, room);
            return 6;
        }
    }
    close_both();
    printf("%d kills; %lu transactions were told committed, %lu of them asked for after the kill; nothing is in doubt\n",
           rounds, all, checked);
    return 0;
}
