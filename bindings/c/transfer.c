/* Two accounts in two SQLite files of this program, and a transfer between them that is made in both or in neither,
 * with a coordinator of the library linked in: transfer FOLDER
 *
 * The root of the tree is a node of the library. Each file is a leaf, with a dozen lines of code: a promise is a row
 * that is committed before the leaf votes YES, and outlives a crash; the outcome moves the money and takes the row away.
 * A child makes a transfer and is killed in the midst of it, after the decision; the parent opens all again. */
#include "rstar.h"
#include <signal.h>
#include <sqlite3.h>
#include <stdio.h>
#include <stdlib.h>
#include <string.h>
#include <sys/types.h>
#include <sys/wait.h>
#include <unistd.h>

static const char TREE[] = "[[process]]\nid = 1\nkind = \"coordinator\"\n"
                           "[[process]]\nid = 2\nkind = \"manager\"\nparent = 1\n"
                           "[[process]]\nid = 3\nkind = \"manager\"\nparent = 1\n";

static rstar_node root = RSTAR_NODE_NONE;
static sqlite3 *files[4]; /* of leaf 2 and leaf 3 */
static int boots[4], tickets[4];
static char cases[4][64]; /* the case of the transaction at each leaf */
static char begun[64], told[64];
static int deaths; /* the program dies after N outcomes that a leaf obeyed; 0: it does not */

static void fail(const char *what, const char *why)
{
    fprintf(stderr, "%s: %s\n", what, why);
    exit(1);
}

/* Runs a statement with a text and a number, and gives its first number, or 0. */
static int run(int leaf, const char *statement, const char *text, int number)
{
    sqlite3_stmt *made;
    int first = 0, step;
    if (sqlite3_prepare_v2(files[leaf], statement, -1, &made, 0) != SQLITE_OK)
        fail(statement, sqlite3_errmsg(files[leaf]));
    if (sqlite3_bind_parameter_count(made) > 0)
        sqlite3_bind_text(made, 1, text, -1, SQLITE_TRANSIENT);
    if (sqlite3_bind_parameter_count(made) > 1)
        sqlite3_bind_int(made, 2, number);
    step = sqlite3_step(made);
    if (step == SQLITE_ROW)
        first = sqlite3_column_int(made, 0);
    else if (step != SQLITE_DONE)
        fail(statement, sqlite3_errmsg(files[leaf]));
    sqlite3_finalize(made);
    return first;
}

static void tell(const char *line);

/* A line from a leaf to the root. */
static void answer(int leaf, const char *message, const char *name, const char *more)
{
    char line[200];
    sprintf(line, "0 %d->1 %.20s %.100s%.40s", leaf, message, name, more);
    tell(line);
}

/* What a leaf makes of a message. */
static void hear(int leaf, const char *message, const char *name)
{
    char more[32];
    if (!strcmp(message, "JOIN")) {
        sprintf(more, " %d.%d.%d", leaf, boots[leaf], ++tickets[leaf]);
        sprintf(cases[leaf], "%s@%s", name, more + 1);
        answer(leaf, "JOINED", name, more);
    } else if (!strcmp(message, "PREPARE")) {
        /* What it promises was written and committed by promise(); a case without a promise has changed nothing. */
        if (run(leaf, "SELECT count(*) FROM promised WHERE name = ?", name, 0))
            answer(leaf, "YES", name, "");
        else
            answer(leaf, "NO", name, "");
    } else if (!strcmp(message, "COMMIT") || !strcmp(message, "ABORT")) {
        int commits = message[0] == 'C';
        run(leaf, "BEGIN IMMEDIATE", "", 0);
        if (commits)
            run(leaf, "UPDATE account SET balance = balance + coalesce((SELECT amount FROM promised WHERE name = ?), 0)",
                name, 0);
        run(leaf, "DELETE FROM promised WHERE name = ?", name, 0);
        run(leaf, "COMMIT", "", 0);
        if (deaths > 0 && --deaths == 0)
            raise(SIGKILL);
        answer(leaf, "ACK", name, commits ? " commit" : " abort");
    }
}

/* Gives each message of an answer to the leaf that it is for. */
static void carry(char *text)
{
    char *line = text, *end;
    for (; *line; line = end + 1) {
        char message[16], name[100];
        int from, to;
        end = strchr(line, '\n');
        if (!end)
            break;
        *end = 0;
        if (sscanf(line, "begin %60s", name) == 1)
            strcpy(begun, name);
        if (sscanf(line, "told %*s %60s", name) == 1)
            strcpy(told, name);
        if (sscanf(line, "%*d %d->%d %15s %99s", &from, &to, message, name) == 4)
            hear(to, message, name);
    }
}

/* Gives the root a line, and what it sends to the leaves. */
static void tell(const char *line)
{
    char room[4096];
    size_t size;
    unsigned int why = rstar_node_line(&root, line, strlen(line), room, sizeof room - 1, &size);
    if (why != RSTAR_DONE || size >= sizeof room) {
        fprintf(stderr, "%s: %u\n", line, why);
        exit(1);
    }
    room[size] = 0;
    printf("> %s\n%s", line, room);
    carry(room);
}

static void open_leaf(const char *folder, int leaf, int balance)
{
    char path[500];
    sprintf(path, "%s/%d.sqlite", folder, leaf);
    if (sqlite3_open(path, &files[leaf]) != SQLITE_OK)
        fail(path, sqlite3_errmsg(files[leaf]));
    run(leaf, "PRAGMA synchronous = FULL", "", 0);
    run(leaf, "CREATE TABLE IF NOT EXISTS account (balance INTEGER CHECK (balance >= 0))", "", 0);
    run(leaf, "CREATE TABLE IF NOT EXISTS promised (name TEXT PRIMARY KEY, amount INTEGER)", "", 0);
    run(leaf, "CREATE TABLE IF NOT EXISTS boot (number INTEGER)", "", 0);
    if (!run(leaf, "SELECT count(*) FROM account", "", 0))
        run(leaf, "INSERT INTO account SELECT ?2 WHERE ?1 = ''", "", balance);
    run(leaf, "INSERT INTO boot SELECT 1 + coalesce(max(number), 0) FROM boot", "", 0);
    boots[leaf] = run(leaf, "SELECT max(number) FROM boot", "", 0);
}

/* Asks for the outcome of each promise that an earlier run left. */
static void ask_of_promises(int leaf)
{
    sqlite3_stmt *made;
    char names[8][100];
    int count = 0, i;
    sqlite3_prepare_v2(files[leaf], "SELECT name FROM promised LIMIT 8", -1, &made, 0);
    while (sqlite3_step(made) == SQLITE_ROW)
        strcpy(names[count++], (const char *)sqlite3_column_text(made, 0));
    sqlite3_finalize(made);
    for (i = 0; i < count; i++)
        answer(leaf, "INQUIRE", names[i], "");
}

static void open_all(const char *folder, unsigned int how)
{
    char path[500], room[4096];
    size_t size;
    unsigned int why;
    open_leaf(folder, 2, 100);
    open_leaf(folder, 3, 20);
    sprintf(path, "%s/1.log", folder);
    why = rstar_node_open(TREE, sizeof TREE - 1, 1, path, strlen(path), how, &root);
    if (why != RSTAR_DONE) {
        fprintf(stderr, "%s: %u\n", path, why);
        exit(1);
    }
    rstar_node_answer(&root, room, sizeof room - 1, &size);
    room[size] = 0;
    printf("> the root opens\n%s", room);
    carry(room);
    ask_of_promises(2);
    ask_of_promises(3);
}

static void close_all(void)
{
    unsigned int why = rstar_node_close(&root);
    if (why != RSTAR_DONE)
        fprintf(stderr, "the root was not closed: %u\n", why);
    sqlite3_close(files[2]);
    sqlite3_close(files[3]);
}

/* Promises to add an amount, if the account allows it. */
static void promise(int leaf, int amount)
{
    run(leaf, "INSERT INTO promised SELECT ?1, ?2 FROM account WHERE balance + ?2 >= 0", cases[leaf], amount);
}

static void transfer(int amount)
{
    char line[100];
    tell("begin pa");
    sprintf(line, "join %s 2", begun);
    tell(line);
    sprintf(line, "join %s 3", begun);
    tell(line);
    promise(2, -amount);
    promise(3, amount);
    sprintf(line, "commit %s", begun);
    tell(line);
}

static void expect(int two, int three, const char *when)
{
    int left = run(2, "SELECT balance FROM account", "", 0), right = run(3, "SELECT balance FROM account", "", 0);
    printf("%s: %d and %d\n", when, left, right);
    if (left != two || right != three)
        fail(when, "the accounts are wrong");
}

int main(int argc, char **argv)
{
    pid_t child;
    int status;
    if (argc != 2)
        fail("transfer", "name a folder");
    fflush(stdout);
    child = fork();
    if (child == 0) {
        open_all(argv[1], RSTAR_NEW);
        transfer(30);
        expect(70, 50, "after a transfer");
        deaths = 1;
        fflush(stdout);
        transfer(25); /* it is decided, and one leaf has obeyed, when the program dies */
        return 1;
    }
    waitpid(child, &status, 0);
    if (!WIFSIGNALED(status) || WTERMSIG(status) != SIGKILL)
        fail("the child", "it was not killed");
    printf("killed\n");
    open_all(argv[1], RSTAR_EXISTING);
    expect(45, 75, "after the crash and the recovery");
    transfer(500); /* more than there is: leaf 2 votes NO */
    expect(45, 75, "after a transfer that cannot be");
    if (strcmp(told, "aborted"))
        fail("the transfer", told);
    close_all();
    return 0;
}
