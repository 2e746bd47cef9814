/* Faults of the system, made for tests: linked by --wrap, so that calls of the library alone fail. */
#ifndef FAULTS_H
#define FAULTS_H

/* The next call of this name fails, with this reason; each does, until another name, or null, is given. */
void fail_next(const char *call, int reason);

/* The allocation with this number from now on is refused, and those after it are not; 0: none. Tells whether one was. */
int refuse_malloc(int number);

/* How many allocations were asked for so far. */
unsigned long allocations(void);

#endif
