/* Preloaded, it refuses one allocation, once: the nth after a malloc of REFUSE + n bytes, or of all, where the environment has
   REFUSE=n; then it writes a byte to descriptor 9. A malloc of WAS_REFUSED bytes is refused just where one was refused. */
typedef unsigned long size;
extern void *__libc_malloc(size);
extern void *__libc_realloc(void *, size);
extern long write(int, const void *, size);
extern char **environ;
enum { ROOM = 16 };
#define REFUSE 0x5EED00000UL
#define WAS_REFUSED 0x5EEC00000UL
static size left, was_refused, tells;
static int refuses(void) {
    if (left == 0 || --left > 0) return 0;
    was_refused = 1;
    if (tells) write(9, "!", 1);
    return 1;
}
void *malloc(size n) {
    if (n == WAS_REFUSED) return was_refused ? 0 : __libc_malloc(ROOM);
    if (n >= REFUSE && n < REFUSE + (1UL << 24)) { left = n - REFUSE; was_refused = 0; return __libc_malloc(ROOM); }
    return refuses() ? 0 : __libc_malloc(n);
}
void *realloc(void *p, size n) { return refuses() ? 0 : __libc_realloc(p, n); }
__attribute__((constructor)) static void start(void) {
    for (char **v = environ; *v; v++) {
        const char *name = "REFUSE=", *text = *v;
        while (*name && *text == *name) name++, text++;
        if (*name) continue;
        for (tells = 1, left = 0; *text >= '0' && *text <= '9'; text++) left = left * 10 + (size)(*text - '0');
    }
}
