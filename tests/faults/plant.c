/*
 * Plants a fault at a program's edge, by its calls. Preloaded before stop.c and refuse.c. PLANT in the environment is one of:
 *   held_early       what it writes to files and syncs is held back until behind its next line of output, or its next read of a file
 *   lost_is_held     a reply that says that a delivery was lost says that it is held
 *   drops_a_report   behind the first line `refused NoMemory` the next report is left out
 *   cut_reply        a reply of the service lacks its last byte
 *   is_not_kept      a service writes nothing into files, and says that it did
 *   drops_a_lack     a line that says what a run waits for is left out
 */
#define _GNU_SOURCE
#include <dlfcn.h>
#include <fcntl.h>
#include <stdio.h>
#include <stdlib.h>
#include <string.h>
#include <sys/socket.h>
#include <unistd.h>

#define REAL(name, type) static type real; if (real == NULL) real = (type)dlsym(RTLD_NEXT, name)
typedef ssize_t (*reads)(int, void *, size_t);
typedef ssize_t (*takes)(int, void *, size_t, int);
typedef ssize_t (*writes)(int, const void *, size_t);
typedef ssize_t (*sends)(int, const void *, size_t, int);
typedef ssize_t (*reads_at)(int, void *, size_t, off64_t);
typedef ssize_t (*writes_at)(int, const void *, size_t, off64_t);
typedef int (*syncs)(int);
typedef int (*cuts)(int, off64_t);
typedef int (*listens)(int, int);

enum kind { WRITE, SYNC, CUT };
static struct { enum kind kind; int fd; char *bytes; size_t n; off64_t place; } back[4096];
static int backs, serves;
static char taken[1 << 20];
static size_t taken_bytes;

static int planted(const char *name)
{
    const char *plant = getenv("PLANT");
    return plant != NULL && strcmp(plant, name) == 0;
}

static void hold_back(enum kind kind, int fd, const void *bytes, size_t n, off64_t place);

/* Does what was held back. */
static void catch_up(void)
{
    static writes_at write_at;
    static syncs sync;
    static cuts cut;
    if (write_at == NULL) {
        write_at = (writes_at)dlsym(RTLD_NEXT, "pwrite");
        sync = (syncs)dlsym(RTLD_NEXT, "fdatasync");
        cut = (cuts)dlsym(RTLD_NEXT, "ftruncate");
    }
    for (int i = 0; i < backs; i++) {
        if (back[i].kind == WRITE)
            (void)!write_at(back[i].fd, back[i].bytes, back[i].n, back[i].place);
        else if (back[i].kind == SYNC)
            (void)sync(back[i].fd);
        else
            (void)!cut(back[i].fd, back[i].place);
        free(back[i].bytes);
    }
    backs = 0;
}

static void hold_back(enum kind kind, int fd, const void *bytes, size_t n, off64_t place)
{
    if (backs == 4096)
        catch_up();
    char *copy = malloc(n + 1);
    if (n > 0)
        memcpy(copy, bytes, n);
    back[backs].kind = kind;
    back[backs].fd = fd;
    back[backs].bytes = copy;
    back[backs].n = n;
    back[backs].place = place;
    backs++;
}

static void note_input(const void *from, ssize_t n)
{
    if (n > 0 && taken_bytes + (size_t)n < sizeof taken) {
        memcpy(taken + taken_bytes, from, (size_t)n);
        taken_bytes += (size_t)n;
    }
}

/* Writes the line that says that message number `at` of the input, from 0, is held. */
static int held_line(char *to, size_t room, int at)
{
    char sender[64];
    int number;
    const char *place = taken;
    for (int i = 0; (place = strstr(place, "From: ")) != NULL; i++, place++)
        if (i == at && sscanf(place, "From: %63s\nNumber: %d", sender, &number) == 2)
            return snprintf(to, room, "held %s %d\n", sender, number);
    return 0;
}

static int begins(const char *line, const char *word)
{
    return strncmp(line, word, strlen(word)) == 0;
}

/* The output with its fault planted. */
static size_t change(const char *from, size_t n, char *to, size_t room)
{
    size_t length = 0;
    int replies = 1, at = 0, refused = 0, left_out = 0, leaves_out = 0;
    const char *end = from + n;
    for (const char *line = from; line < end; at++) {
        const char *next = memchr(line, '\n', (size_t)(end - line));
        next = next ? next + 1 : end;
        int lost = begins(line, "refused NoMemory\n") || begins(line, "refused Store\n");
        int head = begins(line, "excuses ") || begins(line, "update ") || begins(line, "testing ");
        if (begins(line, "ready ") || head)
            replies = 0;
        if (head)
            leaves_out = planted("drops_a_report") && refused && !left_out && !begins(line, "testing ");
        left_out |= leaves_out;
        int lack = begins(line, "run ") && planted("drops_a_lack");
        refused |= begins(line, "refused NoMemory\n");
        int told = replies && lost && planted("lost_is_held") ? held_line(to + length, room - length, at) : 0;
        if (told > 0) {
            length += (size_t)told;
        } else if (!leaves_out && !lack) {
            memcpy(to + length, line, (size_t)(next - line));
            length += (size_t)(next - line);
        }
        line = next;
    }
    return length;
}

ssize_t read(int fd, void *to, size_t n)
{
    REAL("read", reads);
    ssize_t got = real(fd, to, n);
    if (fd == 0)
        note_input(to, got);
    return got;
}

ssize_t recv(int fd, void *to, size_t n, int how)
{
    REAL("recv", takes);
    ssize_t got = real(fd, to, n, how);
    note_input(to, got);
    return got;
}

ssize_t write(int fd, const void *from, size_t n)
{
    static char changed[1 << 20];
    REAL("write", writes);
    if (fd != 1 || n >= sizeof changed / 2)
        return real(fd, from, n);
    size_t length = change(from, n, changed, sizeof changed);
    ssize_t done = real(fd, changed, length);
    catch_up();
    return done == (ssize_t)length ? (ssize_t)n : done;
}

/* The connection to which another reply was written than the program's. */
static int answered = -1;

/* A reply goes out in pieces, of which the second is its status, and the last one the line end of its text. */
ssize_t send(int fd, const void *from, size_t n, int how)
{
    char line[128], reply[512];
    const char *piece = from;
    REAL("send", sends);
    if (fd == answered)
        return (ssize_t)n;
    int told = n == 3 && piece[0] == '5' && planted("lost_is_held") ? held_line(line, sizeof line, 0) : 0;
    if (told > 0) {
        int length = snprintf(reply, sizeof reply, "200 OK\r\nContent-Type: text/plain; charset=utf-8\r\n"
            "Content-Length: %d\r\nConnection: close\r\n\r\n%s", told, line);
        answered = fd;
        return real(fd, reply, (size_t)length, how) == length ? (ssize_t)n : -1;
    }
    if (n == 1 && piece[0] == '\n' && planted("cut_reply"))
        return 1;
    ssize_t done = real(fd, from, n, how);
    catch_up();
    return done;
}

int listen(int fd, int waiting)
{
    REAL("listen", listens);
    serves = 1;
    return real(fd, waiting);
}

ssize_t pread(int fd, void *to, size_t n, off64_t place)
{
    REAL("pread", reads_at);
    catch_up();
    return real(fd, to, n, place);
}

ssize_t pwrite(int fd, const void *from, size_t n, off64_t place)
{
    REAL("pwrite", writes_at);
    if (planted("is_not_kept") && serves)
        return (ssize_t)n;
    if (!planted("held_early"))
        return real(fd, from, n, place);
    hold_back(WRITE, fd, from, n, place);
    return (ssize_t)n;
}

static int may_sync(int fd, syncs real)
{
    if (!planted("held_early"))
        return real(fd);
    hold_back(SYNC, fd, NULL, 0, 0);
    return 0;
}

int fsync(int fd) { REAL("fsync", syncs); return may_sync(fd, real); }
int fdatasync(int fd) { REAL("fdatasync", syncs); return may_sync(fd, real); }

int ftruncate(int fd, off64_t n)
{
    REAL("ftruncate", cuts);
    if (!planted("held_early"))
        return real(fd, n);
    hold_back(CUT, fd, NULL, 0, n);
    return 0;
}

int close(int fd)
{
    REAL("close", syncs);
    catch_up();
    if (serves) {
        memset(taken, 0, taken_bytes);
        taken_bytes = 0;
        answered = -1;
    }
    return real(fd);
}
