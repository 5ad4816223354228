/* hostile PROFILE REC KILOBYTES: calls of liba429 under hard conditions, for its tests. It refuses each allocation in turn, gives
 * buffers of every size from 0, and makes the calls in four threads at once, each with a stack of so many kilobytes. A line for each
 * kind; status 1 where an answer is another than that of a call with all it wants. */
#define _GNU_SOURCE
#include "a429.h"
#include <dlfcn.h>
#include <pthread.h>
#include <stdio.h>
#include <stdlib.h>
#include <string.h>

#define ROOM (1 << 20)
#define THREADS 4

static uint8_t profile[ROOM], recording[ROOM];
static size_t profile_len, recording_len;

/* ---- allocations: how many more are granted; none is counted where it is negative */

static long left = -1;

static int is_refused(void)
{
    if (left < 0)
        return 0;
    if (left == 0)
        return 1;
    left--;
    return 0;
}

void *malloc(size_t size)
{
    static void *(*real)(size_t);
    if (!real)
        real = (void *(*)(size_t))dlsym(RTLD_NEXT, "malloc");
    return is_refused() ? NULL : real(size);
}

void *realloc(void *old, size_t size)
{
    static void *(*real)(void *, size_t);
    if (!real)
        real = (void *(*)(void *, size_t))dlsym(RTLD_NEXT, "realloc");
    return is_refused() ? NULL : real(old, size);
}

/* ---- an answer, with all the room it wants */

typedef struct {
    uint8_t status;
    a429_found found;
    a429_file files[256];
    uint8_t bytes[ROOM], text[ROOM];
} answer;

enum { DECIDE, VERIFY, MAKE, SHOW, CALLS };

static const uint8_t *certificate = (const uint8_t *)"";
static size_t certificate_len;

/* makes a call with so much room in each buffer */
static void call(int which, answer *it, size_t files, size_t bytes, size_t text)
{
    static const size_t lengths[] = {3, 1};
    switch (which) {
    case DECIDE:
        it->status = a429_decide(profile, profile_len, recording, recording_len, it->files, files, it->bytes, bytes, it->text, text,
                                 &it->found);
        break;
    case VERIFY:
        it->status = a429_verify(profile, profile_len, recording, recording_len, certificate, certificate_len, it->files, files, it->bytes,
                                 bytes, it->text, text, &it->found);
        break;
    case MAKE: it->status = a429_make(profile, profile_len, (const uint8_t *)"abcd", 4, lengths, 2, it->text, text, &it->found); break;
    default: it->status = a429_show(profile, profile_len, recording, recording_len, it->text, text, &it->found);
    }
}

static answer *whole(int which)
{
    answer *it = calloc(1, sizeof *it);
    memset(it->files, 0xee, sizeof it->files);
    memset(it->bytes, 0xee, sizeof it->bytes);
    memset(it->text, 0xee, sizeof it->text);
    call(which, it, 256, ROOM, ROOM);
    return it;
}

static int is_same_found(const a429_found *a, const a429_found *b)
{
    return a->entry == b->entry && a->line == b->line && a->files == b->files && a->bytes == b->bytes && a->text == b->text
        && a->reason == b->reason;
}

static int is_same(const answer *a, const answer *b)
{
    return a->status == b->status && is_same_found(&a->found, &b->found) && !memcmp(a->files, b->files, sizeof a->files)
        && !memcmp(a->bytes, b->bytes, ROOM) && !memcmp(a->text, b->text, ROOM);
}

/* ---- the tests; each returns how many answers were wrong */

static long refused_allocations(int which, const answer *good)
{
    long wrong = 0, tries = 0;
    answer *it = calloc(1, sizeof *it);
    for (;; tries++) {
        left = tries;
        call(which, it, 256, ROOM, ROOM);
        int is_left = left > 0;
        left = -1;
        if (it->status != A429_MEMORY && it->status != good->status)
            wrong++;
        if (it->status != A429_MEMORY && (is_left || tries > 100000))
            break;
    }
    printf("call %d: %ld allocations refused in turn, %ld wrong\n", which, tries, wrong);
    free(it);
    return wrong;
}

/* a buffer of the caller, with bytes around it that have to stay; `most` is how much of it may be written */
static int is_kept(const uint8_t *buffer, size_t size, size_t room, size_t want, const uint8_t *good)
{
    size_t written = want <= room ? want : 0;
    for (size_t i = written; i < size; i++)
        if (buffer[i] != 0xee)
            return 0;
    return !memcmp(buffer, good, written);
}

static long every_size(int which, const answer *good)
{
    long wrong = 0, tries = 0;
    answer *it = calloc(1, sizeof *it);
    size_t most = good->found.text + 2;
    for (size_t text = 0; text <= most; text++) {
        size_t files = text % (good->found.files + 2), bytes = text % (good->found.bytes + 2);
        memset(it->files, 0xee, sizeof it->files);
        memset(it->bytes, 0xee, 4096);
        memset(it->text, 0xee, most + 16);
        call(which, it, files, bytes, text);
        tries++;
        if (it->status != good->status || !is_same_found(&it->found, &good->found)
            || !is_kept(it->text, most + 16, text, good->found.text, good->text)
            || !is_kept(it->bytes, 4096, bytes, good->found.bytes, good->bytes)
            || (files >= good->found.files && memcmp(it->files, good->files, good->found.files * sizeof *it->files)))
            wrong++;
    }
    printf("call %d: %ld sizes of buffers, %ld wrong\n", which, tries, wrong);
    free(it);
    return wrong;
}

typedef struct {
    const answer *good[CALLS];
    answer *own[CALLS];
    long wrong;
} job;

static void *in_thread(void *given)
{
    job *it = given;
    for (int turn = 0; turn < 8; turn++)
        for (int which = 0; which < CALLS; which++) {
            answer *own = it->own[which];
            memset(own->files, 0xee, sizeof own->files);
            memset(own->bytes, 0xee, ROOM);
            memset(own->text, 0xee, ROOM);
            call(which, own, 256, ROOM, ROOM);
            it->wrong += !is_same(own, it->good[which]);
        }
    return NULL;
}

static long threads(answer *const good[CALLS], size_t kilobytes)
{
    pthread_t made[THREADS];
    job jobs[THREADS];
    pthread_attr_t how;
    long wrong = 0;
    pthread_attr_init(&how);
    if (pthread_attr_setstacksize(&how, kilobytes << 10))
        return 1;
    for (int k = 0; k < THREADS; k++) {
        jobs[k].wrong = 0;
        for (int which = 0; which < CALLS; which++) {
            jobs[k].good[which] = good[which];
            jobs[k].own[which] = calloc(1, sizeof(answer));
        }
        if (pthread_create(&made[k], &how, in_thread, &jobs[k]))
            return 1;
    }
    for (int k = 0; k < THREADS; k++) {
        pthread_join(made[k], NULL);
        wrong += jobs[k].wrong;
        for (int which = 0; which < CALLS; which++)
            free(jobs[k].own[which]);
    }
    printf("%d threads with %zu KB of stack: %ld wrong\n", THREADS, kilobytes, wrong);
    return wrong;
}

static size_t content_of(const char *path, uint8_t *bytes)
{
    FILE *file = fopen(path, "rb");
    if (!file)
        exit(4);
    size_t length = fread(bytes, 1, ROOM, file);
    fclose(file);
    return length;
}

int main(int count, char **words)
{
    if (count != 4)
        return 5;
    profile_len = content_of(words[1], profile);
    recording_len = content_of(words[2], recording);
    answer *good[CALLS];
    long wrong = 0;
    good[DECIDE] = whole(DECIDE);
    certificate = good[DECIDE]->text;
    certificate_len = good[DECIDE]->status == A429_YES ? good[DECIDE]->found.text : 0;
    for (int which = VERIFY; which < CALLS; which++)
        good[which] = whole(which);
    for (int which = 0; which < CALLS; which++) {
        wrong += refused_allocations(which, good[which]);
        wrong += every_size(which, good[which]);
    }
    wrong += threads(good, (size_t)atol(words[3]));
    for (int which = 0; which < CALLS; which++)
        free(good[which]);
    return wrong != 0;
}
