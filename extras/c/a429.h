/* a429.h: the checker a429 on bytes in memory. Link with liba429.so or with liba429.a. Its page is LIBRARY.md.
 *
 * Each call takes what the program reads as files: the text of a profile, the bytes of a recording, a certificate. It answers a status
 * and the numbers of an a429_found, and puts what it has found into buffers of the caller.
 *
 * WHO OWNS WHAT. The caller owns every buffer. Nothing is kept, freed or handed out: a call reads what it is given and writes into the
 * buffers that it is given, and memory that it took it has given back when it returns.
 *
 * SLICES. A slice is a pointer and a length in elements. The pointer is never NULL, not even where the length is 0. What a call writes to
 * overlaps nothing else that it is given.
 *
 * SIZES. found->files, found->bytes and found->text say how much there is. Where a buffer has less room than that it is left as it
 * was, the others are filled all the same, and the status stays: call again with so much room. A call may be made with no room at all.
 *
 * THREADS. There is no global state: calls in any number of threads are independent. Not to be called from a signal handler, nor in
 * the forked child of a process with threads.
 *
 * MEMORY. It comes from malloc, realloc and free of the process. Where it is refused the status is A429_MEMORY.
 *
 * STACK. A call wants 256 KB of the thread's stack. That is measured, and not proved.
 *
 * ERRORS. A call never ends the process, throws, prints, opens a file, or sets errno. With A429_INPUT the text is the line that the
 * program writes to standard error, without its end, as "profile: missing transfer.to_sink".
 *
 * PROVED. Where a call answers 0, 1 or 2, there is such a verdict on these very bytes, and each number, and what a buffer holds that
 * has room, is its own. LIBRARY.md says this in full. That C passes the pointers and lengths that it says is the caller's part.
 *
 * The numbers below never change their meaning; others may come. a429_abi() is A429_ABI where this header fits the library.
 */
#ifndef A429_H
#define A429_H
#include <stddef.h>
#include <stdint.h>
#ifdef __cplusplus
extern "C" {
#endif

#define A429_ABI 1u

/* the status */
enum {
    A429_YES = 0,         /* done; of a verdict: found->files files crossed, and every run delivers them. None is no pass */
    A429_IMPOSSIBLE = 1,  /* no run records the word at found->entry after those before it: found->reason */
    A429_UNEXPLAINED = 2, /* neither: found->reason; of a429_verify: the certificate is refused */
    A429_INPUT = 3,       /* what was given has a fault: the text */
    A429_MEMORY = 4       /* memory was refused */
};

/* found->reason: 0 where there is none */
enum {
    /* of A429_IMPOSSIBLE (CHECKER.md, Impossible) */
    A429_NO_FORM = 1,
    A429_NOT_GRANTED = 2,
    A429_WRONG_ANSWER = 3,
    A429_BAD_BLOCK = 4,
    A429_WRONG_NUMBER = 5,
    A429_OTHER_BLOCK = 6,
    A429_NO_RUN = 7,
    /* of A429_UNEXPLAINED by a429_decide (CHECKER.md, What its answer says); 11 and 12 do not come any more */
    A429_NEVER_WHOLE = 11,
    A429_NOT_ONE_BLOCK = 12,
    A429_NOT_REPLAYED = 13,
    A429_OUT_OF_STEPS = 14,
    /* of A429_UNEXPLAINED by a429_verify (CERTIFICATES.md) */
    A429_CERT_VERSION = 21,       /* the first line names no version */
    A429_CERT_LINE = 22,          /* found->line is no line that may come there */
    A429_CERT_NOT_ALLOWED = 23,   /* the step of found->line cannot be made */
    A429_CERT_STATE_DIFFERS = 24, /* found->line writes another state than the one after its step */
    A429_CERT_WORD_DIFFERS = 25,  /* the step of found->line cannot be made with found->entry */
    A429_CERT_UNFINISHED = 26     /* found->entry is the first that no line uses */
};

/* what a call has found; 0 where there is nothing of the kind */
typedef struct {
    size_t entry;    /* counted from 0 */
    size_t line;     /* of a certificate, counted from 1 */
    size_t files;    /* how many cross */
    size_t bytes;    /* how many they have together */
    size_t text;     /* how many bytes the text has */
    uint32_t reason;
} a429_found;

/* a file that crosses; its bytes come after those of the files before it */
typedef struct {
    size_t length;
    uint8_t number;
} a429_file;

/* the version of the interface of this library */
uint32_t a429_abi(void);

/* The verdict of `a429 decide`. The text is the certificate of a yes. */
uint8_t a429_decide(const uint8_t *profile, size_t profile_len, const uint8_t *recording, size_t recording_len, a429_file *files,
                    size_t files_room, uint8_t *bytes, size_t bytes_room, uint8_t *text, size_t text_room, a429_found *found);

/* Whether a certificate explains a recording, as `a429 verify` does: A429_YES or A429_UNEXPLAINED. The text is that of a fault alone. */
uint8_t a429_verify(const uint8_t *profile, size_t profile_len, const uint8_t *recording, size_t recording_len,
                    const uint8_t *certificate, size_t certificate_len, a429_file *files, size_t files_room, uint8_t *bytes,
                    size_t bytes_room, uint8_t *text, size_t text_room, a429_found *found);

/* The recording of a transfer of files in which nothing is lost, as `a429 make` writes it: A429_YES. `bytes` has the files one after
 * the other, and `lengths` how many bytes each has. */
uint8_t a429_make(const uint8_t *profile, size_t profile_len, const uint8_t *bytes, size_t bytes_len, const size_t *lengths,
                  size_t lengths_len, uint8_t *text, size_t text_room, a429_found *found);

/* The lines of `a429 show`: A429_YES. */
uint8_t a429_show(const uint8_t *profile, size_t profile_len, const uint8_t *recording, size_t recording_len, uint8_t *text,
                  size_t text_room, a429_found *found);

#ifdef __cplusplus
}
#endif
#endif
