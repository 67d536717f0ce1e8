/* One silo of a grain directory, for C and whatever calls C: libgrain_directory.a.
 *
 * A silo takes lines and answers lines, the same as the process `grain-directory silo`, byte for byte: docs/RULES.md, "Lines of a
 * silo's process", says which lines there are. What carries letters from one silo to another is the caller's: docs/DEPLOYMENT.md.
 *
 * That these functions do what is said here is proved, but for what the last one frees, which is tested. That their caller does is not,
 * and nothing tests it: what the caller owes is said with each function, and at the end. */
#ifndef GRAIN_DIRECTORY_H
#define GRAIN_DIRECTORY_H

#include <stddef.h>
#include <stdint.h>

#ifdef __cplusplus
extern "C" {
#endif

/* A silo that is open. Its memory is the library's, from its opening to grain_directory_close. */
typedef struct grain_directory grain_directory;

/* Bytes that somebody else owns. No zero ends them. */
typedef struct grain_directory_text {
    const unsigned char *bytes;
    size_t length;
} grain_directory_text;

/* What the functions return. */
enum {
    GRAIN_DIRECTORY_OK = 0,              /* the silo is open; or it has answered the line, and goes on */
    GRAIN_DIRECTORY_DEAD = 1,            /* it has answered the line, by which it is dead: close it */
    GRAIN_DIRECTORY_ENDED = 2,           /* it answers no more: the line did nothing. Close it */
    GRAIN_DIRECTORY_OUT_OF_MEMORY = 3,   /* no silo is open; or the line isn't answered, nor is any other: close it */
    GRAIN_DIRECTORY_NOT_A_SILO = 4,      /* the address isn't that of a silo */
    GRAIN_DIRECTORY_NO_SUCH_HASHING = 5, /* there is no such way of hashing */
    GRAIN_DIRECTORY_OUT_OF_RANGE = 6,    /* too few points, too many, or too many hints */
    GRAIN_DIRECTORY_NOT_A_TOKEN = 7      /* the token has no byte, more than 64, or one outside 33 to 126 */
};

/* The ways of hashing: docs/RULES.md, "Hashes". All silos of a directory have one, and as many points and hints. */
enum {
    GRAIN_DIRECTORY_SHA256 = 0,
    GRAIN_DIRECTORY_STATED = 1
};

/* What `grain-directory silo` takes if it is told nothing else. */
enum {
    GRAIN_DIRECTORY_POINTS = 30,
    GRAIN_DIRECTORY_CACHE = 1024
};

/* Opens the silo of an address, as 10.0.0.1:1000@1, with so many points on the ring, 1 to 128, and a cache of so many hints, 0 to
 * 65536. It was told nothing yet. Returns 0, and the handle is in *silo; or the first that applies of 4, 5, 6 and 3, and *silo is
 * left as it was.
 *
 * `address` isn't NULL, nor is `silo`, and *silo has a value, as NULL. */
uint32_t grain_directory_open(const unsigned char *address, size_t address_length, uint32_t hashing, size_t points, size_t cache,
                              grain_directory **silo);

/* The same, of a process that is started with a token, 1 to 64 visible ASCII bytes, as with `grain-directory silo ADDR --join TOKEN`:
 * a join of its own silo that doesn't carry just this token is another process's, and is refused by 208. The first that applies of 7, 4,
 * 5, 6 and 3 is returned.
 *
 * `token` isn't NULL, even where `token_length` is 0. */
uint32_t grain_directory_open_with_token(const unsigned char *address, size_t address_length, const unsigned char *token, size_t token_length,
                                         uint32_t hashing, size_t points, size_t cache, grain_directory **silo);

/* Answers a line, given without its line feed; one carriage return at its end is dropped. *answer tells the lines that are answered:
 * each ends with a line feed, and there may be none. The bytes are the silo's: they may be read, and stay as they are, until the
 * next call with this handle. Any bytes are a line: one that has a byte outside 32 to 126, as a line feed, is answered by
 * `fault 925`, and one of more than 16,777,216 bytes by `fault 924`. Returns 0, 1, 2 or 3. By 2 and 3 nothing is answered.
 *
 * `line` isn't NULL, even where `length` is 0, nor does it lie in the last answer of this silo: copy a letter that a silo sends to
 * itself. `answer` isn't NULL, and *answer has a value. */
uint32_t grain_directory_line(grain_directory *silo, const unsigned char *line, size_t length, grain_directory_text *answer);

/* Closes a silo, and frees all that it has, its last answer too. The handle is none from then on.
 *
 * `silo` isn't NULL. */
void grain_directory_close(grain_directory *silo);

/* What the caller owes besides:
 *
 * - A handle is one that grain_directory_open or grain_directory_open_with_token gave, and that isn't closed. One call at a time has
 *   it. It may go from thread to thread, if a lock, a thread's start or end, or a sequentially consistent atomic orders their calls;
 *   handles have nothing in common, so two threads may call with two handles at once. What is behind a handle is neither read nor
 *   written.
 * - Lengths are those of the bytes, and nobody writes these meanwhile. No two pointers of one call lead to the same memory.
 * - malloc, realloc and free are the C library's, or others that belong together and align as they do; all may be called from any
 *   thread that calls these functions. None of these is called from a signal handler, or in the child of a fork of a process with
 *   threads. There are 256 KB of stack.
 *
 * It is for Linux on x86-64 (x86-64-v2). */

#ifdef __cplusplus
}
#endif

#endif
