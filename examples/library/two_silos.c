/* Two silos of one directory in one process. A grain is woken at the first, and found by the second. The letters between them are
 * carried here, in the order in which they are sent. What is told to a silo stands behind `<`, what it answers behind `>`. */
#include "grain_directory.h"

#include <stdio.h>
#include <stdlib.h>
#include <string.h>

enum { SILOS = 2 };

static const char *const addresses[SILOS] = {"10.0.0.1:1000@1", "10.0.0.2:1000@1"};
static grain_directory *silos[SILOS];

/* The letters that are on their way: copies, since an answer is gone by the next call. */
struct letter {
    struct letter *next;
    int to;
    size_t length;
    char line[];
};

static struct letter *first_letter;
static struct letter **next_letter = &first_letter;

static void fail(const char *what) {
    fprintf(stderr, "two_silos: %s\n", what);
    exit(1);
}

/* Whose letter a line is, from `letter FROM TO ..`; or -1. */
static int receiver(const char *line, size_t length) {
    const char *end = line + length, *word = line;
    for (int passed = 0; passed < 2; passed++) {
        word = memchr(word, ' ', (size_t)(end - word));
        if (word == NULL) return -1;
        word++;
    }
    if (length < 7 || memcmp(line, "letter ", 7) != 0) return -1;
    for (int silo = 0; silo < SILOS; silo++) {
        size_t named = strlen(addresses[silo]);
        if ((size_t)(end - word) > named && memcmp(word, addresses[silo], named) == 0 && word[named] == ' ') return silo;
    }
    return -1;
}

static void post(int to, const char *line, size_t length) {
    struct letter *letter = malloc(sizeof *letter + length);
    if (letter == NULL) fail("out of memory");
    letter->next = NULL;
    letter->to = to;
    letter->length = length;
    memcpy(letter->line, line, length);
    *next_letter = letter;
    next_letter = &letter->next;
}

/* Gives a silo a line, prints what it answers, and takes its letters. */
static void tell(int silo, const char *line, size_t length) {
    grain_directory_text answer = {NULL, 0};
    printf("%d < %.*s\n", silo + 1, (int)length, line);
    uint32_t status = grain_directory_line(silos[silo], (const unsigned char *)line, length, &answer);
    const char *from = (const char *)answer.bytes, *end = from + answer.length;
    while (from < end) {
        const char *feed = memchr(from, '\n', (size_t)(end - from));
        size_t count = (size_t)(feed - from);
        printf("%d > %.*s\n", silo + 1, (int)count, from);
        int to = receiver(from, count);
        if (to >= 0) post(to, from, count);
        from = feed + 1;
    }
    if (status != GRAIN_DIRECTORY_OK) printf("%d returns %u\n", silo + 1, (unsigned)status);
}

static void say(int silo, const char *line) {
    tell(silo, line, strlen(line));
}

/* Carries letters until there is none. */
static void carry(void) {
    while (first_letter != NULL) {
        struct letter *letter = first_letter;
        first_letter = letter->next;
        if (first_letter == NULL) next_letter = &first_letter;
        tell(letter->to, letter->line, letter->length);
        free(letter);
    }
}

int main(void) {
    for (int silo = 0; silo < SILOS; silo++) {
        const char *address = addresses[silo];
        if (grain_directory_open((const unsigned char *)address, strlen(address), GRAIN_DIRECTORY_STATED, GRAIN_DIRECTORY_POINTS,
                                 GRAIN_DIRECTORY_CACHE, &silos[silo]) != GRAIN_DIRECTORY_OK)
            fail("a silo isn't opened");
    }

    /* The first silo joins, and has all hashes; then the second one takes over half of them. */
    say(0, "joined 1 10.0.0.1:1000@1 0");
    say(0, "see 1");
    carry();
    say(1, "joined 1 10.0.0.1:1000@1 0");
    say(0, "joined 2 10.0.0.2:1000@1 2147483648");
    say(1, "joined 2 10.0.0.2:1000@1 2147483648");
    say(0, "see 2");
    say(1, "see 2");
    carry();

    /* An activation at the first silo, which the second one finds; by then it remembers. */
    say(0, "wake user/ann#7");
    carry();
    say(1, "find user/ann#7");
    carry();
    say(1, "find user/ann#7");

    /* The first silo is told that it is dead, and answers no more. */
    say(0, "dead 3 10.0.0.1:1000@1");
    say(0, "show");

    for (int silo = 0; silo < SILOS; silo++) grain_directory_close(silos[silo]);
    return 0;
}
