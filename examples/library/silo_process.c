/* A silo's process, as `grain-directory silo`, over the library:
 *
 *   silo_process silo ADDRESS [--join TOKEN] [--hashing sha256|stated] [--points N] [--cache N]
 *
 * reads lines from standard input and writes what is answered, line by line. It ends at the end of its input with status 0, and where
 * the silo is dead; with 3 if memory runs out, with 5 if reading or writing fails, and with 2 at a mistake in its words. */
#include "grain_directory.h"

#include <stdio.h>
#include <stdlib.h>
#include <string.h>
#include <unistd.h>

/* A line that is longer than that is too long, whatever comes: of a longer one no more is kept, and a carriage return that may end it. */
enum { MOST_KEPT = 16777216 + 2, CHUNK = 65536 };

static char line[MOST_KEPT];
static size_t kept;

static int mistake(const char *what) {
    fprintf(stderr, "silo_process: %s\n", what);
    return 2;
}

/* Writes all of the bytes; or says that it couldn't. */
static int write_all(const unsigned char *bytes, size_t length) {
    while (length > 0) {
        ssize_t written = write(STDOUT_FILENO, bytes, length);
        if (written <= 0) return 0;
        bytes += written;
        length -= (size_t)written;
    }
    return 1;
}

static void keep(const char *bytes, size_t length) {
    size_t room = MOST_KEPT - kept;
    if (length > room) length = room;
    memcpy(line + kept, bytes, length);
    kept += length;
}

/* The exit status, or -1 to go on. */
static int answer_line(grain_directory *silo) {
    grain_directory_text answer = {NULL, 0};
    uint32_t status = grain_directory_line(silo, (const unsigned char *)line, kept, &answer);
    kept = 0;
    if (!write_all(answer.bytes, answer.length)) return 5;
    if (status == GRAIN_DIRECTORY_OK) return -1;
    return status == GRAIN_DIRECTORY_DEAD ? 0 : 3;
}

static int play(grain_directory *silo) {
    static char chunk[CHUNK];
    for (;;) {
        ssize_t count = read(STDIN_FILENO, chunk, CHUNK);
        if (count < 0) return 5;
        if (count == 0) break;
        const char *from = chunk, *end = chunk + count;
        while (from < end) {
            const char *feed = memchr(from, '\n', (size_t)(end - from));
            keep(from, (size_t)((feed != NULL ? feed : end) - from));
            if (feed == NULL) break;
            int status = answer_line(silo);
            if (status >= 0) return status;
            from = feed + 1;
        }
    }
    /* What no line feed ended may have been cut, so it is never taken. */
    if (kept > 0) {
        const char *fault = kept > 16777216 ? "fault 924\n" : "fault 931\n";
        if (!write_all((const unsigned char *)fault, strlen(fault))) return 5;
    }
    return 0;
}

/* Reads the name of a way of hashing; or says that it is none. */
static int read_hashing(const char *word, uint32_t *hashing) {
    if (strcmp(word, "sha256") == 0) *hashing = GRAIN_DIRECTORY_SHA256;
    else if (strcmp(word, "stated") == 0) *hashing = GRAIN_DIRECTORY_STATED;
    else return 0;
    return 1;
}

/* Reads a number of digits alone; or says that it is none. */
static int read_number(const char *word, size_t *number) {
    char *end;
    *number = strtoul(word, &end, 10);
    return *word >= '0' && *word <= '9' && *end == '\0';
}

/* Opens the silo of an address, with a token where there is one. */
static uint32_t open_silo(const char *address, const char *token, uint32_t hashing, size_t points, size_t cache, grain_directory **silo) {
    const unsigned char *bytes = (const unsigned char *)address;
    if (token == NULL) return grain_directory_open(bytes, strlen(address), hashing, points, cache, silo);
    return grain_directory_open_with_token(bytes, strlen(address), (const unsigned char *)token, strlen(token), hashing, points, cache, silo);
}

int main(int count, char **words) {
    if (count < 3 || strcmp(words[1], "silo") != 0) {
        return mistake("silo ADDRESS [--join TOKEN] [--hashing sha256|stated] [--points N] [--cache N]");
    }
    uint32_t hashing = GRAIN_DIRECTORY_SHA256;
    size_t points = GRAIN_DIRECTORY_POINTS, cache = GRAIN_DIRECTORY_CACHE;
    const char *token = NULL;
    for (int word = 3; word < count; word += 2) {
        const char *option = words[word], *value = word + 1 < count ? words[word + 1] : "";
        int is_read = 1;
        if (strcmp(option, "--join") == 0) token = value;
        else if (strcmp(option, "--hashing") == 0) is_read = read_hashing(value, &hashing);
        else if (strcmp(option, "--points") == 0) is_read = read_number(value, &points);
        else if (strcmp(option, "--cache") == 0) is_read = read_number(value, &cache);
        else return mistake("no such option");
        if (!is_read) return mistake("an option with no such value");
    }
    grain_directory *silo = NULL;
    uint32_t status = open_silo(words[2], token, hashing, points, cache, &silo);
    if (status == GRAIN_DIRECTORY_OUT_OF_MEMORY) return 3;
    if (status != GRAIN_DIRECTORY_OK) return mistake("no silo, no token, or a number out of its range");
    int ended = play(silo);
    grain_directory_close(silo);
    return ended;
}
