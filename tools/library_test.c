/* Tests libgrain_directory.a beyond what examples/library shows; tools/test-library builds and runs it. It is linked with --wrap for
 * malloc, realloc and free, so that it can refuse memory and count blocks. Says what went wrong, and ends with status 1 then. */
#include "grain_directory.h"

#include <pthread.h>
#include <stdio.h>
#include <stdlib.h>
#include <string.h>

static int wrong;

static void is(int right, const char *what) {
    if (right) return;
    wrong++;
    printf("wrong: %s\n", what);
}

/* ---- Memory: how many blocks there are, and which allocation is refused, from 1 up; 0 for none. */
void *__real_malloc(size_t size);
void *__real_realloc(void *block, size_t size);
void __real_free(void *block);

static _Thread_local long blocks, asked, refused;

static int is_refused(void) {
    asked++;
    return asked == refused;
}

void *__wrap_malloc(size_t size) {
    if (is_refused()) return NULL;
    blocks++;
    return __real_malloc(size);
}

void *__wrap_realloc(void *block, size_t size) {
    if (is_refused()) return NULL;
    if (block == NULL) blocks++;
    return __real_realloc(block, size);
}

void __wrap_free(void *block) {
    if (block != NULL) blocks--;
    __real_free(block);
}

/* ---- Calls. */
static uint32_t open_silo(const char *address, uint32_t hashing, size_t points, size_t cache, grain_directory **silo) {
    return grain_directory_open((const unsigned char *)address, strlen(address), hashing, points, cache, silo);
}

static uint32_t open_with(const char *token, const char *address, uint32_t hashing, grain_directory **silo) {
    return grain_directory_open_with_token((const unsigned char *)address, strlen(address), (const unsigned char *)token, strlen(token),
                                           hashing, 1, 16, silo);
}

/* A line and its answer: whether both are as they should be. */
static int answers(grain_directory *silo, const char *line, size_t length, uint32_t status, const char *lines) {
    grain_directory_text answer = {NULL, 0};
    uint32_t returned = grain_directory_line(silo, (const unsigned char *)line, length, &answer);
    return returned == status && answer.length == strlen(lines) && memcmp(answer.bytes, lines, answer.length) == 0;
}

static int says(grain_directory *silo, const char *line, const char *lines) {
    return answers(silo, line, strlen(line), GRAIN_DIRECTORY_OK, lines);
}

static const char first[] = "10.0.0.1:1000@1";

/* ---- What opens a silo, and what doesn't: the first refusal that applies. */
static void opening(void) {
    grain_directory *none = NULL, *silo = NULL;
    is(open_silo("10.0.0.1:1000", 7, 0, 0, &none) == GRAIN_DIRECTORY_NOT_A_SILO, "no generation");
    is(open_silo("", 0, 30, 1024, &none) == GRAIN_DIRECTORY_NOT_A_SILO, "no address");
    is(open_silo("10.0.0.1:1000@1 ", 0, 30, 1024, &none) == GRAIN_DIRECTORY_NOT_A_SILO, "a space behind the address");
    is(open_silo(first, 2, 0, 0, &none) == GRAIN_DIRECTORY_NO_SUCH_HASHING, "a third way of hashing");
    is(open_silo(first, 0, 0, 1024, &none) == GRAIN_DIRECTORY_OUT_OF_RANGE, "no point");
    is(open_silo(first, 1, 129, 1024, &none) == GRAIN_DIRECTORY_OUT_OF_RANGE, "too many points");
    is(open_silo(first, 1, 128, 65537, &none) == GRAIN_DIRECTORY_OUT_OF_RANGE, "too many hints");
    is(none == NULL, "a refusal leaves the handle");
    is(open_silo(first, 1, 128, 65536, &silo) == GRAIN_DIRECTORY_OK && silo != NULL, "the largest settings");
    grain_directory_close(silo);
    is(open_silo(first, 0, 1, 0, &silo) == GRAIN_DIRECTORY_OK, "the least settings");
    grain_directory_close(silo);
    is(blocks == 0, "all is freed after opening");
}

/* ---- A silo whose process was started with a token: what opens it, and by which line it joins. */
static void with_a_token(void) {
    static const char longest[] = "0123456789abcdef0123456789abcdef0123456789abcdef0123456789abcde~";
    grain_directory *none = NULL, *silo = NULL;
    is(open_with("", "10.0.0.1", 7, &none) == GRAIN_DIRECTORY_NOT_A_TOKEN, "a token without a byte");
    is(open_with("a b", first, 0, &none) == GRAIN_DIRECTORY_NOT_A_TOKEN, "a token with a space");
    is(open_with("a\177", first, 0, &none) == GRAIN_DIRECTORY_NOT_A_TOKEN, "a token with a control");
    is(grain_directory_open_with_token((const unsigned char *)first, strlen(first), (const unsigned char *)longest, sizeof longest,
                                       0, 1, 16, &none) == GRAIN_DIRECTORY_NOT_A_TOKEN, "a token with a zero, and too long");
    is(open_with(longest, "10.0.0.1", 7, &none) == GRAIN_DIRECTORY_NOT_A_SILO, "a token, and no silo");
    is(open_with(longest, first, 2, &none) == GRAIN_DIRECTORY_NO_SUCH_HASHING, "a token, and a third way of hashing");
    is(none == NULL, "a refusal with a token leaves the handle");
    is(open_with(longest, first, 0, &silo) == GRAIN_DIRECTORY_OK, "the longest token");
    grain_directory_close(silo);
    is(open_with("a=b", first, 0, &silo) == GRAIN_DIRECTORY_OK, "a token");
    is(says(silo, "joined 1 10.0.0.1:1000@1", "refused 208\n"), "a join without the token");
    is(says(silo, "joined 1 10.0.0.1:1000@1 token=a", "refused 208\n"), "a join with another one");
    is(says(silo, "joined 1 10.0.0.1:1000@1 token=a=b=", "refused 208\n"), "a join with more");
    is(says(silo, "joined 1 10.0.0.2:1000@1 token=c", "view 1 joined 10.0.0.2:1000@1\n"), "another silo's join");
    is(says(silo, "joined 2 10.0.0.1:1000@1 token=a=b", "view 2 joined 10.0.0.1:1000@1\n"), "the join with the token");
    is(says(silo, "joined 2 10.0.0.1:1000@1", "refused 208\n"), "and told again without it");
    grain_directory_close(silo);
    is(open_silo(first, 0, 1, 16, &silo) == GRAIN_DIRECTORY_OK, "a silo without a token");
    is(says(silo, "joined 1 10.0.0.1:1000@1 token=c", "view 1 joined 10.0.0.1:1000@1\n"), "takes any join");
    grain_directory_close(silo);
    is(blocks == 0, "all is freed after tokens");
}

/* ---- Lines of every length, and bytes that none has. */
static void lines(void) {
    enum { LONGEST = 16777216 };
    grain_directory *silo = NULL;
    is(open_silo(first, 0, 30, 1024, &silo) == GRAIN_DIRECTORY_OK, "a silo for lines");
    is(says(silo, "", ""), "an empty line says nothing");
    is(says(silo, "  ", ""), "nor do spaces");
    is(says(silo, "; remark", ""), "nor does a remark");
    is(says(silo, "ping word", "pong word\n"), "a ping");
    is(says(silo, "ping word\r", "pong word\n"), "one carriage return is dropped");
    is(says(silo, "ping word\r\r", "fault 925\n"), "a second one isn't");
    is(says(silo, "ping word\n", "fault 925\n"), "a line feed is a byte outside 32 to 126");
    is(answers(silo, "ping\0word", 9, GRAIN_DIRECTORY_OK, "fault 925\n"), "so is a zero");
    is(says(silo, "hello", "fault 921\n"), "no command");
    is(says(silo, "ping", "fault 922\n"), "too few words");
    is(says(silo, "see 1", "refused 901\n"), "a silo that didn't join");
    char *long_line = malloc(LONGEST + 2);
    if (long_line == NULL) exit(1);
    memset(long_line, ' ', LONGEST + 2);
    is(answers(silo, long_line, LONGEST, GRAIN_DIRECTORY_OK, ""), "the longest line");
    is(answers(silo, long_line, LONGEST + 1, GRAIN_DIRECTORY_OK, "fault 924\n"), "a line that is too long");
    long_line[LONGEST] = '\r';
    is(answers(silo, long_line, LONGEST + 1, GRAIN_DIRECTORY_OK, ""), "the longest line and a carriage return");
    free(long_line);
    is(says(silo, "joined 1 10.0.0.1:1000@1", "view 1 joined 10.0.0.1:1000@1\n"), "it joins");
    const char *later = "joined 2 10.0.0.1:1000@2";
    is(answers(silo, later, strlen(later), GRAIN_DIRECTORY_DEAD, "view 2 joined 10.0.0.1:1000@2 dead 10.0.0.1:1000@1\ndead\n"), "it is replaced");
    is(answers(silo, "ping word", 9, GRAIN_DIRECTORY_ENDED, ""), "and answers no more");
    is(answers(silo, later, strlen(later), GRAIN_DIRECTORY_ENDED, ""), "nor once more");
    grain_directory_close(silo);
    is(blocks == 0, "all is freed after lines");
}

/* ---- A silo's work, with stated hashes; its letters to itself are copied, as they have to be. Ends with the status. */
static uint32_t work(grain_directory *silo) {
    static const char *const commands[] = {"joined 1 10.0.0.1:1000@1 0", "see 1", "wake a/b", "find a/c", "show", "dump",
                                           "joined 2 10.0.0.2:1000@1 2147483648", "see 2", "nudge", "close a/b", "ping end"};
    for (size_t number = 0; number < sizeof commands / sizeof *commands; number++) {
        char line[4096], letters[4096];
        strcpy(line, commands[number]);
        for (;;) {
            grain_directory_text answer = {NULL, 0};
            uint32_t status = grain_directory_line(silo, (const unsigned char *)line, strlen(line), &answer);
            if (status != GRAIN_DIRECTORY_OK) {
                is(answer.length == 0, "nothing is answered without memory");
                return status;
            }
            if (answer.length >= sizeof letters) exit(1);
            memcpy(letters, answer.bytes, answer.length);
            letters[answer.length] = 0;
            char *letter = strstr(letters, "letter 10.0.0.1:1000@1 10.0.0.1:1000@1 ");
            if (letter == NULL) break;
            strcpy(line, letter);
            line[strcspn(line, "\n")] = 0;
        }
    }
    return GRAIN_DIRECTORY_OK;
}

/* Each allocation is refused in turn, until none is. */
static void without_memory(void) {
    long opened = 0, answered = 0;
    for (long number = 1;; number++) {
        grain_directory *silo = NULL;
        asked = 0;
        refused = number;
        uint32_t status = open_silo(first, GRAIN_DIRECTORY_STATED, 1, 16, &silo);
        if (status != GRAIN_DIRECTORY_OK) {
            is(status == GRAIN_DIRECTORY_OUT_OF_MEMORY && silo == NULL, "a silo that isn't opened");
            opened++;
        } else {
            status = work(silo);
            if (status != GRAIN_DIRECTORY_OK) {
                is(status == GRAIN_DIRECTORY_OUT_OF_MEMORY, "a line without memory");
                is(answers(silo, "ping word", 9, GRAIN_DIRECTORY_ENDED, ""), "no more is answered then");
                answered++;
            }
            grain_directory_close(silo);
        }
        is(blocks == 0, "all is freed without memory");
        if (asked < refused) break;
    }
    refused = 0;
    is(opened > 0 && answered > 20, "memory was refused");
    printf("an allocation was refused: %ld times no silo was opened, %ld times one ended\n", opened, answered);
}

/* ---- Threads with little stack; one opens a silo, another closes it. */
static void *open_and_work(void *unused) {
    grain_directory *silo = NULL;
    (void)unused;
    if (open_silo(first, GRAIN_DIRECTORY_STATED, 1, 16, &silo) != GRAIN_DIRECTORY_OK) return NULL;
    return work(silo) == GRAIN_DIRECTORY_OK ? silo : NULL;
}

static void *close_it(void *silo) {
    grain_directory_close(silo);
    return NULL;
}

static void threads(size_t stack) {
    enum { THREADS = 4 };
    pthread_t each[THREADS];
    void *silos[THREADS];
    pthread_attr_t little;
    pthread_attr_init(&little);
    is(pthread_attr_setstacksize(&little, stack) == 0, "a little stack");
    for (int number = 0; number < THREADS; number++) pthread_create(&each[number], &little, open_and_work, NULL);
    for (int number = 0; number < THREADS; number++) pthread_join(each[number], &silos[number]);
    for (int number = 0; number < THREADS; number++) {
        is(silos[number] != NULL, "a thread's silo");
        pthread_create(&each[number], &little, close_it, silos[number]);
    }
    for (int number = 0; number < THREADS; number++) pthread_join(each[number], NULL);
    pthread_attr_destroy(&little);
}

int main(int count, char **words) {
    opening();
    with_a_token();
    lines();
    without_memory();
    threads(count > 1 ? strtoul(words[1], NULL, 10) : 262144);
    printf("%d wrong\n", wrong);
    return wrong != 0;
}
