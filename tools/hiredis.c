/* Feeds standard input to hiredis in pieces of the given size, as parser_bench does to the parser:
 * it prints how many replies there are, and to standard error how many microseconds that took. */
#include <hiredis/hiredis.h>
#include <stdio.h>
#include <stdlib.h>
#include <time.h>

static double microseconds(void) {
    struct timespec now;
    clock_gettime(CLOCK_MONOTONIC, &now);
    return now.tv_sec * 1e6 + now.tv_nsec / 1e3;
}

static char *read_input(size_t *size) {
    size_t room = 1 << 20;
    char *text = malloc(room);
    *size = 0;
    while (text != NULL) {
        size_t got = fread(text + *size, 1, room - *size, stdin);
        if (got == 0) return text;
        *size += got;
        if (*size == room) text = realloc(text, room *= 2);
    }
    return NULL;
}

int main(int count, char **words) {
    if (count == 1) return printf("%d.%d.%d\n", HIREDIS_MAJOR, HIREDIS_MINOR, HIREDIS_PATCH) < 0;
    size_t piece = strtoul(words[1], NULL, 10), size, replies = 0;
    char *text = read_input(&size);
    redisReader *reader = redisReaderCreate();
    if (piece == 0 || text == NULL || reader == NULL) return 1;
    double start = microseconds();
    for (size_t at = 0; at < size; at += piece) {
        size_t left = size - at;
        void *reply;
        if (redisReaderFeed(reader, text + at, piece < left ? piece : left) != REDIS_OK) return 1;
        for (;;) {
            if (redisReaderGetReply(reader, &reply) != REDIS_OK) return 1;
            if (reply == NULL) break;
            freeReplyObject(reply);
            replies++;
        }
    }
    fprintf(stderr, "%.0f microseconds\n", microseconds() - start);
    return printf("%zu replies\n", replies) < 0;
}
