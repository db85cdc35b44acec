/* Holds back what goes to servers of this machine and comes from them, as if they stood far away: far MICROSECONDS LISTEN:PORT..

   It takes connections at each port LISTEN of 127.0.0.1, and joins each to one of its own at PORT there. Each piece of bytes
   goes on so many microseconds after it came, whatever came before or behind it, and in order; so does the end of a side. A
   connection itself is made at once. Where too much waits for a side, the other is not read. */
#define _GNU_SOURCE
#include <arpa/inet.h>
#include <errno.h>
#include <fcntl.h>
#include <netinet/in.h>
#include <netinet/tcp.h>
#include <signal.h>
#include <stdint.h>
#include <stdio.h>
#include <stdlib.h>
#include <string.h>
#include <sys/epoll.h>
#include <sys/socket.h>
#include <sys/timerfd.h>
#include <time.h>
#include <unistd.h>

enum {
    PIECE = 1 << 16,
    /* So many bytes may wait for a side before the other is read again. */
    ENOUGH = 1 << 24,
};

/* What one read brought; the end of a side where it is empty. */
struct piece {
    struct piece *next;
    struct side *to;
    /* When it goes on, in nanoseconds. */
    int64_t due;
    size_t start, end;
    char bytes[];
};

struct pieces {
    struct piece *first, *last;
};

/* One socket of a connection, or one that listens. It is never freed, since events may still tell of it: there are few. */
struct side {
    int socket;
    uint32_t watched;
    /* Where a socket leads that listens. */
    const char *port;
    struct side *other;
    /* Whether nothing more comes of it, and whether nothing more goes to it. */
    int is_read, is_written;
    /* Bytes on their way to it, and the pieces of these that are due. */
    size_t held;
    struct pieces due;
};

static int waiting, timer;
static int64_t delay, alarm_at;
/* All that is not due yet, in the order in which it came, which is that in which it is due. */
static struct pieces under_way;

static void end(const char *why) {
    perror(why);
    exit(1);
}

static void *room_for(size_t size) {
    void *made = malloc(size);
    if (!made) end("far: memory");
    return made;
}

static int64_t now(void) {
    struct timespec time;
    clock_gettime(CLOCK_MONOTONIC, &time);
    return (int64_t)time.tv_sec * 1000000000 + time.tv_nsec;
}

static void append(struct pieces *pieces, struct piece *piece) {
    piece->next = 0;
    if (pieces->first)
        pieces->last->next = piece;
    else
        pieces->first = piece;
    pieces->last = piece;
}

static struct piece *take(struct pieces *pieces) {
    struct piece *piece = pieces->first;
    pieces->first = piece->next;
    return piece;
}

/* Says which events of a socket to wait for. */
static void watch(struct side *side, uint32_t events) {
    if (side->watched == events) return;
    struct epoll_event event = {.events = events, .data.ptr = side};
    int change = !events ? EPOLL_CTL_DEL : side->watched ? EPOLL_CTL_MOD : EPOLL_CTL_ADD;
    if (epoll_ctl(waiting, change, side->socket, &event)) end("far: epoll");
    side->watched = events;
}

static void wait_on(struct side *side) {
    uint32_t reads = side->is_read || side->other->held >= ENOUGH ? 0 : EPOLLIN;
    watch(side, reads | (side->due.first ? EPOLLOUT : 0));
}

static int is_for_later(void) {
    return errno == EAGAIN || errno == EINTR;
}

/* Writes what is due and goes at once; what goes to a side that is gone is dropped, and its end is read. */
static void drain(struct side *side) {
    while (side->due.first) {
        struct piece *piece = side->due.first;
        size_t left = piece->end - piece->start;
        ssize_t count = left ? write(side->socket, piece->bytes + piece->start, left) : 0;
        if (count < 0 && is_for_later()) return;
        piece->start += count < 0 ? left : (size_t)count;
        if (piece->start < piece->end) continue;
        if (!left) shutdown(side->socket, SHUT_WR), side->is_written = 1;
        side->held -= piece->end;
        free(take(&side->due));
    }
}

static void serve(struct side *side) {
    drain(side);
    wait_on(side), wait_on(side->other);
    if (side->is_written && side->other->is_written) close(side->socket), close(side->other->socket);
}

static void read_side(struct side *side) {
    static char bytes[PIECE];
    ssize_t count = read(side->socket, bytes, PIECE);
    if (count < 0 && is_for_later()) return;
    size_t size = count > 0 ? (size_t)count : 0;
    struct piece *piece = room_for(sizeof *piece + size);
    *piece = (struct piece){.to = side->other, .due = now() + delay, .end = size};
    memcpy(piece->bytes, bytes, size);
    append(&under_way, piece);
    side->is_read = !size;
    side->other->held += size;
    wait_on(side);
}

/* Hands on what is due by now, and has the timer tell when the next is. */
static void hand_on(void) {
    int64_t time = now();
    while (under_way.first && under_way.first->due <= time) {
        struct piece *piece = take(&under_way);
        append(&piece->to->due, piece);
        serve(piece->to);
    }
    if (!under_way.first || under_way.first->due == alarm_at) return;
    alarm_at = under_way.first->due;
    struct itimerspec at = {.it_value = {.tv_sec = alarm_at / 1000000000, .tv_nsec = alarm_at % 1000000000}};
    if (timerfd_settime(timer, TFD_TIMER_ABSTIME, &at, 0)) end("far: timer");
}

static struct sockaddr_in address_of(const char *port) {
    struct sockaddr_in at = {.sin_family = AF_INET, .sin_port = htons((uint16_t)atoi(port))};
    at.sin_addr.s_addr = htonl(INADDR_LOOPBACK);
    return at;
}

static struct side *side_of(int socket) {
    int on = 1;
    struct side *side = room_for(sizeof *side);
    *side = (struct side){.socket = socket};
    setsockopt(socket, IPPROTO_TCP, TCP_NODELAY, &on, sizeof on);
    fcntl(socket, F_SETFL, O_NONBLOCK);
    return side;
}

static void let_in(const struct side *listener) {
    int in = accept4(listener->socket, 0, 0, SOCK_CLOEXEC), out = socket(AF_INET, SOCK_STREAM | SOCK_CLOEXEC, 0);
    struct sockaddr_in at = address_of(listener->port);
    if (in < 0 || connect(out, (struct sockaddr *)&at, sizeof at)) {
        close(in), close(out);
        return;
    }
    struct side *one = side_of(in), *other = side_of(out);
    one->other = other, other->other = one;
    wait_on(one), wait_on(other);
}

static void listen_at(char *words) {
    char *port = strchr(words, ':');
    struct side *listener = room_for(sizeof *listener);
    struct sockaddr_in at = address_of(words);
    int on = 1;
    if (!port) errno = EINVAL, end("far: LISTEN:PORT");
    *listener = (struct side){.socket = socket(AF_INET, SOCK_STREAM | SOCK_CLOEXEC | SOCK_NONBLOCK, 0), .port = port + 1};
    setsockopt(listener->socket, SOL_SOCKET, SO_REUSEADDR, &on, sizeof on);
    if (bind(listener->socket, (struct sockaddr *)&at, sizeof at) || listen(listener->socket, 511)) end("far: listen");
    watch(listener, EPOLLIN);
}

static void take_event(struct side *side, uint32_t events) {
    if (side->port) {
        let_in(side);
        return;
    }
    /* (an end is told also where nothing is waited for) */
    if (side->watched & EPOLLIN && events & ~(uint32_t)EPOLLOUT) read_side(side);
    if (side->watched & EPOLLOUT) serve(side);
}

int main(int count, char **words) {
    if (count < 3) {
        fprintf(stderr, "far MICROSECONDS LISTEN:PORT..\n");
        return 1;
    }
    signal(SIGPIPE, SIG_IGN);
    delay = atoll(words[1]) * 1000;
    waiting = epoll_create1(EPOLL_CLOEXEC), timer = timerfd_create(CLOCK_MONOTONIC, TFD_CLOEXEC);
    struct epoll_event rings = {.events = EPOLLIN | EPOLLET};
    if (waiting < 0 || timer < 0 || epoll_ctl(waiting, EPOLL_CTL_ADD, timer, &rings)) end("far: epoll");
    for (int i = 2; i < count; i++) listen_at(words[i]);
    for (;;) {
        struct epoll_event events[64];
        int ready = epoll_wait(waiting, events, 64, -1);
        for (int i = 0; i < ready; i++)
            if (events[i].data.ptr) take_event(events[i].data.ptr, events[i].events);
        hand_on();
    }
}
