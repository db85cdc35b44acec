/* Joins the sockets of many guests to programs: mux PORT COUNT PROGRAM [ARGUMENT..]

   It starts the program so many times, with % in an argument standing for each one's number, from 0. Guests have numbers
   too, and the guest of a number goes to the program of that number modulo the count.

   It moves bytes and reads none of them. What a guest sends goes to its program's standard input in frames, each of the
   guest's number and a length, of four bytes with the lowest first, and so many bytes; what the program writes are such
   frames for guests. A frame of none ends a guest: each side sends one for each guest, and once both did, its number is
   free. While much waits for a program no guest is read. A guest for which too much waits is closed.

   A frame of the program for the number 4294967295 holds a delay in milliseconds, of four bytes. That much later, or
   sooner where it asked for that before, the program gets a frame of that number, with the time in eight bytes.

   A frame of the program for the number 4294967294, with no bytes, says that it knows the slot map. Once all have said so,
   `proxy: one server at 127.0.0.1:PORT` is written to standard output. Guests are let in before that too.

   It takes guests at 127.0.0.1. It ends with status 1 and a line on standard error when a program ends, in whichever way, and
   where it can not begin; and without one when who started it ends. Its programs end with it. */
#define _GNU_SOURCE
#include <arpa/inet.h>
#include <errno.h>
#include <fcntl.h>
#include <netinet/in.h>
#include <netinet/tcp.h>
#include <signal.h>
#include <stdint.h>
#include <stdio.h>
#include <stdlib.h>
#include <string.h>
#include <sys/epoll.h>
#include <sys/socket.h>
#include <sys/wait.h>
#include <time.h>
#include <unistd.h>

#include "part.h"

enum {
    MOST_GUESTS = 10000,
    MOST_PROGRAMS = 64,
    MOST_PORT = 65535,
    PIECE = 1 << 16,
    HEAD = 8,
    /* So many bytes may wait for the program before guests are read again. */
    ENOUGH = 1 << 22,
    /* So many bytes may wait for a guest. */
    TOO_MUCH = 1 << 28,
    /* So many milliseconds may pass before it is said that the slot map is not known. */
    LATE = 10000,
};

static const uint32_t CLOCK = UINT32_MAX, READY = UINT32_MAX - 1;

/* What an event is about: a guest's number, or one of these; a program's number is added to the last two. */
enum { LISTENER = MOST_GUESTS, GUESTS, FROM_PROGRAM, TO_PROGRAM = FROM_PROGRAM + MOST_PROGRAMS };

/* Bytes that wait: those from `start` to `end`. */
struct bytes {
    char *at;
    size_t start, end, room;
};

enum state {
    /* No guest has the number. */
    FREE,
    OPEN,
    /* The program ended it, and its last bytes go out. */
    ENDED,
    /* It is gone, and the program has not said so yet. */
    GONE,
};

struct guest {
    enum state state;
    int socket;
    int waits;
    struct bytes out;
};

struct program {
    pid_t process;
    int to, from;
    /* What waits for it, and whether its pipe is full. */
    struct bytes in;
    int waits;
    /* What it wrote, as far as it is no whole frame. */
    struct bytes frames;
    /* When it wants to know the time; 0: it does not. */
    int64_t alarm_at;
    /* Whether it knows the slot map. */
    int is_ready;
};

static struct guest guests[MOST_GUESTS];
static struct program programs[MOST_PROGRAMS];
static uint32_t program_count, ready_count;
static unsigned port;
/* When to say that the slot map is not known; 0: never. */
static int64_t late_at;
/* Guests are waited for by themselves, so that all can be left out at once. */
static int waiting, guests_waiting, are_read;

static void end(const char *why) {
    say("proxy: %s: %s", why, strerror(errno));
    exit(1);
}

/* A program has ended: so does this. */
static void end_with(struct program *program) {
    int status = 0, which = (int)(program - programs);
    close(program->to);
    waitpid(program->process, &status, 0);
    if (WIFSIGNALED(status))
        say("proxy: program %d was ended by signal %d (%s)", which, WTERMSIG(status), strsignal(WTERMSIG(status)));
    else
        say("proxy: program %d ended with status %d", which, WEXITSTATUS(status));
    exit(1);
}

static struct program *program_of(uint32_t guest) {
    return &programs[guest % program_count];
}

static void watch(int in, int file, int change, uint32_t events, uint32_t what) {
    struct epoll_event event = {.events = events, .data.u32 = what};
    if (epoll_ctl(in, change, file, &event)) end("epoll");
}

static size_t left_in(const struct bytes *bytes) {
    return bytes->end - bytes->start;
}

static void put(struct bytes *bytes, const void *more, size_t count) {
    if (bytes->start > bytes->room / 2 || bytes->start == bytes->end) {
        if (left_in(bytes)) memmove(bytes->at, bytes->at + bytes->start, left_in(bytes));
        bytes->end -= bytes->start;
        bytes->start = 0;
    }
    if (bytes->room - bytes->end < count) {
        bytes->room = (bytes->end + count) * 2 + PIECE;
        bytes->at = realloc(bytes->at, bytes->room);
        if (!bytes->at) end("memory");
    }
    memcpy(bytes->at + bytes->end, more, count);
    bytes->end += count;
}

static void drop(struct bytes *bytes) {
    free(bytes->at);
    *bytes = (struct bytes){0};
}

/* Writes what goes at once; false where the other side is gone. */
static int drain(struct bytes *bytes, int file) {
    while (left_in(bytes)) {
        ssize_t count = write(file, bytes->at + bytes->start, left_in(bytes));
        if (count < 0) return errno == EAGAIN || errno == EINTR;
        bytes->start += (size_t)count;
    }
    return 1;
}

static void put_frame(struct program *program, uint32_t number, const void *bytes, uint32_t count) {
    uint32_t head[2] = {number, count};
    put(&program->in, head, HEAD);
    if (count) put(&program->in, bytes, count);
}

static void serve_program(uint32_t which) {
    struct program *program = &programs[which];
    if (!drain(&program->in, program->to)) end_with(program);
    int waits = left_in(&program->in) > 0;
    if (waits != program->waits)
        watch(waiting, program->to, EPOLL_CTL_MOD, waits ? EPOLLOUT : 0, TO_PROGRAM + which);
    program->waits = waits;
}

/* Writes to the programs, and reads guests only while little waits for each. */
static void serve_programs(void) {
    int may_read = 1;
    for (uint32_t which = 0; which < program_count; which++) {
        serve_program(which);
        if (left_in(&programs[which].in) >= ENOUGH) may_read = 0;
    }
    if (may_read != are_read) watch(waiting, guests_waiting, EPOLL_CTL_MOD, may_read ? EPOLLIN : 0, GUESTS);
    are_read = may_read;
}

static void close_guest(uint32_t number, enum state state) {
    struct guest *guest = &guests[number];
    close(guest->socket);
    drop(&guest->out);
    guest->waits = 0;
    guest->state = state;
}

/* The guest is gone: its program is told, and its number is free once it says so too. */
static void leave(uint32_t number) {
    int was_ended = guests[number].state == ENDED;
    close_guest(number, was_ended ? FREE : GONE);
    if (!was_ended) put_frame(program_of(number), number, 0, 0);
}

/* Writes to a guest what waits for it. */
static void serve_guest(uint32_t number) {
    struct guest *guest = &guests[number];
    if (guest->state != OPEN && guest->state != ENDED) return;
    int is_there = drain(&guest->out, guest->socket);
    size_t left = left_in(&guest->out);
    if (!is_there || left > TOO_MUCH) {
        leave(number);
    } else if (guest->state == ENDED && !left) {
        close_guest(number, FREE);
    } else if (guest->waits != (left > 0)) {
        guest->waits = left > 0;
        uint32_t reads = guest->state == OPEN ? EPOLLIN : 0;
        watch(guests_waiting, guest->socket, EPOLL_CTL_MOD, reads | (left ? EPOLLOUT : 0), number);
    }
}

static void read_guest(uint32_t number) {
    static char piece[PIECE];
    if (guests[number].state != OPEN) return;
    ssize_t count = read(guests[number].socket, piece, PIECE);
    if (count > 0)
        put_frame(program_of(number), number, piece, (uint32_t)count);
    else if (!count || (errno != EAGAIN && errno != EINTR))
        leave(number);
}

/* Its program says that a guest has ended. */
static void end_guest(uint32_t number) {
    struct guest *guest = &guests[number];
    if (guest->state == GONE) {
        guest->state = FREE;
    } else if (guest->state == OPEN) {
        put_frame(program_of(number), number, 0, 0);
        guest->state = ENDED;
        guest->waits = -1;
        serve_guest(number);
    }
}

/* Milliseconds since some moment. */
static int64_t now(void) {
    struct timespec time;
    clock_gettime(CLOCK_MONOTONIC, &time);
    return (int64_t)time.tv_sec * 1000 + time.tv_nsec / 1000000;
}

static void set_alarm(struct program *program, const void *bytes, uint32_t count) {
    uint32_t delay = 0;
    if (count == sizeof delay) memcpy(&delay, bytes, sizeof delay);
    int64_t at = now() + delay;
    if (!program->alarm_at || at < program->alarm_at) program->alarm_at = at;
}

/* How long to wait for an event: for ever where no alarm is set. */
static int patience(void) {
    int64_t first = late_at;
    for (uint32_t which = 0; which < program_count; which++) {
        int64_t at = programs[which].alarm_at;
        if (at && (!first || at < first)) first = at;
    }
    if (!first) return -1;
    int64_t left = first - now();
    return left < 0 ? 0 : (int)left;
}

/* Tells the time to the programs that wanted to know it by now. */
static void ring(void) {
    for (uint32_t which = 0; which < program_count; which++) {
        struct program *program = &programs[which];
        if (!program->alarm_at) continue;
        int64_t time = now();
        if (time < program->alarm_at) continue;
        program->alarm_at = 0;
        put_frame(program, CLOCK, &time, sizeof time);
    }
}

/* Says once that the slot map is not known, where it is time for that. */
static void tell_late(void) {
    if (!late_at || now() < late_at) return;
    late_at = 0;
    say("proxy: no node tells the slot map yet (%u of %u programs know it)", ready_count, program_count);
}

/* A program knows the slot map. Once all do, there is one server. */
static void take_ready(struct program *program) {
    if (program->is_ready) return;
    program->is_ready = 1;
    if (++ready_count < program_count) return;
    late_at = 0;
    printf("proxy: one server at 127.0.0.1:%u\n", port);
    fflush(stdout);
}

/* Whether a program may write a frame of this number. */
static int is_number_of(const struct program *program, uint32_t number) {
    return number == CLOCK || number == READY || (number < MOST_GUESTS && program_of(number) == program);
}

/* Hands out a program's frames as far as they are whole. */
static void hand_out(struct program *program) {
    struct bytes *frames = &program->frames;
    while (left_in(frames) >= HEAD) {
        uint32_t head[2];
        memcpy(head, frames->at + frames->start, HEAD);
        uint32_t number = head[0], count = head[1];
        if (!is_number_of(program, number)) {
            say("proxy: program %d wrote no frame", (int)(program - programs));
            exit(1);
        }
        if (left_in(frames) - HEAD < count) break;
        if (number == CLOCK)
            set_alarm(program, frames->at + frames->start + HEAD, count);
        else if (number == READY)
            take_ready(program);
        else if (!count)
            end_guest(number);
        else if (guests[number].state == OPEN) {
            put(&guests[number].out, frames->at + frames->start + HEAD, count);
            serve_guest(number);
        }
        frames->start += HEAD + count;
    }
}

static void read_program(struct program *program) {
    static char piece[PIECE * 16];
    ssize_t count = read(program->from, piece, sizeof piece);
    if (!count || (count < 0 && errno != EAGAIN && errno != EINTR)) end_with(program);
    if (count < 0) return;
    put(&program->frames, piece, (size_t)count);
    hand_out(program);
}

static void let_in(int listener) {
    int socket = accept4(listener, 0, 0, SOCK_NONBLOCK | SOCK_CLOEXEC), on = 1;
    if (socket < 0) return;
    uint32_t number = 0;
    while (number < MOST_GUESTS && guests[number].state != FREE) number++;
    if (number == MOST_GUESTS) {
        const char full[] = "-ERR max number of clients reached\r\n";
        (void)!write(socket, full, sizeof full - 1);
        close(socket);
        return;
    }
    setsockopt(socket, IPPROTO_TCP, TCP_NODELAY, &on, sizeof on);
    guests[number] = (struct guest){.state = OPEN, .socket = socket};
    watch(guests_waiting, socket, EPOLL_CTL_ADD, EPOLLIN, number);
}

/* The number of 1 to `most` that a word is, or 0. */
static unsigned number_in(const char *word, unsigned most) {
    char *rest;
    if (*word < '0' || *word > '9') return 0;
    unsigned long number = strtoul(word, &rest, 10);
    return *rest || number > most ? 0 : (unsigned)number;
}

static int listen_at_port(void) {
    int listener = socket(AF_INET, SOCK_STREAM | SOCK_CLOEXEC | SOCK_NONBLOCK, 0), on = 1;
    struct sockaddr_in at = {.sin_family = AF_INET, .sin_port = htons((uint16_t)port)};
    at.sin_addr.s_addr = htonl(INADDR_LOOPBACK);
    setsockopt(listener, SOL_SOCKET, SO_REUSEADDR, &on, sizeof on);
    if (!bind(listener, (struct sockaddr *)&at, sizeof at) && !listen(listener, 511)) return listener;
    if (errno == EADDRINUSE)
        say("proxy: the port %u is taken", port);
    else
        say("proxy: no guest can be taken at the port %u: %s", port, strerror(errno));
    exit(1);
}

/* The word with a program's number in the place of each %. */
static char *numbered(const char *word, uint32_t which) {
    size_t room = strlen(word) * 3 + 1, at = 0;
    char *made = malloc(room);
    if (!made) end("memory");
    for (; *word; word++) {
        if (*word == '%')
            at += (size_t)snprintf(made + at, room - at, "%u", which);
        else
            made[at++] = *word;
    }
    made[at] = 0;
    return made;
}

/* Becomes a program, which ends with its parent; where that fails, the reason goes into the pipe `failed`. */
static void become(uint32_t which, char **words, pid_t parent, int failed) {
    end_with_parent(parent, SIGKILL);
    for (char **word = words; *word; word++) *word = numbered(*word, which);
    execvp(words[0], words);
    (void)!write(failed, &errno, sizeof errno);
    _exit(1);
}

/* Waits until a program runs, which closes the pipe. */
static void see_run(int failed, const char *name) {
    ssize_t count;
    while ((count = read(failed, &errno, sizeof errno)) < 0 && errno == EINTR) continue;
    close(failed);
    if (!count) return;
    say("proxy: the program %s can not be run: %s", name, strerror(errno));
    exit(1);
}

static void start(uint32_t which, char **words) {
    struct program *program = &programs[which];
    pid_t parent = getpid();
    int in[2], out[2], failed[2];
    if (pipe2(in, O_CLOEXEC) || pipe2(out, O_CLOEXEC) || pipe2(failed, O_CLOEXEC)) end("pipe");
    program->process = fork();
    if (program->process < 0) end("fork");
    if (!program->process) {
        dup2(in[0], 0);
        dup2(out[1], 1);
        become(which, words, parent, failed[1]);
    }
    close(in[0]), close(out[1]), close(failed[1]);
    see_run(failed[0], words[0]);
    program->to = in[1], program->from = out[0];
    fcntl(program->to, F_SETFL, O_NONBLOCK);
    fcntl(program->from, F_SETFL, O_NONBLOCK);
    fcntl(program->to, F_SETPIPE_SZ, 1 << 20);
    fcntl(program->from, F_SETPIPE_SZ, 1 << 20);
    watch(waiting, program->from, EPOLL_CTL_ADD, EPOLLIN, FROM_PROGRAM + which);
    watch(waiting, program->to, EPOLL_CTL_ADD, 0, TO_PROGRAM + which);
}

static void take_guests(void) {
    struct epoll_event events[256];
    int count = epoll_wait(guests_waiting, events, 256, 0);
    for (int i = 0; i < count; i++) {
        if (events[i].events & EPOLLOUT) serve_guest(events[i].data.u32);
        if (events[i].events & ~(uint32_t)EPOLLOUT) read_guest(events[i].data.u32);
    }
}

/* What an event is about that is no guest's own. */
static void take_event(int listener, uint32_t what) {
    if (what == LISTENER)
        let_in(listener);
    else if (what == GUESTS)
        take_guests();
    else if (what < TO_PROGRAM)
        read_program(&programs[what - FROM_PROGRAM]);
}

int main(int count, char **words) {
    end_with_parent(who_started(), SIGTERM);
    program_count = count < 4 ? 0 : number_in(words[2], MOST_PROGRAMS);
    if (!program_count) {
        fprintf(stderr, "mux PORT COUNT PROGRAM [ARGUMENT..], with 1 to %d programs\n", MOST_PROGRAMS);
        return 1;
    }
    port = number_in(words[1], MOST_PORT);
    if (!port) {
        say("proxy: the port '%s' is no number of 1 to %d", words[1], MOST_PORT);
        return 1;
    }
    signal(SIGPIPE, SIG_IGN);
    waiting = epoll_create1(EPOLL_CLOEXEC), guests_waiting = epoll_create1(EPOLL_CLOEXEC);
    int listener = listen_at_port();
    for (uint32_t which = 0; which < program_count; which++) start(which, words + 3);
    late_at = now() + LATE;
    watch(waiting, listener, EPOLL_CTL_ADD, EPOLLIN, LISTENER);
    watch(waiting, guests_waiting, EPOLL_CTL_ADD, EPOLLIN, GUESTS);
    are_read = 1;
    for (;;) {
        struct epoll_event events[8];
        int ready = epoll_wait(waiting, events, 8, patience());
        for (int i = 0; i < ready; i++) take_event(listener, events[i].data.u32);
        tell_late();
        ring();
        serve_programs();
    }
}
