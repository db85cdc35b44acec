/* Joins FIFOs to the nodes of a Redis Cluster: bridge FOLDER HOST:PORT..

   It moves bytes and reads none of them. For each node it makes FOLDER/HOST:PORT.0.to and .0.from, and the pair .1.; when
   a pair has ended, the next one. Two pairs are there at any time, since a program opens the next one before it closes one
   that failed. A pair gets its socket when the first bytes come for it. FOLDER/nodes lists the nodes once all of this stands.

   A node that does not take the connection, or answers nothing for LIVE_DEADLINE seconds (5; 0 is no deadline) behind what
   was sent to it, is passed over: its pair ends, with a line on standard error. That is told once for each reason until the
   node answers, and then that it does.

   It ends when it is told to (TERM, INT), and by itself when its folder is gone, when who started it is gone, or when the
   program that had opened its pairs is; but for the last where PROXY_LAUNCHER tells the process that started it and sees to that. */
#define _GNU_SOURCE
#include <dirent.h>
#include <errno.h>
#include <fcntl.h>
#include <netdb.h>
#include <netinet/in.h>
#include <netinet/tcp.h>
#include <poll.h>
#include <signal.h>
#include <stdint.h>
#include <stdio.h>
#include <stdlib.h>
#include <string.h>
#include <sys/epoll.h>
#include <sys/socket.h>
#include <sys/stat.h>
#include <time.h>
#include <unistd.h>

#include "part.h"

enum {
    ROOM = 1 << 18,
    /* Milliseconds between two looks at the folder, the parent and the deadlines. */
    LOOK = 250,
    /* So long nobody has opened a pair, after somebody had, before the bridge ends. */
    WITHOUT_READER = 5000,
    LONGEST = 4096,
};

/* The files of a pair: what the program writes, what it reads, and the node's socket. */
enum { SOURCE, SINK, SOCKET, FILES };

/* Bytes that wait: those from `start` to `end`. */
struct bytes {
    char *at;
    size_t start, end;
};

struct pair {
    const char *node;
    unsigned number;
    /* How many pairs stood in this place before. */
    uint32_t generation;
    int files[FILES];
    uint32_t watched[FILES];
    int is_joined;
    /* Since when the node owes an answer, in milliseconds; 0: it owes none. */
    int64_t since;
    struct bytes to_node, to_program;
};

static const char *folder;
static struct pair *pairs;
static uint32_t pair_count;
/* For each node why its links failed since it answered, as far as there is room. */
static char (*failures)[LONGEST];
static int waiting;
static int64_t deadline, last_seen;
static int was_opened, is_launched;
static pid_t parent;
static volatile sig_atomic_t is_told_to_end;

/* A pair ends, and there is nothing to say of it. */
static const char QUIETLY[] = "";

static const char WITHOUT_PARENT[] = "who started it is gone";

static void say_end(const char *why) {
    say("bridge: it ends: %s", why);
}

/* Says why a link failed to the node of a place, where that was not said since the node answered. */
static void say_failure(uint32_t place, const char *why) {
    char *said = failures[place / 2];
    size_t length = strlen(said);
    if (strstr(said, why)) return;
    say("bridge: %s: %s", pairs[place].node, why);
    snprintf(said + length, LONGEST - length, "%s\n", why);
}

/* The node of a place answers: that is said where a failure was. */
static void say_answer(uint32_t place) {
    char *said = failures[place / 2];
    if (*said) say("bridge: %s: it answers again", pairs[place].node);
    *said = 0;
}

static int64_t now(void) {
    struct timespec time;
    clock_gettime(CLOCK_MONOTONIC, &time);
    return (int64_t)time.tv_sec * 1000 + time.tv_nsec / 1000000;
}

/* The name of a file of the folder. */
static void name_file(char *name, const char *node, unsigned number, int which) {
    snprintf(name, LONGEST, "%s/%s.%u.%s", folder, node, number, which == SOURCE ? "to" : "from");
}

static size_t left_in(const struct bytes *bytes) {
    return bytes->end - bytes->start;
}

/* Says which events of a file to wait for. */
static void watch(uint32_t place, int which, uint32_t events) {
    struct pair *pair = &pairs[place];
    if (pair->files[which] < 0 || pair->watched[which] == events) return;
    struct epoll_event event = {
        .events = events, .data.u64 = (uint64_t)pair->generation << 32 | (place * FILES + (uint32_t)which)};
    int change = !events ? EPOLL_CTL_DEL : pair->watched[which] ? EPOLL_CTL_MOD : EPOLL_CTL_ADD;
    epoll_ctl(waiting, change, pair->files[which], &event);
    pair->watched[which] = events;
}

/* Each side is read only where the other has taken all before. */
static void wait_on(uint32_t place) {
    struct pair *pair = &pairs[place];
    int to_node = left_in(&pair->to_node) > 0, to_program = left_in(&pair->to_program) > 0;
    watch(place, SOURCE, to_node ? 0 : EPOLLIN);
    watch(place, SINK, to_program ? EPOLLOUT : 0);
    uint32_t reads = to_program || !pair->is_joined ? 0 : EPOLLIN;
    watch(place, SOCKET, reads | (to_node || !pair->is_joined ? EPOLLOUT : 0));
}

/* Makes the FIFOs of a number for a node; neither end waits for the program. False where that fails. */
static int make_files(const char *node, unsigned number, int *files) {
    char name[LONGEST];
    for (int which = SOURCE; which <= SINK; which++) {
        name_file(name, node, number, which);
        if (mkfifo(name, 0600)) return 0;
        files[which] = open(name, (which == SOURCE ? O_RDONLY : O_RDWR) | O_NONBLOCK | O_CLOEXEC);
        if (files[which] < 0) return 0;
        fcntl(files[which], F_SETPIPE_SZ, 1 << 20);
    }
    files[SOCKET] = -1;
    return 1;
}

static void close_pair(uint32_t place) {
    struct pair *pair = &pairs[place];
    char name[LONGEST];
    for (int which = 0; which < FILES; which++)
        if (pair->files[which] >= 0) close(pair->files[which]);
    for (int which = SOURCE; which <= SINK; which++) {
        name_file(name, pair->node, pair->number, which);
        unlink(name);
    }
}

/* Takes away what it made, and its folder where that is empty then. */
static void end(int status) {
    char name[LONGEST];
    for (uint32_t place = 0; place < pair_count; place++)
        if (pairs[place].node) close_pair(place);
    snprintf(name, LONGEST, "%s/nodes", folder);
    unlink(name);
    rmdir(folder);
    exit(status);
}

/* Puts a node's pair of a number in a place, from which nothing is owed yet. */
static void put_pair(uint32_t place, const char *node, unsigned number, const int *files) {
    struct pair *pair = &pairs[place];
    memcpy(pair->files, files, sizeof pair->files);
    memset(pair->watched, 0, sizeof pair->watched);
    pair->node = node, pair->number = number;
    pair->generation++;
    pair->is_joined = 0;
    pair->since = 0;
    pair->to_node.start = pair->to_node.end = pair->to_program.start = pair->to_program.end = 0;
    watch(place, SOURCE, EPOLLIN);
}

static void begin_pair(uint32_t place, const char *node, unsigned number) {
    int files[FILES];
    if (!make_files(node, number, files)) {
        say_end(strerror(errno));
        end(1);
    }
    put_pair(place, node, number, files);
}

/* Ends a pair; its node's next one stands before the program can see that. */
static void end_pair(uint32_t place, const char *why) {
    struct pair *pair = &pairs[place];
    int files[FILES];
    if (*why) say_failure(place, why);
    was_opened = 1;
    if (!make_files(pair->node, pair->number + 2, files)) {
        say_end(strerror(errno));
        end(1);
    }
    close_pair(place);
    put_pair(place, pair->node, pair->number + 2, files);
}

/* ---- moving bytes: each answers why the pair ends, or nothing */

static int is_for_later(void) {
    return errno == EAGAIN || errno == EINTR;
}

/* Writes what goes at once. */
static const char *drain(struct bytes *bytes, int file) {
    while (left_in(bytes)) {
        ssize_t count = write(file, bytes->at + bytes->start, left_in(bytes));
        if (count < 0) return is_for_later() ? 0 : strerror(errno);
        bytes->start += (size_t)count;
    }
    return 0;
}

/* Reads in the place of what is gone. */
static const char *fill(struct bytes *bytes, int file) {
    ssize_t count = read(file, bytes->at, ROOM);
    if (count < 0) return is_for_later() ? 0 : strerror(errno);
    bytes->start = 0, bytes->end = (size_t)count;
    return count ? 0 : QUIETLY;
}

static const char *connect_pair(struct pair *pair) {
    char host[LONGEST];
    snprintf(host, sizeof host, "%s", pair->node);
    char *colon = strrchr(host, ':');
    if (!colon) return "it is no HOST:PORT";
    *colon = 0;
    struct addrinfo wanted = {.ai_socktype = SOCK_STREAM}, *found;
    int failed = getaddrinfo(host, colon + 1, &wanted, &found);
    if (failed) return gai_strerror(failed);
    int on = 1;
    pair->files[SOCKET] = socket(found->ai_family, SOCK_STREAM | SOCK_NONBLOCK | SOCK_CLOEXEC, found->ai_protocol);
    setsockopt(pair->files[SOCKET], IPPROTO_TCP, TCP_NODELAY, &on, sizeof on);
    int is_begun = !connect(pair->files[SOCKET], found->ai_addr, found->ai_addrlen) || errno == EINPROGRESS;
    freeaddrinfo(found);
    return is_begun ? 0 : strerror(errno);
}

static const char *join(struct pair *pair) {
    int failed = 0;
    socklen_t size = sizeof failed;
    getsockopt(pair->files[SOCKET], SOL_SOCKET, SO_ERROR, &failed, &size);
    if (failed) return strerror(failed);
    pair->is_joined = 1;
    return 0;
}

/* Sends on what came of the program. */
static const char *send_on(struct pair *pair) {
    pair->since = now();
    if (pair->files[SOCKET] < 0) return connect_pair(pair);
    return pair->is_joined ? drain(&pair->to_node, pair->files[SOCKET]) : 0;
}

static const char *read_program(struct pair *pair) {
    const char *why = fill(&pair->to_node, pair->files[SOURCE]);
    return why || !left_in(&pair->to_node) ? why : send_on(pair);
}

static const char *read_node(struct pair *pair) {
    const char *why = fill(&pair->to_program, pair->files[SOCKET]);
    if (why || !left_in(&pair->to_program)) return why;
    pair->since = 0;
    say_answer((uint32_t)(pair - pairs));
    return drain(&pair->to_program, pair->files[SINK]);
}

static const char *serve_socket(struct pair *pair, uint32_t events) {
    const char *why = pair->is_joined ? 0 : join(pair);
    /* (an end is told also where nothing is to be read yet) */
    if (!why && pair->watched[SOCKET] & EPOLLIN && events & ~(uint32_t)EPOLLOUT) why = read_node(pair);
    if (!why && events & EPOLLOUT) why = drain(&pair->to_node, pair->files[SOCKET]);
    return why;
}

static const char *serve_pair(struct pair *pair, int which, uint32_t events) {
    if (which == SOURCE) return read_program(pair);
    if (which == SINK) return drain(&pair->to_program, pair->files[SINK]);
    return serve_socket(pair, events);
}

/* ---- looking around */

/* Whether a program had the pair open, and has closed it or is gone. */
static int is_left(const struct pair *pair) {
    struct pollfd look = {.fd = pair->files[SOURCE]};
    return poll(&look, 1, 0) > 0 && look.revents & POLLHUP;
}

/* Sees whether a program opened the pair. What it wrote meanwhile goes on. */
static const char *look_at(struct pair *pair) {
    if (pair->files[SOCKET] < 0) {
        ssize_t count = read(pair->files[SOURCE], pair->to_node.at, ROOM);
        /* Behind a writer there is nothing yet; without one there is an end. */
        if (!count || (count < 0 && errno != EAGAIN)) return 0;
        if (count > 0) {
            pair->to_node.start = 0, pair->to_node.end = (size_t)count;
            const char *why = send_on(pair);
            if (why) return why;
        }
    }
    last_seen = now();
    was_opened = 1;
    return 0;
}

/* Whether a process has a file of the folder open. */
static int has_open(const char *process) {
    char name[LONGEST], file[LONGEST];
    snprintf(name, sizeof name, "/proc/%s/fd", process);
    DIR *files = opendir(name);
    int found = 0;
    for (struct dirent *entry; !found && files && (entry = readdir(files));) {
        ssize_t count = readlinkat(dirfd(files), entry->d_name, file, sizeof file - 1);
        size_t length = strlen(folder);
        found = count > (ssize_t)length && !strncmp(file, folder, length) && file[length] == '/';
    }
    if (files) closedir(files);
    return found;
}

/* Whether another process has one open; a pair that ended counts, while nobody closed it. */
static int has_reader(void) {
    DIR *processes = opendir("/proc");
    int found = 0;
    for (struct dirent *entry; !found && processes && (entry = readdir(processes));) {
        long process = strtol(entry->d_name, 0, 10);
        found = process > 0 && process != getpid() && has_open(entry->d_name);
    }
    if (processes) closedir(processes);
    return found;
}

/* Why a pair ends that nothing was heard of, or nothing. */
static const char *why_over(struct pair *pair, int64_t time) {
    static char late[LONGEST];
    if (deadline && pair->since && time - pair->since > deadline) {
        snprintf(late, sizeof late, "no answer within %g seconds; it is passed over", (double)deadline / 1000);
        return late;
    }
    return is_left(pair) ? QUIETLY : look_at(pair);
}

static void look_around(void) {
    int64_t time = now();
    struct stat seen;
    const char *why = 0;
    if (getppid() != parent) why = WITHOUT_PARENT;
    else if (stat(folder, &seen)) why = "its folder is gone";
    for (uint32_t place = 0; !why && place < pair_count; place++) {
        const char *over = why_over(&pairs[place], time);
        if (over)
            end_pair(place, over);
        else
            wait_on(place);
    }
    if (is_launched || !was_opened || last_seen >= time || has_reader()) last_seen = time;
    if (!why && time - last_seen > WITHOUT_READER) why = "its reader is gone";
    if (!why) return;
    say_end(why);
    end(0);
}

static void take_events(void) {
    struct epoll_event events[64];
    int count = epoll_wait(waiting, events, 64, LOOK);
    for (int i = 0; i < count; i++) {
        uint32_t place = (uint32_t)events[i].data.u64 / FILES;
        int which = (int)((uint32_t)events[i].data.u64 % FILES);
        struct pair *pair = &pairs[place];
        if (pair->generation != events[i].data.u64 >> 32) continue;
        const char *why = serve_pair(pair, which, events[i].events);
        if (why)
            end_pair(place, why);
        else
            wait_on(place);
    }
}

/* ---- beginning and end */

static void tell_to_end(int signal) {
    (void)signal;
    is_told_to_end = 1;
}

static int64_t deadline_of(const char *text) {
    if (!text) return 5000;
    char *rest;
    double seconds = strtod(text, &rest);
    if (rest == text || *rest) {
        say("bridge: LIVE_DEADLINE is a number of seconds, and not '%s'", text);
        exit(1);
    }
    return seconds > 0 ? (int64_t)(seconds * 1000) : 0;
}

static void list_nodes(char **nodes) {
    char name[LONGEST], other[LONGEST];
    snprintf(name, sizeof name, "%s/nodes.new", folder);
    snprintf(other, sizeof other, "%s/nodes", folder);
    FILE *list = fopen(name, "w");
    for (; list && *nodes; nodes++) fprintf(list, "%s\n", *nodes);
    if (list && !fclose(list) && !rename(name, other)) return;
    say_end(strerror(errno));
    end(1);
}

int main(int count, char **words) {
    if (count < 3) {
        fprintf(stderr, "bridge FOLDER HOST:PORT..\n");
        return 1;
    }
    deadline = deadline_of(getenv("LIVE_DEADLINE"));
    parent = who_started(), is_launched = !!getenv("PROXY_LAUNCHER");
    signal(SIGPIPE, SIG_IGN), signal(SIGTERM, tell_to_end), signal(SIGINT, tell_to_end);
    end_with_parent(parent, SIGTERM);
    folder = realpath(words[1], 0);
    waiting = epoll_create1(EPOLL_CLOEXEC);
    pair_count = (uint32_t)(count - 2) * 2;
    pairs = calloc(pair_count, sizeof *pairs);
    failures = calloc(pair_count / 2, sizeof *failures);
    if (!folder || waiting < 0 || !pairs || !failures) {
        say_end(strerror(errno));
        return 1;
    }
    for (uint32_t place = 0; place < pair_count; place++) {
        pairs[place].to_node.at = malloc(ROOM);
        pairs[place].to_program.at = malloc(ROOM);
        if (pairs[place].to_node.at && pairs[place].to_program.at) continue;
        say_end(strerror(errno));
        return 1;
    }
    for (uint32_t place = 0; place < pair_count; place++) begin_pair(place, words[2 + place / 2], place % 2);
    list_nodes(words + 2);
    last_seen = now();
    for (int64_t looked = 0; !is_told_to_end;) {
        take_events();
        if (now() - looked < LOOK) continue;
        looked = now();
        look_around();
    }
    if (getppid() != parent) say_end(WITHOUT_PARENT);
    end(0);
}
