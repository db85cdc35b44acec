/* What the parts of a launcher share: lines with the time, and an end with who started them. */
#include <signal.h>
#include <stdarg.h>
#include <stdio.h>
#include <stdlib.h>
#include <sys/prctl.h>
#include <time.h>
#include <unistd.h>

/* Writes a line to standard error, with the time in front of it. */
__attribute__((format(printf, 1, 2))) static void say(const char *format, ...) {
    char line[8192];
    time_t now = time(0);
    struct tm at;
    size_t length = strftime(line, sizeof line, "%Y-%m-%d %H:%M:%S ", localtime_r(&now, &at));
    va_list words;
    va_start(words, format);
    vsnprintf(line + length, sizeof line - length, format, words);
    va_end(words);
    fprintf(stderr, "%s\n", line);
}

/* Who started this process: PROXY_LAUNCHER, where that is set, since a parent that is gone already can not be asked for. */
static pid_t who_started(void) {
    const char *launcher = getenv("PROXY_LAUNCHER");
    return launcher ? (pid_t)atoi(launcher) : getppid();
}

/* From now on the end of its parent ends this process, by a signal; where that is gone, it ends at once. */
static void end_with_parent(pid_t parent, int signal) {
    prctl(PR_SET_PDEATHSIG, signal);
    if (getppid() != parent) _exit(1);
}
