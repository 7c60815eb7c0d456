/* trace.c: what an actor did, a line each, in its order, as `cilknow merge` reads it: lines of a script, in which the place tells nothing, and
 * packets by their names, which are 128 bits of their SHA-256, as hex.
 *   start 0 W          a node starts with this word        house-restart     the clearinghouse opens
 *   # take NAME        a packet came that is one
 *   exec 0 M G F       a frame was carried out by its own turn          whole 0 M G F T   by its task's whole value, of T turns
 *   ask 0 V | resend 0 | depart 0 H | house-tick T
 *   # sent NAME        behind one of these: what it sent, in its order
 *   crash 0            the process let the node go
 * A house writes no line as it ends, so that its outcome stands at the end of what was done. A line is written before its packets go
 * out. A process that was killed may leave the beginning of a line. */
#include "host.h"
#include <errno.h>
#include <fcntl.h>
#include <inttypes.h>
#include <stdarg.h>
#include <string.h>
#include <unistd.h>

/* What stands behind the last end of a line is cut off. */
static bool cut_line(const char *path) {
    char last[512];
    int fd = open(path, O_RDWR);
    if (fd < 0) return errno == ENOENT;
    off_t end = lseek(fd, 0, SEEK_END), from = end > (off_t)sizeof last ? end - (off_t)sizeof last : 0;
    ssize_t len = end < 0 ? -1 : pread(fd, last, (size_t)(end - from), from);
    while (len > 0 && last[len - 1] != '\n') len--;
    bool done = len >= 0 && (from + len == end || ftruncate(fd, from + len) == 0);
    close(fd);
    return done;
}

bool trace_open(struct trace *trace, const char *folder, const char *name, const char *how) {
    char path[4096];
    trace->file = NULL;
    if (!folder) return true;
    snprintf(path, sizeof path, "%s/%s.trace", folder, name);
    if (*how != 'a' || cut_line(path)) trace->file = fopen(path, how);
    if (!trace->file) tell("%s: %s", path, strerror(errno));
    return trace->file;
}

void trace_event(struct trace *trace, const char *form, ...) {
    if (!trace->file) return;
    va_list rest;
    va_start(rest, form);
    vfprintf(trace->file, form, rest);
    va_end(rest);
    fputc('\n', trace->file);
}

void trace_ask(struct trace *trace, uint64_t victim) {
    if (victim) trace_event(trace, "ask 0 %" PRIu64, victim);
    else trace_event(trace, "ask 0 house");
}

void trace_packet(struct trace *trace, const char *word, const uint8_t *bytes, size_t len) {
    uint8_t digest[32];
    if (!trace->file) return;
    cilknow_digest(bytes, len, digest, sizeof digest);
    fprintf(trace->file, "# %s ", word);
    for (int i = 0; i < 16; i++) fprintf(trace->file, "%02x", digest[i]);
    fputc('\n', trace->file);
}

void trace_flush(struct trace *trace) {
    if (!trace->file || !fflush(trace->file)) return;
    tell("the trace: %s; it ends here", strerror(errno));
    fclose(trace->file);
    trace->file = NULL;
}

void trace_close(struct trace *trace) {
    trace_flush(trace);
    if (trace->file) fclose(trace->file);
    trace->file = NULL;
}
