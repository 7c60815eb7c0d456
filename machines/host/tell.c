/* tell.c: what is told on standard error, the clock, chance, and files that are read. */
#include "host.h"
#include <inttypes.h>
#include <stdarg.h>
#include <stdlib.h>
#include <sys/random.h>
#include <time.h>
#include <unistd.h>

/* In microseconds: how long nothing is told of its progress, and how long it pauses then. */
enum { SILENT = 2000000, PAUSE = 500000 };
#define WIPE "\r\x1b[K"
static bool is_shown;

void tell(const char *form, ...) {
    char line[512];
    va_list rest;
    va_start(rest, form);
    vsnprintf(line, sizeof line, form, rest);
    va_end(rest);
    /* (on a terminal another worker's progress may stand there) */
    fprintf(stderr, "%scilknow-node: %s\n", isatty(2) ? WIPE : "", line);
    is_shown = false;
}

/* Tells on a terminal how far it has come, as `cilknow run` does: nothing in its first two seconds, and then twice a second in one line,
 * which is written anew each time and taken away at the end. */
void progress_shows(const struct progress *of, size_t count, uint64_t begun, uint64_t now, const size_t *seen) {
    static uint64_t told;
    uint64_t events = 0, packets = 0;
    char workers[48] = "";
    if (!count || now - begun < SILENT || now - told < PAUSE) return;
    told = now;
    if (!isatty(2)) return;
    for (size_t i = 0; i < count; i++) events += of[i].events, packets += of[i].packets;
    if (seen) snprintf(workers, sizeof workers, ", %zu workers seen", *seen);
    fprintf(stderr, "\r%" PRIu64 " events, %" PRIu64 " a second, %" PRIu64 " packets%s\x1b[K", events, events * 1000000 / (now - begun), packets, workers);
    is_shown = true;
}

void progress_ends(void) {
    if (is_shown) fputs(WIPE, stderr);
    is_shown = false;
}

void kinds_count(struct kinds *kinds, const uint8_t *packet) { kinds->of[packet[KIND_AT] % 16]++; }

void kinds_tell(const struct kinds *kinds) {
    static const char *const names[16] = {"", "Join", "Roster", "Steal", "Grant", "Refuse", "Result", "ResultAck", "Offer", "OfferAck", "Leave", "Abort",
                                          "Beat", "Piece", "Save", "SavedGrant"};
    for (int i = 1; i < 16; i++)
        if (kinds->of[i]) fprintf(stderr, "packets of kind %s %" PRIu64 "\n", names[i], kinds->of[i]);
}

int refused(int64_t error) {
    tell("E%lld", (long long)-error);
    return error <= CILKNOW_TEXT && error >= -21 && error != CILKNOW_MEMORY_JOB ? STATUS_REFUSED : STATUS_NONE;
}

uint64_t micros(void) {
    struct timespec now;
    clock_gettime(CLOCK_MONOTONIC, &now);
    return (uint64_t)now.tv_sec * 1000000 + (uint64_t)now.tv_nsec / 1000;
}

uint64_t draw(uint64_t *seed) { /* splitmix64 */
    uint64_t z = (*seed += 0x9e3779b97f4a7c15u);
    z = (z ^ z >> 30) * 0xbf58476d1ce4e5b9u;
    z = (z ^ z >> 27) * 0x94d049bb133111ebu;
    return z ^ z >> 31;
}

bool random_bytes(void *to, size_t len) {
    for (size_t at = 0; at < len;) {
        ssize_t came = getrandom((uint8_t *)to + at, len - at, 0);
        if (came < 0) return false;
        at += (size_t)came;
    }
    return true;
}

uint8_t *file_bytes(const char *path, size_t most, size_t *len) {
    FILE *file = fopen(path, "rb");
    if (!file) return NULL;
    uint8_t *bytes = malloc(most + 1);
    if (bytes) *len = fread(bytes, 1, most + 1, file);
    if (bytes && ferror(file)) free(bytes), bytes = NULL;
    fclose(file);
    return bytes;
}
