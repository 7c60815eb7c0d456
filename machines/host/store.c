/* store.c: the file of the clearinghouse, and the one beside it, which says whose it is. */
#include "host.h"
#include <errno.h>
#include <fcntl.h>
#include <libgen.h>
#include <stdlib.h>
#include <string.h>
#include <sys/file.h>
#include <unistd.h>

/* A file's first bytes that an actor looks at. */
enum { CONTENT = 8192, LINE = 79 };

static int file_fault(const char *path) {
    tell("%s: %s", path, strerror(errno));
    return STATUS_FILE;
}

/* That a file is there is on the disk. */
static bool sync_folder(const char *path) {
    char copy[4096];
    snprintf(copy, sizeof copy, "%s", path);
    int folder = open(dirname(copy), O_RDONLY | O_DIRECTORY | O_CLOEXEC);
    bool done = folder >= 0 && !fsync(folder);
    if (folder >= 0) close(folder);
    return done;
}

/* Whether bytes are the beginning of such a line. */
static bool is_beginning(const uint8_t *bytes, size_t len) {
    static const char head[] = "cilknow-job 1 ";
    for (size_t i = 0; i < len; i++) {
        uint8_t it = bytes[i];
        bool fits = i < sizeof head - 1 ? it == (uint8_t)head[i] : i < LINE - 1 ? (it >= '0' && it <= '9') || (it >= 'a' && it <= 'f') : i == LINE - 1 && it == '\n';
        if (!fits) return false;
    }
    return true;
}

/* The file beside a store: made where the store is new, and looked at where it isn't. */
static int store_begin(const struct words *words, const uint8_t *line, size_t line_len, bool is_new) {
    char beside[4096];
    size_t len;
    snprintf(beside, sizeof beside, "%s.job", words->store);
    uint8_t *said = file_bytes(beside, LINE, &len);
    if (!said && errno != ENOENT) return file_fault(beside);
    bool is_there = said, is_own = said && len == line_len && !memcmp(said, line, len), is_line = said && len == LINE && is_beginning(said, len), is_begun = said && is_beginning(said, len);
    free(said);
    if (!is_new && !is_there) {
        tell("%s says nothing: the store is believed to be of this program and input", beside);
        return STATUS_OK;
    }
    if (is_own) return STATUS_OK;
    if (!is_new || !is_begun) {
        if (is_there && is_line && !is_new) return refused(CILKNOW_OTHER_JOB);
        if (is_there) return refused(CILKNOW_NO_STORE);
    }
    FILE *file = fopen(beside, "wb");
    if (!file) return file_fault(beside);
    bool done = fwrite(line, 1, line_len, file) == line_len && !fflush(file) && !fsync(fileno(file));
    done &= !fclose(file);
    if (!done || !sync_folder(beside)) return file_fault(beside);
    return STATUS_OK;
}

int store_open(struct store *store, const struct words *words, const uint8_t *text, size_t text_len, uint8_t **content, size_t *len) {
    uint8_t line[LINE];
    int32_t own = cilknow_job_line(text, text_len, words->input, words->inputs, line, sizeof line);
    if (own < 0) return refused(own);
    store->file = open(words->store, O_RDWR | O_CREAT | O_CLOEXEC, 0666);
    if (store->file < 0) return file_fault(words->store);
    if (flock(store->file, LOCK_EX | LOCK_NB)) {
        if (errno != EWOULDBLOCK) return file_fault(words->store);
        tell("%s: another run has it", words->store);
        return STATUS_FILE;
    }
    *content = malloc(CONTENT + 1);
    if (!*content) return refused(CILKNOW_MEMORY_JOB);
    for (*len = 0;;) {
        ssize_t came = pread(store->file, *content + *len, CONTENT - *len, (off_t)*len);
        if (came < 0 && errno == EINTR) continue;
        if (came < 0) return file_fault(words->store);
        if (came == 0) break;
        *len += (size_t)came;
    }
    return store_begin(words, line, (size_t)own, *len == 0);
}

static bool write_all(int file, const uint8_t *bytes, size_t len, uint64_t at) {
    while (len) {
        ssize_t went = pwrite(file, bytes, len, (off_t)at);
        if (went < 0 && errno == EINTR) continue;
        if (went <= 0) return false;
        bytes += went, len -= (size_t)went, at += (uint64_t)went;
    }
    return true;
}

/* The third write of a commit, which opens the gate, is the moment from which on the file has the record. What led to it is in the trace just
 * before: so one who is killed leaves a file and a trace of one run, but for that moment. */
enum { OPENS = 3 };

bool store_keep(struct store *store, cilknow_actor *house, struct trace *trace) {
    static uint8_t call[CILKNOW_FILE_LONGEST];
    int64_t len;
    int writes = 0;
    while ((len = cilknow_file_call(house, call, sizeof call)) > 0) {
        uint64_t number = cilknow_file_number(call);
        bool done = false;
        if (call[0] == 1 && ++writes == OPENS) trace_flush(trace);
        if (call[0] == 1) done = write_all(store->file, call + 9, (size_t)len - 9, number);
        else if (call[0] == 2) done = !ftruncate(store->file, (off_t)number);
        else if (call[0] == 3) done = !fsync(store->file);
        if (!done) return tell("the store: %s", strerror(errno)), false;
    }
    return len == 0;
}
