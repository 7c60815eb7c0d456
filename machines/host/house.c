/* house.c: the clearinghouse, over its file, until the outcome is there and was told to the workers. */
#include "host.h"
#include <errno.h>
#include <inttypes.h>
#include <signal.h>
#include <stdlib.h>
#include <string.h>
#include <unistd.h>

/* A value that is to be saved costs a commit of some milliseconds, for which whoever joins waits: of these packets one is taken in
 * so many microseconds, the first one so long behind the first worker that asks for the job, and the others count as lost: a worker
 * sends each once. */
enum { SAVES = 100000, KIND_SAVE = 14 };

/* Behind the outcome it ends once all workers have heard it and for so long nobody came who hasn't. */
enum { QUIET = 300000 };

struct house {
    const struct words *words;
    struct wire wire;
    struct known known;
    struct store store;
    struct trace trace;
    cilknow_actor *actor;
    uint8_t *job; /* what a worker gets that joins */
    size_t job_len;
    uint64_t begun, ticked, saved, ended, said, stirred, handed_on, unsaved, ignored;
    struct progress progress;
    struct kinds kinds;
    int64_t kind, value;
};

static volatile sig_atomic_t ends;
static void end(int none) { (void)none, ends = 1; }

/* What was done to the file is done to it, and then what it sends goes out; whether that was so. */
static bool sends(struct house *house) {
    static uint8_t bytes[CILKNOW_LONGEST];
    static struct { uint8_t *bytes; size_t len; } kept[4097];
    size_t count = 0;
    int64_t len;
    if (!store_keep(&house->store, house->actor, &house->trace)) return false;
    while (count < 4097 && (len = cilknow_packet(house->actor, bytes, sizeof bytes)) > 0) {
        trace_packet(&house->trace, "sent", bytes, (size_t)len);
        kept[count].bytes = malloc((size_t)len);
        if (!kept[count].bytes) continue; /* (as lost) */
        memcpy(kept[count].bytes, bytes, (size_t)len);
        kept[count++].len = (size_t)len;
    }
    trace_flush(&house->trace);
    for (size_t i = 0; i < count; i++) {
        const struct peer *at = known_at(&house->known, cilknow_address(kept[i].bytes));
        house->progress.packets++;
        kinds_count(&house->kinds, kept[i].bytes);
        if (at) wire_packet(&house->wire, at, 0, kept[i].bytes, kept[i].len);
        free(kept[i].bytes);
    }
    return true;
}

static bool takes(struct house *house, const uint8_t *bytes, size_t len, uint64_t now) {
    if (len > KIND_AT && bytes[KIND_AT] == KIND_SAVE) {
        if (now - house->saved < SAVES) return house->unsaved++, true;
        house->saved = now;
    }
    int64_t did = cilknow_take(house->actor, bytes, len);
    if (did >= 0 || did <= -40) trace_packet(&house->trace, "take", bytes, len);
    house->progress.events++;
    house->ignored += did != 0;
    return sends(house);
}

static void says_outcome(struct house *house, const struct peer *to) {
    struct said said = {.kind = KIND_OUTCOME, .to = (uint64_t)house->kind, .id = (uint64_t)house->value};
    wire_say(&house->wire, &said, to);
}

/* What is to be computed: the job's number, its input and its text. */
static void says_job(struct house *house, uint64_t id, const struct peer *to) {
    struct said said = {.kind = KIND_JOB, .id = id, .count = (uint16_t)((house->job_len + PART - 1) / PART)};
    for (size_t at = 0; at < house->job_len; at += PART, said.number++) {
        said.bytes = house->job + at, said.len = house->job_len - at < PART ? house->job_len - at : PART;
        wire_say(&house->wire, &said, to);
    }
}

static void hands_on(struct house *house, struct said *said) {
    const struct peer *at = known_at(&house->known, said->to);
    if (!at) return;
    said->kind = KIND_HANDED, said->origin = said->from;
    house->handed_on++;
    wire_say(&house->wire, said, at);
}

/* A datagram. Whether the file could be written. */
static bool hears(struct house *house, struct said *said, uint64_t now) {
    if (said->kind == KIND_ASKS || said->kind == KIND_PACKET) house->stirred = now;
    if (said->kind == KIND_ASKS) {
        if (!house->known.count) house->saved = now;
        return says_job(house, said->id, &said->from), true;
    }
    if (said->kind == KIND_HEARD && house->ended) {
        for (size_t i = 0; i < sizeof house->known.of / sizeof house->known.of[0]; i++)
            if (house->known.of[i].word == said->id) house->known.of[i].heard = true;
        return true;
    }
    if (said->kind != KIND_PACKET) return true;
    known_learn(&house->known, said->sender, &said->from);
    if (house->ended) return says_outcome(house, &said->from), true;
    if (!cilknow_to_house(said->to)) return hands_on(house, said), true;
    size_t len;
    const uint8_t *packet = wire_join(said, &len);
    return !packet || takes(house, packet, len, now);
}

/* The outcome is said to all that haven't heard it; how many these are. */
static size_t says_on(struct house *house) {
    size_t left = 0;
    for (size_t i = 0; i < sizeof house->known.of / sizeof house->known.of[0]; i++)
        if (house->known.of[i].word && !house->known.of[i].heard) says_outcome(house, &house->known.of[i].at), left++;
    return left;
}

/* Moments, of which 500 are as long as a worker may be silent. */
static bool ticks(struct house *house, uint64_t now) {
    uint64_t moment = house->words->silence_ms * 1000 / 500;
    if (now - house->ticked < 5 * moment) return true;
    house->ticked = now;
    uint64_t number = (now - house->begun) / moment;
    if (cilknow_tick(house->actor, number) == 0) trace_event(&house->trace, "house-tick %" PRIu64, number);
    house->progress.events++;
    return sends(house);
}

static bool told(struct house *house) {
    house->kind = cilknow_outcome(house->actor, &house->value);
    if (house->kind == 0) return false;
    progress_ends();
    if (house->kind == 1) printf("value %" PRId64 "\n", house->value);
    else if (house->kind == 2) printf("too deep\n");
    fflush(stdout);
    return true;
}

static int goes_on(struct house *house) {
    house->begun = house->ticked = micros();
    uint64_t moment = house->words->silence_ms * 1000 / 500;
    for (;;) {
        struct said said;
        uint64_t now = micros();
        for (int i = 0; i < 256 && wire_hear(&house->wire, &said); i++)
            if (!hears(house, &said, now)) return STATUS_NONE;
        if (ends) return house->ended ? STATUS_OK : (tell("there is no outcome yet; another start over the store goes on"), STATUS_NONE);
        now = micros();
        if (!house->ended) {
            progress_shows(&house->progress, 1, house->begun, now, &house->known.count);
            if (!ticks(house, now)) return STATUS_NONE;
            if (cilknow_state(house->actor) == CILKNOW_STOPPED) return refused(cilknow_outcome(house->actor, &house->value));
            if (told(house)) house->ended = now;
        }
        if (house->ended && now - house->said > 100000) {
            house->said = now;
            size_t left = says_on(house);
            bool is_quiet = now - house->stirred > QUIET && now - house->ended > QUIET;
            if ((!left && is_quiet) || now - house->ended > house->words->linger_ms * 1000) return STATUS_OK;
        }
        wire_wait(&house->wire, house->ended ? 20000 : 5 * moment);
    }
}

/* The job as workers get it. */
static bool makes_job(struct house *house, const uint8_t *text, size_t text_len) {
    const struct words *words = house->words;
    house->job_len = 16 + 8 * words->inputs + text_len;
    house->job = malloc(house->job_len);
    if (!house->job) return false;
    uint8_t *at = house->job;
    for (int i = 56; i >= 0; i -= 8) *at++ = (uint8_t)(words->job >> i);
    for (int i = 56; i >= 0; i -= 8) *at++ = (uint8_t)((uint64_t)words->inputs >> i);
    for (size_t n = 0; n < words->inputs; n++)
        for (int i = 56; i >= 0; i -= 8) *at++ = (uint8_t)((uint64_t)words->input[n] >> i);
    memcpy(at, text, text_len);
    return true;
}

int run_house(const struct words *words) {
    static struct house house;
    uint8_t line[79], *content;
    size_t text_len, len;
    struct peer own;
    house.words = words;
    uint8_t *text = file_bytes(words->file, 65536, &text_len);
    if (!text) return tell("%s: %s", words->file, strerror(errno)), STATUS_FILE;
    int32_t named = cilknow_job_line(text, text_len, words->input, words->inputs, line, sizeof line);
    if (named < 0) return refused(named);
    if (!wire_open(&house.wire, words->address, true, &own, words)) return STATUS_FILE;
    wire_bind(&house.wire, words->job, line, (size_t)named);
    int status = store_open(&house.store, words, text, text_len, &content, &len);
    if (status) return status;
    if (!makes_job(&house, text, text_len)) return refused(CILKNOW_MEMORY_JOB);
    int32_t error = cilknow_house(text, text_len, words->input, words->inputs, words->job, content, len, &house.actor);
    if (error) return refused(error);
    free(content), free(text);
    if (!trace_open(&house.trace, words->trace, "house", "a")) return STATUS_FILE;
    trace_event(&house.trace, "house-restart");
    signal(SIGTERM, end), signal(SIGINT, end), signal(SIGHUP, end);
    /* (its epoch is on the disk behind this) */
    status = sends(&house) ? STATUS_OK : STATUS_NONE;
    if (!status && !told(&house)) status = goes_on(&house);
    progress_ends();
    if (words->stats) {
        fprintf(stderr, "workers seen %zu\n", house.known.count);
        kinds_tell(&house.kinds);
        fprintf(stderr, "packets ignored or refused %" PRIu64 "\npackets handed on %" PRIu64 "\nsaves passed over %" PRIu64 "\n", house.ignored, house.handed_on, house.unsaved);
        wire_tell(&house.wire);
    }
    trace_close(&house.trace);
    cilknow_end(house.actor);
    return status;
}
