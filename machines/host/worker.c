/* worker.c: a worker, which gets the job from the clearinghouse's process and computes until it is over. */
#include "host.h"
#include <errno.h>
#include <inttypes.h>
#include <sched.h>
#include <signal.h>
#include <stdlib.h>
#include <string.h>
#include <unistd.h>

/* In microseconds: after which time it sends again what isn't answered, where somebody asks whom it doesn't know, at first and at
 * most; after which time it says that it is there; how long it pauses between two requests for work, at first and at most, and at
 * least between two that it makes while it has some; how long it stays awake for an answer, which comes sooner than the system wakes
 * who sleeps; and after which time in a row with work it looks at what came. Of packets: the kind of a request for work. Of a task:
 * how many turns take longer than a request and its answer. */
enum { UNKNOWN = 500, AGAIN = 2000, LATEST_AGAIN = 100000, THERE = 200000, PAUSE = 20, LONGEST_PAUSE = 50000, AHEAD = 1000, AWAKE = 100 };
enum { SLICE = 500 };
enum { KIND_STEAL = 3 };
enum { LONG = 8192 };
/* So many answers to requests for work are looked at, of how long they took. */
enum { TRIPS = 4096 };

struct worker {
    const struct words *words;
    struct wire wire;
    struct known known;
    struct peer house;
    struct trace trace;
    cilknow_actor *actor;
    uint8_t *text;
    size_t text_len, inputs;
    int64_t *input;
    uint64_t job, word, random;
    uint64_t sent_at, again, ask_at, ahead_at, pause, heard, told_to_go, resent;
    bool over, leaves, by_house;
    struct progress *progress;
    struct kinds kinds;
    uint64_t turns, wholes, turns_in_them, last_turns, asks, starts, ignored;
    uint64_t asked_at, answers;
    uint32_t trips[TRIPS];
};

static volatile sig_atomic_t ends;
static void end(int none) { (void)none, ends = 1; }

static uint64_t number_at(const uint8_t *from) {
    uint64_t number = 0;
    for (int i = 0; i < 8; i++) number = number << 8 | from[i];
    return number;
}

/* What was sent goes out: to the clearinghouse, to a worker whose address is known, or by the clearinghouse's process. */
static void sends_packet(struct worker *worker, const uint8_t *bytes, size_t len) {
    uint64_t to = cilknow_address(bytes);
    const struct peer *at = cilknow_to_house(to) || worker->by_house ? NULL : known_at(&worker->known, to);
    worker->progress->packets++;
    kinds_count(&worker->kinds, bytes);
    wire_packet(&worker->wire, at ? at : &worker->house, worker->word, bytes, len);
}

static void sends(struct worker *worker) {
    static uint8_t bytes[CILKNOW_LONGEST];
    struct kept { struct kept *next; size_t len; uint8_t bytes[]; } *first = NULL, **last = &first;
    int64_t len;
    while ((len = cilknow_packet(worker->actor, bytes, sizeof bytes)) > 0) {
        if (!worker->trace.file) {
            sends_packet(worker, bytes, (size_t)len);
            continue;
        }
        /* (what it sent is in the trace before it goes out) */
        trace_packet(&worker->trace, "sent", bytes, (size_t)len);
        struct kept *one = malloc(sizeof *one + (size_t)len);
        if (!one) continue; /* (as lost) */
        one->next = NULL, one->len = (size_t)len;
        memcpy(one->bytes, bytes, (size_t)len);
        *last = one, last = &one->next;
    }
    if (first) trace_flush(&worker->trace);
    while (first) {
        struct kept *one = first;
        first = one->next;
        sends_packet(worker, one->bytes, one->len);
        free(one);
    }
}

/* A node starts, with a word that no one had or will have: 63 bits by chance. */
static int starts(struct worker *worker) {
    char name[32];
    do {
        if (!random_bytes(&worker->word, 8)) return tell("no numbers by chance"), STATUS_NONE;
        worker->word >>= 1;
    } while (!worker->word);
    worker->random = worker->word, worker->pause = worker->ask_at = worker->last_turns = 0, worker->sent_at = micros(), worker->again = AGAIN;
    worker->starts++, worker->progress->events++;
    int32_t error = cilknow_node(worker->text, worker->text_len, worker->input, worker->inputs, worker->job, worker->word,
                                 worker->words->grain, &worker->actor);
    if (error) return refused(error);
    snprintf(name, sizeof name, "%" PRIu64, worker->word);
    if (!trace_open(&worker->trace, worker->words->trace, name, "w")) return STATUS_FILE;
    trace_event(&worker->trace, "start 0 %" PRIu64, worker->word);
    sends(worker);
    return STATUS_OK;
}

static void takes(struct worker *worker, const struct said *part) {
    size_t len;
    const uint8_t *packet = wire_join(part, &len);
    if (!packet) return;
    bool asked = cilknow_asked(worker->actor) == 1;
    int64_t did = cilknow_take(worker->actor, packet, len);
    worker->progress->events++;
    worker->ignored += did != 0;
    if (asked && cilknow_asked(worker->actor) != 1) worker->trips[worker->answers++ % TRIPS] = (uint32_t)(micros() - worker->asked_at);
    if (did >= 0 || (did <= -40 && did != CILKNOW_MEMORY)) trace_packet(&worker->trace, "take", packet, len);
    /* (it answers nobody whom it doesn't know to be there; to say that it is there itself brings the clearinghouse's latest list) */
    if (did == 1 && packet[KIND_AT] == KIND_STEAL) worker->again = UNKNOWN;
    sends(worker);
}

static void hears(struct worker *worker, const struct said *said, uint64_t now) {
    worker->heard = now;
    switch (said->kind) {
    case KIND_PACKET: known_learn(&worker->known, said->sender, &said->from), takes(worker, said); break;
    case KIND_HANDED: known_learn(&worker->known, said->sender, &said->origin), takes(worker, said); break;
    case KIND_OUTCOME: {
        struct said answer = {.kind = KIND_HEARD, .id = worker->word};
        wire_say(&worker->wire, &answer, &said->from);
        worker->over = true;
        break;
    }
    default: break;
    }
}

static void resends(struct worker *worker, uint64_t now) {
    worker->sent_at = now, worker->again = worker->again * 2 < LATEST_AGAIN ? worker->again * 2 : LATEST_AGAIN;
    /* (one time in four by the clearinghouse's process: the direct way may be closed) */
    worker->by_house = ++worker->resent % 4 == 0;
    if (cilknow_resend(worker->actor) == 0) trace_event(&worker->trace, "resend 0"), sends(worker);
    worker->progress->events++;
    worker->by_house = false;
}

/* Another live worker by chance, 0 where none is found. */
static uint64_t other(struct worker *worker) {
    uint64_t members = (uint64_t)cilknow_members(worker->actor), from = members ? draw(&worker->random) % members : 0;
    for (uint64_t i = 0; i < members; i++) {
        uint64_t word = cilknow_member(worker->actor, (from + i) % members);
        if (word && word != worker->word) return word;
    }
    return 0;
}

/* Asks another worker for work, or in one of eight times the clearinghouse. */
static void asks(struct worker *worker, uint64_t now) {
    uint64_t victim = draw(&worker->random) % 8 ? other(worker) : 0;
    if (cilknow_ask(worker->actor, victim)) return;
    worker->asks++, worker->progress->events++;
    worker->asked_at = micros();
    trace_ask(&worker->trace, victim);
    sends(worker);
    worker->sent_at = now, worker->again = AGAIN;
    /* (so that it has waited for a quarter of the time that it has had none already, at most) */
    worker->pause = !worker->pause ? PAUSE : worker->pause + worker->pause / 4 < LONGEST_PAUSE ? worker->pause + worker->pause / 4 : LONGEST_PAUSE;
    worker->ask_at = now + worker->pause;
}

/* Before it carries out the only ready frame it asks for the next one, where that frame's task may take long: whom it asks looks at
 * what came only behind a task of its own. */
static void asks_ahead(struct worker *worker) {
    if (worker->last_turns < LONG || worker->told_to_go || cilknow_asked(worker->actor) == 1) return;
    if (cilknow_ready(worker->actor) != 1 || cilknow_ready_beyond(worker->actor, 1) == 1) return;
    uint64_t now = micros();
    if (now < worker->ahead_at) return;
    worker->ahead_at = now + AHEAD;
    asks(worker, now);
}

/* Carries out ready frames; whether one was there. */
static bool works(struct worker *worker, uint64_t now) {
    for (int count = 0;; count++) {
        asks_ahead(worker);
        int64_t did = cilknow_work(worker->actor);
        if (did <= 0) return count > 0;
        worker->pause = worker->ask_at = 0;
        worker->progress->events++;
        uint64_t turns = did == 2 ? cilknow_last_turns(worker->actor) : 0;
        if (turns) worker->last_turns = turns;
        worker->turns += did == 1, worker->wholes += did == 2, worker->turns_in_them += turns;
        if (worker->trace.file) {
            uint64_t minter = cilknow_last_minter(worker->actor), grant = cilknow_last_grant(worker->actor), frame = cilknow_last_frame(worker->actor);
            if (did == 2) trace_event(&worker->trace, "whole 0 %" PRIu64 " %" PRIu64 " %" PRIu64 " %" PRIu64, minter, grant, frame, turns);
            else trace_event(&worker->trace, "exec 0 %" PRIu64 " %" PRIu64 " %" PRIu64, minter, grant, frame);
        }
        sends(worker);
        if (count >= 64 || micros() - now > SLICE) return true;
    }
}

/* Hands its work to another worker. Where there is none it ends as by a crash: its work is done again. */
static void leaves(struct worker *worker) {
    int64_t state = cilknow_state(worker->actor);
    if (state == CILKNOW_JOINING || state == CILKNOW_ENDED) {
        worker->over = true;
        return;
    }
    if (state == CILKNOW_LEAVING || cilknow_asked(worker->actor) == 1) return;
    uint64_t heir = other(worker);
    int64_t did = heir ? cilknow_depart(worker->actor, heir) : CILKNOW_NOT_JOINED;
    if (did == 0) {
        trace_event(&worker->trace, "depart 0 %" PRIu64, heir);
        worker->progress->events++;
        sends(worker);
    } else if (!heir) worker->over = true;
}

/* One step. In how many microseconds there may be more to do. */
static uint64_t goes_on(struct worker *worker, uint64_t now) {
    int64_t state = cilknow_state(worker->actor);
    bool waits = state != CILKNOW_MEMBER || cilknow_asked(worker->actor) == 1;
    uint64_t again = waits || worker->again <= AGAIN ? worker->again : THERE;
    if (now - worker->sent_at >= again) {
        resends(worker, now);
        return 0;
    }
    if (worker->told_to_go) leaves(worker);
    else if (state == CILKNOW_MEMBER) {
        if (works(worker, now)) return 0;
        if (cilknow_asked(worker->actor) != 1) {
            if (now >= worker->ask_at) asks(worker, now);
            else if (worker->ask_at - now < again) again = worker->ask_at - now;
        }
    }
    uint64_t due = worker->sent_at + again;
    return due > now ? due - now < LONGEST_PAUSE ? due - now : LONGEST_PAUSE : 1;
}

/* Until something comes, for at most so many microseconds. */
static void rests(struct worker *worker, uint64_t most) {
    bool soon = cilknow_asked(worker->actor) == 1 && micros() - worker->asked_at < AWAKE;
    if (soon) (void)sched_yield();
    else wire_wait(&worker->wire, most);
}

/* Gets the job: its number, its input and its text. A status, or -1 where it is told to go. */
static int joins(struct worker *worker) {
    struct said ask = {.kind = KIND_ASKS};
    uint8_t *job = NULL, *has = NULL;
    size_t len = 0, have = 0, count = 0;
    uint64_t begun = micros(), asked = 0;
    bool told = false;
    if (!random_bytes(&ask.id, 8)) return tell("no numbers by chance"), STATUS_NONE;
    while (!count || have < count) {
        struct said said;
        uint64_t now = micros();
        if (ends) return -1;
        if (!asked || now - asked > 200000) wire_say(&worker->wire, &ask, &worker->house), asked = now;
        if (!told && now - begun > 2000000) told = true, tell("waits for %s", worker->words->address);
        if (worker->words->patience_ms && now - begun > worker->words->patience_ms * 1000) return tell("nothing comes from %s", worker->words->address), STATUS_NONE;
        while (wire_hear(&worker->wire, &said)) {
            if (said.kind != KIND_JOB || said.id != ask.id || !said.count || said.number >= said.count || said.len > PART || (count && said.count != count)) continue;
            if (!count) {
                job = calloc(said.count, PART), has = calloc(said.count, 1);
                if (!job || !has) return refused(CILKNOW_MEMORY_JOB);
                count = said.count;
            }
            if (has[said.number]) continue;
            has[said.number] = 1, have++;
            memcpy(job + (size_t)said.number * PART, said.bytes, said.len);
            len += said.len;
        }
        if (!count || have < count) wire_wait(&worker->wire, 50000);
    }
    free(has);
    worker->inputs = len >= 16 ? (size_t)number_at(job + 8) : SIZE_MAX;
    if (worker->inputs > 64 || len < 16 + 8 * worker->inputs) return tell("no job comes from %s", worker->words->address), STATUS_NONE;
    worker->job = number_at(job);
    worker->input = malloc(8 * worker->inputs + 8);
    if (!worker->input) return refused(CILKNOW_MEMORY_JOB);
    for (size_t i = 0; i < worker->inputs; i++) worker->input[i] = (int64_t)number_at(job + 16 + 8 * i);
    worker->text = job + 16 + 8 * worker->inputs, worker->text_len = len - 16 - 8 * worker->inputs;
    uint8_t line[79];
    int32_t named = cilknow_job_line(worker->text, worker->text_len, worker->input, worker->inputs, line, sizeof line);
    if (named < 0) return refused(named);
    wire_bind(&worker->wire, worker->job, line, (size_t)named);
    return STATUS_OK;
}

static int computes(struct worker *worker, size_t shows) {
    int status = starts(worker);
    uint64_t begun = worker->heard = micros();
    while (!status && !worker->over) {
        struct said said;
        uint64_t now = micros();
        for (int i = 0; i < 64 && !worker->over && wire_hear(&worker->wire, &said); i++) hears(worker, &said, now);
        if (worker->over) break;
        if (ends && !worker->told_to_go) worker->told_to_go = now;
        if (worker->told_to_go && now - worker->told_to_go > worker->words->grace_ms * 1000) {
            tell("couldn't hand its work on in time");
            break;
        }
        if (worker->words->patience_ms && now - worker->heard > worker->words->patience_ms * 1000) return tell("nothing comes from %s", worker->words->address), STATUS_NONE;
        if (cilknow_state(worker->actor) == CILKNOW_ENDED) {
            if (worker->told_to_go) break;
            /* it was taken for dead, or the clearinghouse began anew: another node starts */
            trace_event(&worker->trace, "crash 0");
            trace_close(&worker->trace);
            cilknow_end(worker->actor);
            status = starts(worker);
            continue;
        }
        progress_shows(worker->progress, shows, begun, now, NULL);
        uint64_t rest = goes_on(worker, now);
        if (rest && !worker->over) rests(worker, rest);
    }
    return status;
}

static int is_longer(const void *a, const void *b) {
    uint32_t x = *(const uint32_t *)a, y = *(const uint32_t *)b;
    return (x > y) - (x < y);
}

static void counted(struct worker *worker) {
    size_t answers = worker->answers < TRIPS ? (size_t)worker->answers : TRIPS;
    fprintf(stderr, "worker %" PRIu64 "\nstarts %" PRIu64 "\nturns %" PRIu64 "\n", worker->word, worker->starts, worker->turns);
    if (worker->wholes) fprintf(stderr, "tasks evaluated whole %" PRIu64 "\nturns in them %" PRIu64 "\n", worker->wholes, worker->turns_in_them);
    fprintf(stderr, "steals asked %" PRIu64 "\n", worker->asks);
    if (answers) {
        qsort(worker->trips, answers, sizeof worker->trips[0], is_longer);
        fprintf(stderr, "microseconds to an answer, least %" PRIu32 "\nmicroseconds to an answer, median %" PRIu32 "\n", worker->trips[0], worker->trips[answers / 2]);
    }
    kinds_tell(&worker->kinds);
    fprintf(stderr, "packets ignored or refused %" PRIu64 "\n", worker->ignored);
    wire_tell(&worker->wire);
}

int run_worker(const struct words *words, struct progress *progress, size_t shows) {
    static struct worker worker;
    worker.words = words, worker.progress = progress;
    signal(SIGTERM, end), signal(SIGINT, end);
    if (!wire_open(&worker.wire, words->address, false, &worker.house, words)) return STATUS_FILE;
    int status = joins(&worker);
    if (status) return status < 0 ? STATUS_OK : status;
    status = computes(&worker, shows);
    progress_ends();
    if (words->stats) counted(&worker);
    trace_event(&worker.trace, "crash 0");
    trace_close(&worker.trace);
    if (worker.actor) cilknow_end(worker.actor);
    return status;
}
