/* host.h: the parts of cilknow-node. */
#ifndef HOST_H
#define HOST_H
#include "../cilknow.h"
#include <stdatomic.h>
#include <stdbool.h>
#include <stdio.h>
#include <sys/socket.h>

/* Statuses, as those of `cilknow` (docs/COMMANDS.md). */
enum { STATUS_OK, STATUS_REFUSED, STATUS_USAGE, STATUS_NONE, STATUS_FILE };

/* -- words.c: what the command line asks for -- */
struct faults {
    uint64_t lose, repeat, late; /* of so many datagrams one; none for 0 */
    uint64_t seed;
    uint64_t deaf_from, deaf_to; /* milliseconds since it was started, in which nothing comes or goes */
};
struct words {
    bool house;
    const char *file, *store, *address, *key, *trace; /* null where it is left out */
    int64_t input[64];
    size_t inputs;
    uint64_t job, grain, bodies, silence_ms, grace_ms, patience_ms, linger_ms;
    bool stats;
    struct faults faults;
};
int words_of(int count, char **given, struct words *words); /* a status */

/* -- tell.c: what is told on standard error -- */
void tell(const char *form, ...) __attribute__((format(printf, 1, 2)));
/* How many events an actor has done, and how many packets it has sent. Workers of one command look at each other's. */
struct progress { _Atomic uint64_t events, packets; };
void progress_shows(const struct progress *of, size_t count, uint64_t begun, uint64_t now, const size_t *seen);
void progress_ends(void);
enum { KIND_AT = 3 };              /* where a packet's kind stands */
struct kinds { uint64_t of[16]; }; /* how many packets, by their kinds */
void kinds_count(struct kinds *kinds, const uint8_t *packet);
void kinds_tell(const struct kinds *kinds);
int refused(int64_t error);                           /* tells an error of the library by its number; a status */
uint64_t micros(void);                                /* a clock that no one sets back */
uint64_t draw(uint64_t *seed);                        /* a number by chance, from a seed */
bool random_bytes(void *to, size_t len);              /* by the system, for words and names */
uint8_t *file_bytes(const char *path, size_t most, size_t *len); /* null where it can't be read */

/* -- wire.c: datagrams -- */
struct peer {
    struct sockaddr_storage at;
    socklen_t len;
};
enum { KEY = 32, PART = 1300 };
enum kind { KIND_PACKET = 'P', KIND_HANDED = 'F', KIND_OUTCOME = 'O', KIND_HEARD = 'A', KIND_ASKS = 'J', KIND_JOB = 'T' };
/* What a datagram says. A packet's part has whom the packet goes to and who sent it, the packet's own number, which of how
 * many parts it is, and, where it was handed on, from where the sender sent it. */
struct said {
    enum kind kind;
    struct peer from;
    uint64_t to, sender, id;
    uint16_t number, count;
    struct peer origin;
    const uint8_t *bytes;
    size_t len;
};
struct wire {
    int socket;
    uint8_t door[KEY], key[KEY]; /* of what joining takes, and of this job's */
    struct faults faults;
    uint64_t begun;
    uint64_t sent, came, wrong, lost; /* datagrams */
    struct { struct peer to; uint8_t bytes[64 + PART + 128]; size_t len; unsigned behind; } late;
};
bool wire_open(struct wire *wire, const char *address, bool listens, struct peer *there, const struct words *words);
void wire_bind(struct wire *wire, uint64_t job, const uint8_t *line, size_t len); /* the key of a job, by its line */
void wire_say(struct wire *wire, const struct said *said, const struct peer *to);
bool wire_hear(struct wire *wire, struct said *said);   /* false where nothing is there; what isn't tagged rightly is dropped */
void wire_wait(struct wire *wire, uint64_t most_micros);
void wire_tell(const struct wire *wire); /* its counts */
/* Sends a packet in its parts. */
void wire_packet(struct wire *wire, const struct peer *to, uint64_t sender, const uint8_t *bytes, size_t len);
/* The packet that a part completes, or null. It stays until the next call. */
const uint8_t *wire_join(const struct said *part, size_t *len);

/* Where workers are, by their words. */
struct known {
    struct { uint64_t word; struct peer at; bool heard; } of[16384];
    size_t count;
};
struct peer *known_at(struct known *known, uint64_t word);
void known_learn(struct known *known, uint64_t word, const struct peer *at);

/* -- trace.c: what an actor did, for who checks it afterwards -- */
struct trace { FILE *file; };
bool trace_open(struct trace *trace, const char *folder, const char *name, const char *how);
void trace_event(struct trace *trace, const char *form, ...) __attribute__((format(printf, 2, 3)));
void trace_ask(struct trace *trace, uint64_t victim);
void trace_packet(struct trace *trace, const char *word, const uint8_t *bytes, size_t len);
void trace_flush(struct trace *trace);
void trace_close(struct trace *trace);

/* -- store.c: the clearinghouse's file -- */
struct store { int file; };
int store_open(struct store *store, const struct words *words, const uint8_t *text, size_t text_len, uint8_t **content,
               size_t *len);                                                        /* a status */
bool store_keep(struct store *store, cilknow_actor *house, struct trace *trace);    /* does what waits to be done */

int run_house(const struct words *words);
/* What it does is counted in `progress`; it shows what so many from there on have done, none for 0. */
int run_worker(const struct words *words, struct progress *progress, size_t shows);
#endif
