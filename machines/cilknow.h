/* cilknow.h: the proved actors of Cilk-NOW for a host program in C or C++.
 *
 * A job is run by one clearinghouse and any number of nodes. The library has both as actors that do no input or output:
 * the host hands in what happens (a start, bytes that came, a moment, a wish to work, to ask, to leave), and takes the
 * packets that are to be sent. It may carry them by whatever it likes: an array, sockets, a message queue. Packets may
 * be lost, come late, come twice or out of order; they must not be altered.
 *
 * Proved of each call is that it is one case of the protocol, of which is proved for all orders of calls and all fates
 * of packets: no slot is filled twice, each value is the serial program's, and an outcome that the clearinghouse has
 * told is the serial program's and stays. docs/MACHINES.md tells which part of that rests on the host. It promises:
 *
 *   H1  A packet is handed to an actor only as the bytes that some actor of this job gave out (cilknow_packet).
 *   H2  All actors have the same text, input and job number.
 *   H3  A start word (1 to 2^63 - 1) is used for one start only, over all machines and for the life of the store.
 *   H4  The clearinghouse's file is its own: no one else writes it, and one process has it at a time (flock). What
 *       cilknow_file_call gives is done to it, in that order, each before the next is taken; where one fails the actor
 *       is ended. A crash leaves of the file what was synced, and of the bytes written since then any.
 *   H5  Calls on one actor come one at a time. Different actors are independent: they may be on different threads. An
 *       actor stays on the thread that made it.
 *   H6  What `actor` points to is an actor that a call below made in this process, also one that was ended; the library
 *       alone reads and writes there. Buffers are as long as is said, and not null, also where they have no bytes.
 *   H7  A packet is sent only after the call that made it has returned, and nothing that an actor gave out is taken back.
 *
 * Breaking H1 to H4 may lead to a wrong outcome; breaking H5 or H6 is undefined behaviour. Nothing else is: any bytes,
 * numbers and orders of calls may be handed in. The library takes memory by malloc, realloc and free, answers
 * CILKNOW_MEMORY or CILKNOW_MEMORY_JOB where there is none, starts no thread, takes no lock, opens no file and keeps
 * nothing between actors. */
#ifndef CILKNOW_H
#define CILKNOW_H
#include <stddef.h>
#include <stdint.h>
#ifdef __cplusplus
extern "C" {
#endif

typedef struct cilknow_actor cilknow_actor;

/* Answers below 0 are errors: the number of docs/ERRORS.md, negated. */
enum {
    CILKNOW_OK = 0,
    CILKNOW_TEXT = -2,       /* -2 to -6: the text isn't read; -10 to -18: its kinds are wrong; -21: the input's count */
    CILKNOW_MEMORY_JOB = -9, /* no memory for a job, or at the clearinghouse, which is stopped by it */
    CILKNOW_PACKET = -30,    /* -30 to -36: the bytes are no packet; nothing changed */
    CILKNOW_STALE = -40,
    CILKNOW_PENDING = -50,   /* -50 to -53: it may not leave now, or not to that heir */
    CILKNOW_NOT_JOINED = -60, /* not a member yet, or ended; a victim that may not be asked; a word that is none */
    CILKNOW_BUSY = -61,      /* a request is pending, or it leaves */
    CILKNOW_SPENT = -62,     /* a count of 64 bits is spent */
    CILKNOW_MEMORY = -63,    /* no memory; nothing changed */
    CILKNOW_OTHER_JOB = -70, /* the file is another job's */
    CILKNOW_NO_STORE = -71,  /* the file is no store */
    CILKNOW_DEVICE = -72,    /* no memory for what is to be done to the file; the clearinghouse is stopped by it */
    CILKNOW_VERSION = -73,   /* the file is a store of another version */
    CILKNOW_FULL = -80,      /* 4,096 workers are listed */
    CILKNOW_NOT_THIS = -100, /* a call for the other kind of actor or for none, or the actor was ended */
    CILKNOW_UNSENT = -101,   /* packets or calls of the file wait to be taken first; nothing changed */
    CILKNOW_SHORT = -102     /* the buffer is too short */
};

/* A node that starts, with its first packet to send. Only one start may ever have this word (H3). A call of
 * cilknow_work evaluates at most about `most_turns` thread bodies; 0: one, whatever its task is. 0, or an error. */
int32_t cilknow_node(const uint8_t *text, size_t text_len, const int64_t *input, size_t inputs, uint64_t job,
                     uint64_t word, uint64_t most_turns, cilknow_actor **actor);

/* The clearinghouse over a file of this content, which is made a store where it is empty. 0: take and do what is to be
 * done to the file (cilknow_file_call): its epoch is on the disk then. A member that is silent for more than 500
 * moments is taken for dead; the host says by cilknow_tick what a moment is. An error: the file is to stay as it is. */
int32_t cilknow_house(const uint8_t *text, size_t text_len, const int64_t *input, size_t inputs, uint64_t job,
                      const uint8_t *content, size_t content_len, cilknow_actor **actor);

/* Bytes that came to it. 0: done; 1: ignored, which changes nothing; else an error. */
int64_t cilknow_take(cilknow_actor *actor, const uint8_t *bytes, size_t len);

/* What waits for the host; use the two functions below. */
int64_t cilknow_give(cilknow_actor *actor, uint32_t what, uint8_t *buffer, size_t len);

/* The next packet that it sends: copied to `bytes`, and its length told; 0 where none is left. Where `len` is less than
 * that length it stays. CILKNOW_LONGEST is always enough. cilknow_address tells whom it goes to.
 * After each call that may send (take, work, ask, resend, depart, tick) the host takes all calls of the file, and then
 * all packets, before the next such call. */
#define CILKNOW_LONGEST 1048576
static inline int64_t cilknow_packet(cilknow_actor *actor, uint8_t *bytes, size_t len) {
    return cilknow_give(actor, 0, bytes, len);
}

/* What is to be done next to the clearinghouse's file, and its length; 0 where nothing is left. Its first byte is 1:
 * the bytes from the tenth on are written at an offset; 2: the file gets a new length; 3: it is synced. The next eight
 * are the offset or the length, highest first. CILKNOW_FILE_LONGEST is always enough. */
#define CILKNOW_FILE_LONGEST 8201
static inline int64_t cilknow_file_call(cilknow_actor *actor, uint8_t *bytes, size_t len) {
    return cilknow_give(actor, 1, bytes, len);
}
static inline uint64_t cilknow_file_number(const uint8_t *call) { /* that offset or length */
    uint64_t number = 0;
    for (int i = 1; i < 9; i++) number = number << 8 | call[i];
    return number;
}

/* All calls without bytes; use the functions below. */
int64_t cilknow_call(cilknow_actor *actor, uint32_t what, uint64_t a);

/* -- a node -- */
/* Carries out the ready frame that comes first, the newest of the deepest level. 0: none is ready; 1: by its own turn;
 * 2: by its task's whole value. Of that one these tell, for a trace: its grant's minter and number, its own number, and
 * in how many turns its task was evaluated whole (0: its own turn). */
static inline int64_t cilknow_work(cilknow_actor *n) { return cilknow_call(n, 1, 0); }
static inline uint64_t cilknow_last_minter(cilknow_actor *n) { return (uint64_t)cilknow_call(n, 23, 0); }
static inline uint64_t cilknow_last_grant(cilknow_actor *n) { return (uint64_t)cilknow_call(n, 24, 0); }
static inline uint64_t cilknow_last_frame(cilknow_actor *n) { return (uint64_t)cilknow_call(n, 25, 0); }
static inline uint64_t cilknow_last_turns(cilknow_actor *n) { return (uint64_t)cilknow_call(n, 26, 0); }
/* Asks a worker for work, or the clearinghouse (0). */
static inline int64_t cilknow_ask(cilknow_actor *n, uint64_t victim) { return cilknow_call(n, 2, victim); }
/* Sends again what isn't answered, and that it is there; to be called now and then. */
static inline int64_t cilknow_resend(cilknow_actor *n) { return cilknow_call(n, 3, 0); }
/* Leaves, and hands its work to another member. It is over when its state is CILKNOW_ENDED: resend until then. */
static inline int64_t cilknow_depart(cilknow_actor *n, uint64_t heir) { return cilknow_call(n, 4, heir); }
static inline int64_t cilknow_ready(cilknow_actor *n) { return cilknow_call(n, 17, 0); } /* 1: a frame is ready */
/* 1: more than so many frames are ready. */
static inline int64_t cilknow_ready_beyond(cilknow_actor *n, uint64_t count) { return cilknow_call(n, 17, count); }
static inline int64_t cilknow_asked(cilknow_actor *n) { return cilknow_call(n, 18, 0); } /* 1: a request is pending */
/* How many workers its roster lists; the i-th of them where it is shown live, else 0. */
static inline int64_t cilknow_members(cilknow_actor *n) { return cilknow_call(n, 19, 0); }
static inline uint64_t cilknow_member(cilknow_actor *n, uint64_t i) { return (uint64_t)cilknow_call(n, 20, i); }

/* -- the clearinghouse -- */
/* A moment comes: who was silent for more than 500 is dead. */
static inline int64_t cilknow_tick(cilknow_actor *h, uint64_t now) { return cilknow_call(h, 5, now); }
/* The outcome that it has recorded: 0 none yet, 1 a value, 2 too deep. It is on the disk once the calls of the file that
 * wait are done. */
static inline int64_t cilknow_outcome(cilknow_actor *h, int64_t *value) {
    int64_t kind = cilknow_call(h, 21, 0);
    if (kind == 1) *value = cilknow_call(h, 22, 0);
    return kind;
}

/* -- both -- */
enum { CILKNOW_JOINING, CILKNOW_MEMBER, CILKNOW_LEAVING, CILKNOW_ENDED, CILKNOW_OPEN, CILKNOW_STOPPED };
static inline int64_t cilknow_state(cilknow_actor *a) { return cilknow_call(a, 16, 0); }
/* Lets an actor go. Its job and some kilobytes stay until the process ends. */
static inline void cilknow_end(cilknow_actor *a) { (void)cilknow_call(a, 6, 0); }

/* -- without an actor -- */
/* Whom a packet goes to: a start word, or 2^63 plus an epoch for the clearinghouse (2^63 alone: in any epoch). */
static inline uint64_t cilknow_address(const uint8_t *packet) {
    uint64_t to = 0;
    for (int i = 12; i < 20; i++) to = to << 8 | packet[i];
    return to;
}
static inline int cilknow_to_house(uint64_t to) { return (int)(to >> 63); }

/* The digest of bytes by SHA-256: 32 bytes. 0, or CILKNOW_SHORT where `len` of the digest is less. */
int32_t cilknow_digest(const uint8_t *bytes, size_t len, uint8_t *digest, size_t digest_len);

/* The line of 79 bytes that names a program and an input, as the file beside a store has it. 79, or an error. */
int32_t cilknow_job_line(const uint8_t *text, size_t text_len, const int64_t *input, size_t inputs, uint8_t *line,
                         size_t line_len);

#ifdef __cplusplus
}
#endif
#endif
