/* wire.c: datagrams over UDP.
 *
 * A datagram is a tag of 16 bytes, a kind, and what the kind has (numbers: the highest byte first):
 *   P  a part of a packet: whom it goes to (8), who sent it (8), a number by the packet's bytes (8), which part (2) of how many (2), bytes
 *   F  the same, handed on by the clearinghouse's process: behind these where it came from, as a family (1), a port (2) and an
 *      address (16)
 *   O  the outcome: its kind (8), its value (8)        A  the outcome was heard: by whom (8)
 *   J  what is to be computed? a number by chance (8)  T  that: the same number (8), which part (2) of how many (2), bytes
 * The tag is the beginning of HMAC-SHA-256 (RFC 2104) of the kind and all behind it: by the key file's key for J and T, and
 * for all others by one that is made of that key, the job's number, its program and its input. What isn't tagged rightly is
 * dropped, which is a loss to the protocol: so no packet that was altered, or is another job's, comes to an actor. */
#include "host.h"
#include <arpa/inet.h>
#include <errno.h>
#include <fcntl.h>
#include <inttypes.h>
#include <netdb.h>
#include <netinet/in.h>
#include <poll.h>
#include <stdlib.h>
#include <string.h>
#include <unistd.h>

enum { TAG = 16, BLOCK = 64, HEAD = BLOCK - TAG, MOST = 64 + PART + 64 };

static void put(uint8_t *to, uint64_t number, int len) {
    for (int i = len; i-- > 0; number >>= 8) to[i] = (uint8_t)number;
}
static uint64_t get(const uint8_t *from, int len) {
    uint64_t number = 0;
    for (int i = 0; i < len; i++) number = number << 8 | from[i];
    return number;
}

/* The tag of what stands behind the first BLOCK bytes, which are written over. */
static void tag_of(const uint8_t key[KEY], uint8_t *room, size_t len, uint8_t tag[TAG]) {
    uint8_t outer[BLOCK + 32], digest[32];
    for (int i = 0; i < BLOCK; i++) {
        uint8_t byte = i < KEY ? key[i] : 0;
        room[i] = byte ^ 0x36;
        outer[i] = byte ^ 0x5c;
    }
    cilknow_digest(room, BLOCK + len, outer + BLOCK, 32);
    cilknow_digest(outer, sizeof outer, digest, 32);
    memcpy(tag, digest, TAG);
}

static bool wire_key(struct wire *wire, const char *path) {
    size_t len;
    uint8_t *bytes = file_bytes(path, 65536, &len);
    if (!bytes) return tell("the key %s: %s", path, strerror(errno)), false;
    bool is_key = len >= 16 && len <= 65536;
    if (is_key) cilknow_digest(bytes, len, wire->door, KEY);
    else tell("the key %s: it has to have 16 to 65,536 bytes", path);
    free(bytes);
    return is_key;
}

void wire_bind(struct wire *wire, uint64_t job, const uint8_t *line, size_t len) {
    uint8_t whole[KEY + 8 + 128];
    memcpy(whole, wire->door, KEY);
    put(whole + KEY, job, 8);
    if (len > 128) len = 128;
    memcpy(whole + KEY + 8, line, len);
    cilknow_digest(whole, KEY + 8 + len, wire->key, KEY);
}

/* HOST:PORT, or [ADDRESS]:PORT. */
static bool found_at(const char *address, bool listens, struct peer *there, int *family) {
    char host[256];
    const char *colon = strrchr(address, ':');
    size_t len = colon ? (size_t)(colon - address) : sizeof host;
    if (len >= sizeof host) return tell("%s is no ADDR:PORT", address), false;
    const char *from = address;
    if (len > 1 && address[0] == '[' && address[len - 1] == ']') from++, len -= 2;
    memcpy(host, from, len);
    host[len] = 0;
    struct addrinfo how = {.ai_family = AF_UNSPEC, .ai_socktype = SOCK_DGRAM, .ai_flags = AI_NUMERICSERV | (listens ? AI_PASSIVE : 0)}, *found;
    int fault = getaddrinfo(len ? host : NULL, colon + 1, &how, &found);
    if (fault) return tell("%s: %s", address, gai_strerror(fault)), false;
    memcpy(&there->at, found->ai_addr, found->ai_addrlen);
    there->len = found->ai_addrlen;
    *family = found->ai_family;
    freeaddrinfo(found);
    return true;
}

bool wire_open(struct wire *wire, const char *address, bool listens, struct peer *there, const struct words *words) {
    int family, space = 4 << 20;
    if (!found_at(address, listens, there, &family)) return false;
    wire->socket = socket(family, SOCK_DGRAM | SOCK_CLOEXEC | SOCK_NONBLOCK, 0);
    if (wire->socket < 0) return tell("a socket: %s", strerror(errno)), false;
    (void)setsockopt(wire->socket, SOL_SOCKET, SO_RCVBUF, &space, sizeof space);
    if (listens && bind(wire->socket, (struct sockaddr *)&there->at, there->len)) return tell("%s: %s", address, strerror(errno)), false;
    wire->faults = words->faults, wire->begun = micros();
    return wire_key(wire, words->key);
}

static void out(struct wire *wire, const uint8_t *bytes, size_t len, const struct peer *to) {
    wire->sent++;
    (void)sendto(wire->socket, bytes, len, 0, (const struct sockaddr *)&to->at, to->len); /* (what can't be sent is lost) */
}

/* Whether, by an option for tests, the network is gone. */
static bool is_deaf(const struct wire *wire) {
    if (!wire->faults.deaf_to) return false;
    uint64_t at = (micros() - wire->begun) / 1000;
    return at >= wire->faults.deaf_from && at < wire->faults.deaf_to;
}

/* By the options for tests a datagram is lost, comes twice, or comes behind some that follow. */
static void fated(struct wire *wire, const uint8_t *bytes, size_t len, const struct peer *to) {
    struct faults *faults = &wire->faults;
    if (wire->late.len && wire->late.behind-- == 0) {
        out(wire, wire->late.bytes, wire->late.len, &wire->late.to);
        wire->late.len = 0;
    }
    if (is_deaf(wire) || (faults->lose && draw(&faults->seed) % faults->lose == 0)) {
        wire->lost++;
        return;
    }
    if (faults->repeat && draw(&faults->seed) % faults->repeat == 0) out(wire, bytes, len, to);
    if (faults->late && !wire->late.len && draw(&faults->seed) % faults->late == 0) {
        memcpy(wire->late.bytes, bytes, len);
        wire->late.len = len, wire->late.to = *to, wire->late.behind = (unsigned)(draw(&faults->seed) % 32);
        return;
    }
    out(wire, bytes, len, to);
}

static bool is_door(uint8_t kind) { return kind == KIND_ASKS || kind == KIND_JOB; }

/* Where a sender is, and back. */
static void put_origin(uint8_t *to, const struct peer *at) {
    memset(to, 0, 19);
    if (at->at.ss_family == AF_INET) {
        const struct sockaddr_in *four = (const struct sockaddr_in *)&at->at;
        to[0] = 4;
        memcpy(to + 1, &four->sin_port, 2), memcpy(to + 3, &four->sin_addr, 4);
    } else if (at->at.ss_family == AF_INET6) {
        const struct sockaddr_in6 *six = (const struct sockaddr_in6 *)&at->at;
        to[0] = 6;
        memcpy(to + 1, &six->sin6_port, 2), memcpy(to + 3, &six->sin6_addr, 16);
    }
}
static void get_origin(const uint8_t *from, struct peer *at) {
    memset(at, 0, sizeof *at);
    if (from[0] == 4) {
        struct sockaddr_in *four = (struct sockaddr_in *)&at->at;
        four->sin_family = AF_INET, at->len = sizeof *four;
        memcpy(&four->sin_port, from + 1, 2), memcpy(&four->sin_addr, from + 3, 4);
    } else if (from[0] == 6) {
        struct sockaddr_in6 *six = (struct sockaddr_in6 *)&at->at;
        six->sin6_family = AF_INET6, at->len = sizeof *six;
        memcpy(&six->sin6_port, from + 1, 2), memcpy(&six->sin6_addr, from + 3, 16);
    }
}

void wire_say(struct wire *wire, const struct said *said, const struct peer *to) {
    uint8_t room[MOST + PART];
    uint8_t *at = room + BLOCK;
    *at++ = (uint8_t)said->kind;
    switch (said->kind) {
    case KIND_PACKET:
    case KIND_HANDED:
        put(at, said->to, 8), put(at + 8, said->sender, 8), put(at + 16, said->id, 8), at += 24;
        put(at, said->number, 2), put(at + 2, said->count, 2), at += 4;
        if (said->kind == KIND_HANDED) put_origin(at, &said->origin), at += 19;
        break;
    case KIND_OUTCOME: put(at, said->to, 8), put(at + 8, said->id, 8), at += 16; break;
    case KIND_HEARD:
    case KIND_ASKS: put(at, said->id, 8), at += 8; break;
    case KIND_JOB: put(at, said->id, 8), put(at + 8, said->number, 2), put(at + 10, said->count, 2), at += 12; break;
    }
    if (said->len) memcpy(at, said->bytes, said->len), at += said->len;
    size_t len = (size_t)(at - room) - BLOCK;
    uint8_t tag[TAG];
    tag_of(is_door(room[BLOCK]) ? wire->door : wire->key, room, len, tag);
    memcpy(room + HEAD, tag, TAG);
    fated(wire, room + HEAD, TAG + len, to);
}

/* Reads what a datagram says; whether it says something. */
static bool read_said(struct said *said, const uint8_t *at, size_t len) {
    said->kind = (enum kind)*at++, len--;
    said->to = said->sender = said->id = 0, said->number = said->count = 0;
    size_t head = said->kind == KIND_PACKET ? 28 : said->kind == KIND_HANDED ? 47 : said->kind == KIND_OUTCOME ? 16 : said->kind == KIND_JOB ? 12
                  : said->kind == KIND_HEARD || said->kind == KIND_ASKS ? 8 : SIZE_MAX;
    if (len < head) return false;
    switch (said->kind) {
    case KIND_PACKET:
    case KIND_HANDED:
        said->to = get(at, 8), said->sender = get(at + 8, 8), said->id = get(at + 16, 8);
        said->number = (uint16_t)get(at + 24, 2), said->count = (uint16_t)get(at + 26, 2);
        if (said->kind == KIND_HANDED) get_origin(at + 28, &said->origin);
        break;
    case KIND_OUTCOME: said->to = get(at, 8), said->id = get(at + 8, 8); break;
    case KIND_JOB: said->id = get(at, 8), said->number = (uint16_t)get(at + 8, 2), said->count = (uint16_t)get(at + 10, 2); break;
    default: said->id = get(at, 8);
    }
    said->bytes = at + head, said->len = len - head;
    return true;
}

bool wire_hear(struct wire *wire, struct said *said) {
    static uint8_t room[BLOCK + 65536];
    for (int tries = 0; tries < 64; tries++) {
        said->from.len = sizeof said->from.at;
        ssize_t came = recvfrom(wire->socket, room + HEAD, 65536, 0, (struct sockaddr *)&said->from.at, &said->from.len);
        if (came < 0 && (errno == ECONNREFUSED || errno == EINTR)) continue;
        if (came < 0) return false;
        if (is_deaf(wire)) continue;
        wire->came++;
        uint8_t tag[TAG], own[TAG], differs = 0;
        if (came > TAG) {
            size_t len = (size_t)came - TAG;
            memcpy(tag, room + HEAD, TAG);
            tag_of(is_door(room[BLOCK]) ? wire->door : wire->key, room, len, own);
            for (int i = 0; i < TAG; i++) differs |= tag[i] ^ own[i];
            if (!differs && read_said(said, room + BLOCK, len)) return true;
        }
        wire->wrong++;
    }
    return false;
}

void wire_wait(struct wire *wire, uint64_t most_micros) {
    struct pollfd one = {.fd = wire->socket, .events = POLLIN};
    struct timespec most = {(time_t)(most_micros / 1000000), (long)(most_micros % 1000000) * 1000};
    (void)ppoll(&one, 1, &most, NULL);
}

void wire_tell(const struct wire *wire) {
    fprintf(stderr, "datagrams sent %" PRIu64 "\ndatagrams that came %" PRIu64 "\ndatagrams dropped %" PRIu64 "\n", wire->sent, wire->came, wire->wrong);
    if (wire->lost) fprintf(stderr, "datagrams lost on purpose %" PRIu64 "\n", wire->lost);
}

/* A packet of several parts has a number by its bytes: so parts of one that is sent again go with those that came before. */
static uint64_t number_of(const uint8_t *bytes, size_t len) {
    uint8_t digest[32];
    return cilknow_digest(bytes, len, digest, sizeof digest), get(digest, 8);
}

void wire_packet(struct wire *wire, const struct peer *to, uint64_t sender, const uint8_t *bytes, size_t len) {
    struct said said = {.kind = KIND_PACKET, .to = cilknow_address(bytes), .sender = sender, .count = (uint16_t)((len + PART - 1) / PART)};
    if (len > PART) said.id = number_of(bytes, len);
    for (size_t at = 0; at < len; at += PART, said.number++) {
        said.bytes = bytes + at, said.len = len - at < PART ? len - at : PART;
        wire_say(wire, &said, to);
    }
}

/* Packets of several parts that aren't complete. */
enum { JOINING = 64 };
static struct joining {
    uint64_t sender, id, used;
    uint16_t count, have;
    uint8_t *bytes, *has;
    size_t len;
} joining[JOINING];

static struct joining *joining_of(const struct said *part) {
    static uint64_t used;
    struct joining *oldest = &joining[0];
    for (int i = 0; i < JOINING; i++) {
        struct joining *it = &joining[i];
        if (it->bytes && it->sender == part->sender && it->id == part->id && it->count == part->count) return it->used = ++used, it;
        if (!it->bytes || (oldest->bytes && it->used < oldest->used)) oldest = it;
    }
    free(oldest->bytes);
    *oldest = (struct joining){.sender = part->sender, .id = part->id, .count = part->count, .used = ++used};
    oldest->bytes = calloc(part->count, PART + 1);
    oldest->has = oldest->bytes ? oldest->bytes + (size_t)part->count * PART : NULL;
    return oldest;
}

const uint8_t *wire_join(const struct said *part, size_t *len) {
    static uint8_t *last;
    free(last), last = NULL;
    bool is_last = part->number + 1 == part->count;
    if (part->number >= part->count || part->count > CILKNOW_LONGEST / PART + 1 || part->len > PART || (!is_last && part->len != PART)) return NULL;
    if (part->count == 1) return *len = part->len, part->bytes;
    struct joining *it = joining_of(part);
    if (!it->bytes || it->has[part->number]) return NULL;
    memcpy(it->bytes + (size_t)part->number * PART, part->bytes, part->len);
    it->has[part->number] = 1, it->have++;
    if (is_last) it->len = (size_t)part->number * PART + part->len;
    if (it->have < it->count) return NULL;
    *len = it->len, last = it->bytes, it->bytes = NULL;
    return last;
}

static size_t spot(const struct known *known, uint64_t word) {
    size_t many = sizeof known->of / sizeof known->of[0], i = (size_t)(word * 0x9e3779b97f4a7c15u >> 50);
    while (known->of[i].word && known->of[i].word != word) i = (i + 1) % many;
    return i;
}

struct peer *known_at(struct known *known, uint64_t word) {
    size_t i = spot(known, word);
    return known->of[i].word ? &known->of[i].at : NULL;
}

void known_learn(struct known *known, uint64_t word, const struct peer *at) {
    if (!word || cilknow_to_house(word) || !at->len) return;
    size_t i = spot(known, word);
    if (!known->of[i].word && ++known->count > 12288) memset(known, 0, sizeof *known), known->count = 1, i = spot(known, word);
    known->of[i].word = word, known->of[i].at = *at;
}
