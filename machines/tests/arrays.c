/* arrays.c: a clearinghouse and nodes in one process. The net is an array: packets are lost, repeated and come in any order,
 * and nodes and the clearinghouse crash, all drawn from a seed. The clearinghouse's file is in memory; a crash leaves what was
 * synced, or what was written since then too. Prints the outcome.
 * usage: arrays FILE NODES SEED LOSE REPEAT CRASHES GRAIN TRACES|- INPUT..      (one packet in LOSE is lost; none for 0) */
#include "../host/host.h"
#include <inttypes.h>
#include <stdlib.h>
#include <string.h>

struct packet { uint64_t to; size_t len; uint8_t *bytes; };
static struct packet *net;
static size_t count, room;

struct seat {
    cilknow_actor *actor;
    struct trace trace;
    uint64_t word, ask_at, sent_at, pause;
};

static uint8_t written[8192], synced[8192];
static size_t written_len, synced_len;

static void keep(cilknow_actor *house) {
    static uint8_t call[CILKNOW_FILE_LONGEST];
    int64_t len;
    while ((len = cilknow_file_call(house, call, sizeof call)) > 0) {
        uint64_t number = cilknow_file_number(call);
        if (call[0] == 1) {
            size_t end = (size_t)number + (size_t)len - 9;
            memcpy(written + number, call + 9, (size_t)len - 9);
            if (end > written_len) written_len = end;
        } else if (call[0] == 2) {
            if (number > written_len) memset(written + written_len, 0, (size_t)number - written_len);
            written_len = (size_t)number;
        } else memcpy(synced, written, sizeof written), synced_len = written_len;
    }
}

static void sends(struct seat *seat) {
    static uint8_t bytes[CILKNOW_LONGEST];
    int64_t len;
    if (!seat->word) keep(seat->actor);
    while ((len = cilknow_packet(seat->actor, bytes, sizeof bytes)) > 0) {
        trace_packet(&seat->trace, "sent", bytes, (size_t)len);
        if (count == room) net = realloc(net, (room = room ? room * 2 : 64) * sizeof *net);
        net[count] = (struct packet){cilknow_address(bytes), (size_t)len, malloc((size_t)len)};
        memcpy(net[count++].bytes, bytes, (size_t)len);
    }
}

static void takes(struct seat *seat, const struct packet *packet) {
    int64_t did = cilknow_take(seat->actor, packet->bytes, packet->len);
    if (did >= 0 || did <= -40) trace_packet(&seat->trace, "take", packet->bytes, packet->len);
    sends(seat);
}

static void acts(struct seat *seat, uint64_t now, uint64_t *seed) {
    cilknow_actor *node = seat->actor;
    if (now - seat->sent_at >= 400) {
        seat->sent_at = now;
        if (cilknow_resend(node) == 0) trace_event(&seat->trace, "resend 0"), sends(seat);
        return;
    }
    int64_t did = cilknow_work(node);
    if (did > 0) {
        uint64_t minter = cilknow_last_minter(node), grant = cilknow_last_grant(node), frame = cilknow_last_frame(node);
        if (did == 2) trace_event(&seat->trace, "whole 0 %" PRIu64 " %" PRIu64 " %" PRIu64 " %" PRIu64, minter, grant, frame, cilknow_last_turns(node));
        else trace_event(&seat->trace, "exec 0 %" PRIu64 " %" PRIu64 " %" PRIu64, minter, grant, frame);
        seat->pause = 0;
        sends(seat);
        return;
    }
    if (cilknow_state(node) != CILKNOW_MEMBER || cilknow_asked(node) == 1 || now < seat->ask_at) return;
    uint64_t members = (uint64_t)cilknow_members(node), victim = members && draw(seed) % 8 ? cilknow_member(node, draw(seed) % members) : 0;
    if (cilknow_ask(node, victim)) return;
    trace_ask(&seat->trace, victim);
    seat->pause = seat->pause < 128 ? seat->pause * 2 + 1 : 256;
    seat->ask_at = now + seat->pause;
    sends(seat);
}

int main(int words, char **word) {
    if (words < 9) return 2;
    size_t text_len, nodes = (size_t)atoi(word[2]), inputs = (size_t)words - 9;
    uint8_t *text = file_bytes(word[1], 65536, &text_len);
    if (!text || inputs > 8) return 2;
    uint64_t seed = strtoull(word[3], 0, 10), lose = strtoull(word[4], 0, 10), repeat = strtoull(word[5], 0, 10), crashes = strtoull(word[6], 0, 10);
    uint64_t grain = strtoull(word[7], 0, 10), steps = 0, starts = 0, opened = 0, lost = 0, doubled = 0, crashed = 0;
    const char *folder = strcmp(word[8], "-") ? word[8] : NULL;
    int64_t input[8], value = 0, kind = 0;
    for (size_t i = 0; i < inputs; i++) input[i] = strtoll(word[9 + i], 0, 10);
    struct seat house = {0}, *seats = calloc(nodes, sizeof *seats);
    for (;; steps++) {
        if (!house.actor) {
            int32_t error = cilknow_house(text, text_len, input, inputs, 1, written, written_len, &house.actor);
            if (error) return fprintf(stderr, "house: E%d\n", -error), 3;
            if (!trace_open(&house.trace, folder, "house", opened++ ? "a" : "w")) return 4;
            trace_event(&house.trace, "house-restart");
            sends(&house);
        }
        kind = cilknow_outcome(house.actor, &value);
        if (kind || steps > 50000000) break;
        size_t who = draw(&seed) % (nodes + 1);
        if (count && draw(&seed) % 2) { /* a packet comes, any of them */
            size_t i = draw(&seed) % count;
            struct packet packet = net[i];
            bool again = repeat && draw(&seed) % repeat == 0;
            if (again) doubled++;
            else net[i] = net[--count];
            if (lose && draw(&seed) % lose == 0 && !again) lost++;
            else if (cilknow_to_house(packet.to)) takes(&house, &packet);
            else for (size_t k = 0; k < nodes; k++)
                if (seats[k].actor && seats[k].word == packet.to) takes(&seats[k], &packet);
            if (!again) free(packet.bytes);
        } else if (who == nodes) {
            if (crashes && draw(&seed) % 500 == 0) { /* what was written since it was synced last is there or it isn't */
                crashes--, crashed++;
                if (draw(&seed) % 2) memcpy(written, synced, sizeof written), written_len = synced_len;
                cilknow_end(house.actor), house.actor = NULL;
                trace_close(&house.trace);
                continue;
            }
            if (cilknow_tick(house.actor, steps / 40) == 0) trace_event(&house.trace, "house-tick %" PRIu64, steps / 40);
            sends(&house);
        } else {
            struct seat *seat = &seats[who];
            if (seat->actor && (cilknow_state(seat->actor) == CILKNOW_ENDED || (crashes && draw(&seed) % 1000 == 0 && crashes-- && ++crashed))) {
                trace_event(&seat->trace, "crash 0");
                trace_close(&seat->trace);
                cilknow_end(seat->actor), seat->actor = NULL;
            }
            if (seat->actor) {
                acts(seat, steps, &seed);
                continue;
            }
            char name[32];
            *seat = (struct seat){.word = ++starts * 1000 + who, .sent_at = steps};
            int32_t error = cilknow_node(text, text_len, input, inputs, 1, seat->word, grain, &seat->actor);
            if (error) return fprintf(stderr, "node: E%d\n", -error), 3;
            snprintf(name, sizeof name, "%" PRIu64, seat->word);
            if (!trace_open(&seat->trace, folder, name, "w")) return 4;
            trace_event(&seat->trace, "start 0 %" PRIu64, seat->word);
            sends(seat);
        }
    }
    if (kind == 1) printf("value %" PRId64 "\n", value);
    else if (kind == 2) printf("too deep\n");
    else printf("E%" PRId64 "\n", -kind);
    fprintf(stderr, "steps %" PRIu64 ", starts %" PRIu64 ", openings %" PRIu64 ", crashes %" PRIu64 ", packets lost %" PRIu64 ", repeated %" PRIu64 "\n", steps, starts,
            opened, crashed, lost, doubled);
    for (size_t k = 0; k < nodes; k++)
        if (seats[k].actor) trace_close(&seats[k].trace), cilknow_end(seats[k].actor);
    trace_close(&house.trace);
    cilknow_end(house.actor);
    while (count) free(net[--count].bytes);
    free(net), free(seats), free(text);
    return 0;
}
