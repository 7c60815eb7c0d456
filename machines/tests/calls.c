/* calls.c: each call of cilknow.h, also those that are refused. Prints the first that answers otherwise than it should. */
#include "../cilknow.h"
#include <stdio.h>
#include <string.h>

static const char program[] = "thread main(k, n) { send_argument(k, n + 1); }";
static const char two_kids[] = "thread main(k, n) { if n < 2 { send_argument(k, n); } else { spawn_next sum(k, ?x, ?y); spawn main(x, n - 1); "
                               "spawn main(y, n - 2); } } thread sum(k, x, y) { send_argument(k, x + y); }";
static int line_of_fault;
#define IS(is, is_to_be) \
    do { \
        long long is_now = (long long)(is), is_then = (long long)(is_to_be); \
        if (is_now != is_then) return line_of_fault = __LINE__, fprintf(stderr, "%s is %lld, not %lld\n", #is, is_now, is_then), 1; \
    } while (0)

static uint8_t packet[CILKNOW_LONGEST], call[CILKNOW_FILE_LONGEST], file[8192];
static size_t file_len;

/* Takes the calls of a file; how many there were. */
static int64_t keeps(cilknow_actor *house) {
    int64_t len, count = 0;
    while ((len = cilknow_file_call(house, call, sizeof call)) > 0) {
        uint64_t number = cilknow_file_number(call);
        if (call[0] == 1) {
            memcpy(file + number, call + 9, (size_t)len - 9);
            if ((size_t)number + (size_t)len - 9 > file_len) file_len = (size_t)number + (size_t)len - 9;
        } else if (call[0] == 2) file_len = (size_t)number;
        else if (call[0] != 3) return -1;
        count++;
    }
    return len < 0 ? len : count;
}

/* All packets of one come to the other, or nowhere; how many there were. */
static int64_t passes(cilknow_actor *from, cilknow_actor *to) {
    int64_t len, count = 0;
    static uint8_t kept[16][4096];
    static size_t lens[16];
    while ((len = cilknow_packet(from, packet, sizeof packet)) > 0 && count < 16) memcpy(kept[count], packet, (size_t)len), lens[count++] = (size_t)len;
    for (int64_t i = 0; to && i < count; i++) {
        int64_t did = cilknow_take(to, kept[i], lens[i]);
        if (did < 0) return did;
        if (cilknow_state(to) == CILKNOW_OPEN && keeps(to) < 0) return -1;
    }
    return count;
}

static int node_alone(void) {
    const uint8_t *text = (const uint8_t *)program;
    cilknow_actor *node;
    int64_t input[2] = {41, 0};
    uint8_t none = 0;
    IS(cilknow_node(text, strlen(program), input, 1, 7, 0, 100, &node), CILKNOW_NOT_JOINED);
    IS(cilknow_node(text, strlen(program), input, 1, 7, UINT64_MAX, 100, &node), CILKNOW_NOT_JOINED);
    IS(cilknow_node(text, strlen(program), input, 2, 7, 5, 100, &node), -21);
    IS(cilknow_node(&none, 0, input, 1, 7, 5, 100, &node) < 0, 1);
    IS(cilknow_node(text, strlen(program), input, 1, 7, 5, 100, &node), CILKNOW_OK);
    /* its Join waits: it is refused all that may send, and shows what it is asked to show */
    IS(cilknow_work(node), CILKNOW_UNSENT);
    IS(cilknow_ask(node, 0), CILKNOW_UNSENT);
    IS(cilknow_resend(node), CILKNOW_UNSENT);
    IS(cilknow_depart(node, 9), CILKNOW_UNSENT);
    IS(cilknow_take(node, &none, 0), CILKNOW_UNSENT);
    IS(cilknow_state(node), CILKNOW_JOINING);
    IS(cilknow_packet(node, packet, 0) > 0, 1);
    IS(cilknow_packet(node, packet, 19) > 19, 1);
    int64_t len = cilknow_packet(node, packet, sizeof packet);
    IS(len > 20, 1);
    IS(cilknow_to_house(cilknow_address(packet)), 1);
    IS(cilknow_packet(node, packet, sizeof packet), 0);
    /* it isn't joined yet */
    IS(cilknow_work(node), 0);
    IS(cilknow_ask(node, 0), CILKNOW_NOT_JOINED);
    IS(cilknow_ask(node, 9), CILKNOW_NOT_JOINED);
    IS(cilknow_depart(node, 9), CILKNOW_NOT_JOINED);
    IS(cilknow_ready(node), 0);
    IS(cilknow_asked(node), 0);
    IS(cilknow_members(node), 0);
    IS(cilknow_member(node, 0), 0);
    IS(cilknow_last_turns(node), 0);
    IS(cilknow_take(node, &none, 0) <= CILKNOW_PACKET, 1);
    IS(cilknow_take(node, packet, (size_t)len - 1) <= CILKNOW_PACKET, 1);
    /* calls of a clearinghouse, and numbers that are no call's */
    int64_t value = 3;
    IS(cilknow_tick(node, 1), CILKNOW_NOT_THIS);
    IS(cilknow_outcome(node, &value), CILKNOW_NOT_THIS);
    IS(cilknow_file_call(node, call, sizeof call), CILKNOW_NOT_THIS);
    IS(cilknow_give(node, 2, packet, sizeof packet), CILKNOW_NOT_THIS);
    IS(cilknow_call(node, 0, 0), CILKNOW_NOT_THIS);
    IS(cilknow_call(node, 7, 0), CILKNOW_NOT_THIS);
    IS(cilknow_call(node, 27, 0), CILKNOW_NOT_THIS);
    IS(cilknow_call(node, UINT32_MAX, UINT64_MAX), CILKNOW_NOT_THIS);
    IS(value, 3);
    cilknow_end(node);
    cilknow_end(node);
    IS(cilknow_work(node), CILKNOW_NOT_THIS);
    IS(cilknow_state(node), CILKNOW_NOT_THIS);
    IS(cilknow_take(node, &none, 0), CILKNOW_NOT_THIS);
    IS(cilknow_packet(node, packet, sizeof packet), CILKNOW_NOT_THIS);
    return 0;
}

static int whole_job(void) {
    const uint8_t *text = (const uint8_t *)program;
    int64_t input[1] = {41}, value = 0;
    cilknow_actor *house, *node;
    IS(cilknow_house(text, strlen(program), input, 1, 7, file, 0, &house), CILKNOW_OK);
    /* what is to be done to its file waits: a store is made, and its epoch is committed */
    IS(cilknow_tick(house, 1), CILKNOW_UNSENT);
    IS(cilknow_packet(house, packet, sizeof packet), CILKNOW_UNSENT);
    IS(cilknow_file_call(house, call, 8) > 8, 1);
    IS(keeps(house), 17);
    IS(file_len, 4360);
    IS(cilknow_packet(house, packet, sizeof packet), 0);
    IS(cilknow_state(house), CILKNOW_OPEN);
    IS(cilknow_outcome(house, &value), 0);
    IS(cilknow_work(house), CILKNOW_NOT_THIS);
    IS(cilknow_ask(house, 1), CILKNOW_NOT_THIS);
    IS(cilknow_members(house), CILKNOW_NOT_THIS);
    IS(cilknow_node(text, strlen(program), input, 1, 7, 5, 100, &node), CILKNOW_OK);
    IS(passes(node, house), 1);
    IS(passes(house, node) > 0, 1);
    IS(cilknow_state(node), CILKNOW_MEMBER);
    IS(cilknow_members(node), 1);
    IS(cilknow_member(node, 0), 5);
    IS(cilknow_member(node, UINT64_MAX), 0);
    IS(cilknow_ask(node, 5), CILKNOW_NOT_JOINED);
    (void)passes(node, house), (void)passes(house, node);
    IS(cilknow_ask(node, 0), CILKNOW_OK);
    IS(cilknow_asked(node), 1);
    IS(passes(node, house), 1);
    IS(passes(house, node), 1);
    IS(cilknow_asked(node), 0);
    (void)passes(node, house), (void)passes(house, node);
    IS(cilknow_ready(node), 1);
    IS(cilknow_ready_beyond(node, 1), 0);
    IS(cilknow_ready_beyond(node, UINT64_MAX), 0);
    IS(cilknow_work(node), 1);
    IS(cilknow_ready(node), 0);
    IS(cilknow_last_turns(node), 0);
    IS(cilknow_last_grant(node) > 0, 1);
    IS(passes(node, house) > 0, 1);
    IS(cilknow_outcome(house, &value), 1);
    IS(value, 42);
    cilknow_end(house), cilknow_end(node);
    IS(cilknow_outcome(house, &value), CILKNOW_NOT_THIS);
    /* the outcome is there for whoever opens the file again, and for no other job */
    IS(cilknow_house(text, strlen(program), input, 1, 7, file, file_len, &house), CILKNOW_OK);
    IS(keeps(house) > 0, 1);
    value = 0;
    IS(cilknow_outcome(house, &value), 1);
    IS(value, 42);
    cilknow_end(house);
    IS(cilknow_house(text, strlen(program), input, 1, 8, file, file_len, &house), CILKNOW_OTHER_JOB);
    IS(cilknow_house(text, strlen(program), input, 1, 7, file, 7, &house), CILKNOW_NO_STORE);
    return 0;
}

/* Of three frames two are ready once a task has its kids. */
static int ready_frames(void) {
    const uint8_t *text = (const uint8_t *)two_kids;
    int64_t input[1] = {2}, value = 0;
    cilknow_actor *house, *node;
    file_len = 0;
    IS(cilknow_house(text, strlen(two_kids), input, 1, 7, file, 0, &house), CILKNOW_OK);
    IS(keeps(house) > 0, 1);
    IS(cilknow_node(text, strlen(two_kids), input, 1, 7, 5, 0, &node), CILKNOW_OK);
    (void)passes(node, house), (void)passes(house, node);
    IS(cilknow_ask(node, 0), CILKNOW_OK);
    (void)passes(node, house), (void)passes(house, node);
    IS(cilknow_ready(node), 1);
    IS(cilknow_ready_beyond(node, 1), 0);
    (void)passes(node, house), (void)passes(house, node);
    IS(cilknow_work(node), 1);
    IS(cilknow_ready_beyond(node, 1), 1);
    IS(cilknow_ready_beyond(node, 2), 0);
    IS(cilknow_work(node), 1);
    IS(cilknow_ready_beyond(node, 1), 0);
    IS(cilknow_work(node), 1);
    IS(cilknow_ready(node), 1);
    IS(cilknow_work(node), 1);
    IS(cilknow_ready(node), 0);
    IS(passes(node, house) > 0, 1);
    IS(cilknow_outcome(house, &value), 1);
    IS(value, 1);
    cilknow_end(house), cilknow_end(node);
    return 0;
}

static int without_an_actor(void) {
    static const uint8_t of_abc[32] = {0xba, 0x78, 0x16, 0xbf, 0x8f, 0x01, 0xcf, 0xea, 0x41, 0x41, 0x40, 0xde, 0x5d, 0xae, 0x22, 0x23,
                                       0xb0, 0x03, 0x61, 0xa3, 0x96, 0x17, 0x7a, 0x9c, 0xb4, 0x10, 0xff, 0x61, 0xf2, 0x00, 0x15, 0xad};
    uint8_t digest[33] = {0}, line[80] = {0};
    int64_t input[1] = {41};
    IS(cilknow_digest((const uint8_t *)"abc", 3, digest, 31), CILKNOW_SHORT);
    IS(digest[0], 0);
    IS(cilknow_digest((const uint8_t *)"abc", 3, digest, 33), CILKNOW_OK);
    IS(memcmp(digest, of_abc, 32), 0);
    IS(digest[32], 0);
    IS(cilknow_job_line((const uint8_t *)program, strlen(program), input, 1, line, 78), CILKNOW_SHORT);
    IS(cilknow_job_line((const uint8_t *)program, strlen(program), input, 1, line, 80), 79);
    IS(memcmp(line, "cilknow-job 1 ", 14), 0);
    IS(line[78], '\n');
    IS(line[79], 0);
    IS(cilknow_job_line((const uint8_t *)program, strlen(program), input, 0, line, 80), -21);
    return 0;
}

int main(void) {
    if (node_alone() || whole_job() || ready_frames() || without_an_actor()) return fprintf(stderr, "calls.c:%d\n", line_of_fault), 1;
    printf("all calls answer as they should\n");
    return 0;
}
