/* smallest.c: the smallest host: a clearinghouse and a node in one process. Prints the outcome.
 *   cc -o smallest smallest.c $(pkg-config --cflags --libs cilknow) && ./smallest ../fib.ck 10
 * The clearinghouse has no file here: what is to be done to it is taken and let go, so that nothing is there after a crash. */
#include <cilknow.h>
#include <stdio.h>
#include <stdlib.h>

/* Packets on their way, in a ring; where it is full the oldest is lost. */
enum { MOST = 8 };
static struct { size_t len; uint8_t bytes[CILKNOW_LONGEST]; } waits[MOST];
static size_t first, last;

static void sends(cilknow_actor *actor) {
    static uint8_t call[CILKNOW_FILE_LONGEST];
    int64_t len;
    while (cilknow_file_call(actor, call, sizeof call) > 0) {} /* (a node has none) */
    while ((len = cilknow_packet(actor, waits[last % MOST].bytes, CILKNOW_LONGEST)) > 0) {
        waits[last++ % MOST].len = (size_t)len;
        if (last - first > MOST) first++;
    }
}

int main(int count, char **given) {
    static uint8_t text[65537];
    int64_t input[8], value = 0, outcome;
    FILE *file = count > 1 && count < 11 ? fopen(given[1], "rb") : NULL;
    if (!file) return fprintf(stderr, "usage: smallest FILE INPUT..\n"), 2;
    size_t len = fread(text, 1, sizeof text, file), inputs = (size_t)count - 2;
    fclose(file);
    for (size_t i = 0; i < inputs; i++) input[i] = strtoll(given[2 + i], NULL, 10);
    cilknow_actor *house, *node;
    int32_t error = cilknow_house(text, len, input, inputs, 1, text, 0, &house);
    if (!error) error = cilknow_node(text, len, input, inputs, 1, 1, 100000, &node);
    if (error) return fprintf(stderr, "E%d\n", -error), 1;
    sends(house), sends(node);
    while ((outcome = cilknow_outcome(house, &value)) == 0) {
        if (first < last) {
            const uint8_t *packet = waits[first % MOST].bytes;
            cilknow_actor *to = cilknow_to_house(cilknow_address(packet)) ? house : node;
            (void)cilknow_take(to, packet, waits[first++ % MOST].len);
            sends(to);
        } else {
            /* it works, or asks the clearinghouse for work, or sends again what isn't answered */
            if (cilknow_work(node) <= 0 && cilknow_ask(node, 0)) (void)cilknow_resend(node);
            sends(node);
        }
    }
    cilknow_end(node), cilknow_end(house);
    if (outcome == 1) printf("value %lld\n", (long long)value);
    else printf("%s\n", outcome == 2 ? "too deep" : "no memory");
    return outcome > 0 ? 0 : 3;
}
