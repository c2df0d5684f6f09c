/*
 * Three FL-net stations on a made-up wire, in one process, from switching on to a token that goes round:
 *
 *     mkdir -p target
 *     gcc -std=c11 -Wall -Wextra -Werror -Iinclude examples/ring.c crates/flnet_station/out/libflnet_station.a -o target/ring && target/ring
 */
#include <stdio.h>
#include <string.h>

#include "flnet_station.h"

/* What a host keeps for its station from call to call. This part is what the firmware of one station needs. */
typedef struct {
    flnet_station station;                 /* its core and its list */
    uint8_t memory[FLNET_MEMORY_OCTETS];   /* the common memory: the host writes its own areas, frames write the others */
    uint8_t assembly[FLNET_MEMORY_OCTETS]; /* lent to each hearing as the last one left it */
    uint8_t turn[FLNET_MEMORY_OCTETS];     /* lent to each asking as the last one left it */
    uint8_t output[FLNET_OUTPUT_OCTETS];   /* the frame to send */
} host;

/* Once. The host's timer then calls tick every 100 microseconds: the waits, the watch and the panel count these. */
static flnet_answer start(host *h, flnet_settings own)
{
    flnet_station_new(&h->station);
    return flnet_station_start(&h->station, own);
}

static flnet_answer tick(host *h)
{
    return flnet_station_tick(&h->station);
}

/* For each frame from the wire but our own, good or bad: a bad one is answered with a number that says why. */
static flnet_answer hear(host *h, const uint8_t *octets, size_t length)
{
    return flnet_station_hear(&h->station, octets, length, h->memory, sizeof h->memory, h->assembly, sizeof h->assembly);
}

/* After each tick and each frame. Where a frame is due, it is in the output, to be sent at once; else the answer has 0 octets. */
static flnet_answer ask(host *h)
{
    return flnet_station_ask(&h->station, h->memory, sizeof h->memory, h->turn, sizeof h->turn, h->output, sizeof h->output);
}

/* From here on the wire and the clock. A frame takes the wire for FRAME_TICKS. */
enum { STATIONS = 3, FRAME_TICKS = 21, END = 42260 };
static host hosts[STATIONS];

/* The first station that has a frame due sends it to the others; says whether one did. The holder is the one in the sender's view. */
static bool send_one(long now)
{
    for (int from = 0; from < STATIONS; from++) {
        flnet_answer answer = ask(&hosts[from]);
        size_t length = answer.octets;
        for (int to = 0; length > 0 && to < STATIONS; to++) {
            if (to != from) {
                hear(&hosts[to], hosts[from].output, length);
            }
        }
        if (length > 0) {
            printf("%ld: station %d sends %zu octets of code %d to %d at port %d, holder %d\n", now, from + 1, length, answer.frame.code,
                   answer.frame.destination, flnet_port(answer.frame.code), (int)hosts[from].station.core.view);
            return true;
        }
    }
    return false;
}

int main(void)
{
    for (int at = 0; at < STATIONS; at++) { /* stations 1 to 3, each with 4 words of area 1 and a watch of 20 milliseconds */
        memset(&hosts[at].memory[8 * at], 'A' + at, 8);
        flnet_settings own = {(uint8_t)(at + 1), {{(uint16_t)(4 * at), 4}, {0, 0}}, 20};
        if (start(&hosts[at], own).word != FLNET_DONE) {
            return 1;
        }
    }
    for (long now = 1, free_at = 0; now <= END; now++) {
        for (int at = 0; at < STATIONS; at++) {
            bool before = hosts[at].station.core.phase == FLNET_PHASE_PARTICIPATING;
            tick(&hosts[at]);
            if (!before && hosts[at].station.core.phase == FLNET_PHASE_PARTICIPATING) {
                printf("%ld: station %d participates, %d holds the token\n", now, at + 1, (int)hosts[at].station.core.view);
            }
        }
        free_at = now >= free_at && send_one(now) ? now + FRAME_TICKS : free_at;
    }
    for (int at = 0; at < STATIONS; at++) {
        flnet_figure shown = flnet_station_show(&hosts[at].station);
        printf("station %d: panel %.*s, common memory %.24s\n", at + 1, (int)shown.length, (char *)shown.octets, (char *)hosts[at].memory);
    }
    return 0;
}
