/*
 * The proved FL-net station, for C.
 *
 * A station is a core and a list, both lent to the call and changed in place. The caller keeps them and lends them to the next call. No call
 * waits, allocates or keeps a pointer; any core, any list, any octets and any lengths are answered.
 *
 * A lent buffer is a pointer and a number of octets. No pointer is null, not even one to 0 octets, and nothing that is lent to one call
 * overlaps. Each bool of a list is true or false, as C keeps it. What each call leaves in a buffer is said beside it; a refused call leaves
 * everything as it was, every number of the core, the list and the buffers, but for number 6 before we participate.
 */
#ifndef FLNET_STATION_H
#define FLNET_STATION_H

#include <stdbool.h>
#include <stddef.h>
#include <stdint.h>

#ifdef __cplusplus
extern "C" {
#else
#include <assert.h> /* static_assert */
#endif

/* Octets of the common memory, and of the assembly and turn buffers. */
#define FLNET_MEMORY_OCTETS 17408
/* The fewest octets of an output buffer: the longest frame that a station writes. */
#define FLNET_OUTPUT_OCTETS 1088
/* Ticks in a millisecond: a tick is 100 microseconds. */
#define FLNET_TICKS_IN_MILLISECOND 10

/*
 * The waits of JEM 1479, clause 8.7, in ticks. A station that finds a ring participates after three rounds of the token and the wait for its
 * number; one that finds none after token detection, the trigger wait and the acceptance time, at most 42,280 ticks in all.
 */
#define FLNET_TOKEN_DETECTION_TICKS 30000
#define FLNET_ACCEPTANCE_TICKS 12000
#define FLNET_TRIGGER_WAIT_TICKS(number) (40 * ((number) % 8))
#define FLNET_NUMBER_WAIT_TICKS(number) (40 * (number))

/*
 * UDP ports (JEM 1479, appendix C), one frame a datagram, broadcast: cyclic frames, with the token or without, are received at 55000,
 * requests and triggers at 55002; all are sent from 55003. flnet_port gives the port for the code of a frame that was written.
 */
#define FLNET_PORT_CYCLIC 55000
#define FLNET_PORT_REQUEST_AND_TRIGGER 55002
#define FLNET_PORT_FROM 55003

/* Phases of a station. Any other number counts as off, and stays until another phase begins. */
#define FLNET_PHASE_OFF 0
#define FLNET_PHASE_LISTENING 1
#define FLNET_PHASE_STARTUP 2
#define FLNET_PHASE_JOINING 3
#define FLNET_PHASE_PARTICIPATING 4

/* The word of an answer. */
#define FLNET_OFF 0     /* a tick or a frame at a station that is off */
#define FLNET_DONE 1    /* started, stopped, a tick counted, a request or a trigger heard */
#define FLNET_CYCLIC 2  /* a cyclic frame heard: see token and data */
#define FLNET_FRAME 3   /* a frame written: see octets */
#define FLNET_REFUSED 4 /* refused: see refusal */

/* Why a call is refused. Of several, the first in the order 11, 10, 1 to 7, 14, 15, 8, 9. No refusal has the number 12 or 13. */
#define FLNET_CUT 1      /* fewer than 64 or more than 1120 octets given */
#define FLNET_MARK 2     /* not a frame of FL-net */
#define FLNET_LENGTH 3   /* the frame's length field is not the number of octets given */
#define FLNET_CODE 4     /* a transaction code that the station does not handle */
#define FLNET_ADDRESS 5  /* a number that is no station's, or a watch time of 0 at start */
#define FLNET_TAKEN 6    /* a frame with our own number as its source; turns the station off unless it participates */
#define FLNET_AREA 7     /* an area leaves its range */
#define FLNET_BLOCK 8    /* a block's length that the areas do not give, or not 64 to 96 octets before the data */
#define FLNET_STRANGER 9 /* a cyclic frame from, or a token to, a station that is not listed */
#define FLNET_NOT_DUE 10 /* no frame is due; a start when not off; a stop when off */
#define FLNET_BUFFER 11  /* a lent buffer has the wrong number of octets */
#define FLNET_TOTAL 14   /* a number of blocks, TBN, that the areas do not give */
#define FLNET_NUMBER 15  /* a block's number, CBN, that is not 1 to TBN */

/* What became of the token. */
#define FLNET_TOKEN_NONE 0
#define FLNET_TOKEN_PASSED_ON 1
#define FLNET_TOKEN_OURS_NOW 2
#define FLNET_TOKEN_RIVAL_PASSED_OVER 3
#define FLNET_TOKEN_RIVAL_WON 4

/* What became of a cyclic frame's data. */
#define FLNET_DATA_KEPT 0    /* as a block, in the assembly buffer */
#define FLNET_DATA_WRITTEN 1 /* the whole turn, to the common memory */
#define FLNET_DATA_DROPPED 2
#define FLNET_DATA_REPEAT 3  /* the last block still gathered, heard once more: passed over */

/* What the panel shows. */
#define FLNET_PANEL_NOTHING 0 /* "--": fewer than two takings of the token, or not participating */
#define FLNET_PANEL_OVER 1    /* "OVER": a gap above 65,535 ticks */
#define FLNET_PANEL_GAP 2     /* the gap in milliseconds, with tenths */

/* What a station has of one area of the common memory, in words of two octets. */
typedef struct {
    uint16_t address;
    uint16_t size;
} flnet_part;

/* Area 1 has 512 words, area 2 has 8192. */
typedef struct {
    flnet_part one;
    flnet_part two;
} flnet_areas;

/* What a station is started with. */
typedef struct {
    uint8_t number; /* 1 to 254 */
    flnet_areas areas;
    uint8_t watch; /* the watch time, 1 to 255 milliseconds: longer than any gap between two frames of our turn that a late host makes. The others
                      list it, and watch us by it while they take us for the holder */
} flnet_settings;

/*
 * The station list. What is known of a station stands at its number; our own is never listed. All zeros is an empty list, and what is not
 * listed is all zeros.
 */
typedef struct {
    bool listed[256];
    uint16_t areas[1024]; /* four for each station: address and size in area 1, address and size in area 2 */
    uint8_t watch[256];   /* watch times in milliseconds; 0 counts as 1 */
    uint8_t misses[256];  /* in a row, 0 to 2 */
} flnet_list;

/*
 * The state of a station but for its list, for the host to keep and to read: 18 numbers of 32 bits. What a phase does not use is 0 in it. All
 * zeros is a station that was never started. Of a number that stands for an octet, two octets or a flag only the low 8 bits, the low 16 or
 * the lowest one count. What stands above them flnet_new makes 0, and every other call leaves as it is.
 */
typedef struct {
    uint32_t phase;       /* an octet */
    uint32_t number;      /* an octet: ours; off: the number last started with */
    uint32_t address_one; /* two octets: what we have of area 1 */
    uint32_t size_one;    /* two octets */
    uint32_t address_two; /* two octets: what we have of area 2 */
    uint32_t size_two;    /* two octets */
    uint32_t watch;       /* an octet: our watch time in milliseconds */
    uint32_t view;        /* an octet; participating: the number taken to be the holder; joining: the last token destination heard */
    uint32_t block;       /* an octet; participating: blocks of our turn that have been sent */
    uint32_t elapsed;     /* ticks since listening or ring startup began (listening stops counting when its trigger is due), in joining since
                             the last token frame, as a participant since the watch restarted */
    uint32_t waited;      /* joining: ticks since the third round ended, until our request is due */
    uint32_t rounds;      /* an octet; joining: rounds that have ended, at most 3 */
    uint32_t sent;        /* a flag; ring startup: our request has been sent */
    uint32_t source;      /* an octet: whose turn is being put together; 0: nobody's */
    uint32_t blocks;      /* an octet: how many blocks of it have been put together */
    uint32_t takings;     /* an octet: takings of the token since we began to participate; 2 stands for more */
    uint32_t running;     /* ticks since the last taking, before the first since we began to participate; 65,536 stands for more */
    uint32_t gap;         /* what running was at the last taking */
} flnet_core;

/* A station as a host keeps it. */
typedef struct {
    flnet_core core;
    flnet_list list;
} flnet_station;

/* The list of a flnet_station, as the calls take it. */
#define FLNET_LIST(station) (station).list.listed, (station).list.areas, (station).list.watch, (station).list.misses

/* Transaction codes of the frames that a station handles. */
#define FLNET_CODE_TOKEN 65000   /* cyclic, with the token */
#define FLNET_CODE_CYCLIC 65001  /* cyclic, without it */
#define FLNET_CODE_REQUEST 65002 /* participation request */
#define FLNET_CODE_TRIGGER 65012

/* A frame's code, and where it comes from and goes to. A request and a trigger go to 255, which is everyone. */
typedef struct {
    uint16_t code;
    uint8_t source;
    uint8_t destination;
} flnet_route;

/*
 * What a call answers. A field that the word does not point to is 0. The frame is the one that was written, or that a hearing was given: a
 * frame that can be read, whatever is answered to it, also where it is refused with 6, 9 or 11; else its numbers are 0.
 */
typedef struct {
    uint8_t word;
    uint8_t refusal;
    uint8_t token;
    uint8_t data;
    flnet_route frame;
    size_t octets; /* of the frame that was written */
} flnet_answer;

/* The UDP port at which a frame of a code is received. */
static inline uint16_t flnet_port(uint16_t code)
{
    return code == FLNET_CODE_TOKEN || code == FLNET_CODE_CYCLIC ? FLNET_PORT_CYCLIC : FLNET_PORT_REQUEST_AND_TRIGGER;
}

/* What the panel shows, and its text in ASCII with zeros behind it. */
typedef struct {
    uint8_t kind;
    uint16_t ticks; /* of a gap, else 0 */
    uint8_t octets[6];
    size_t length; /* of the text */
} flnet_figure;

/* How long a station stays as it is, with no other call between its ticks. */
typedef struct {
    bool ends;      /* false: no tick ever brings news */
    uint32_t ticks; /* that bring none; the one after them does. 0 where it never ends */
} flnet_quiet_ticks;

/* Makes a station that was never started, of whatever stands there: every number of the core becomes 0, all of it, and the list is emptied. */
void flnet_new(flnet_core *core, bool *listed, uint16_t *areas, uint8_t *watch, uint8_t *misses);

/* Starts an off station: done, or refused with 10, 5 or 7. */
flnet_answer flnet_start(flnet_core *core, bool *listed, uint16_t *areas, uint8_t *watch, uint8_t *misses, flnet_settings own);

/* Stops a station that is not off: done, or refused with 10. */
flnet_answer flnet_stop(flnet_core *core, bool *listed, uint16_t *areas, uint8_t *watch, uint8_t *misses);

/*
 * Every 100 microseconds: off or done. A host that was not scheduled in time catches up: it orders what it has received by the time of its
 * arrival, ticks up to each and hears it, ticks up to now, and only then asks. A watch time has to be longer than the host can be late, or
 * the others take the token from it. A participant's watch runs for the time listed for the station in view, for our own time while we hold
 * or where that station is not listed.
 */
flnet_answer flnet_tick(flnet_core *core, bool *listed, uint16_t *areas, uint8_t *watch, uint8_t *misses);

/*
 * So many ticks in one call, for a host that slept or was not scheduled: the same as that many calls of flnet_tick one after the other, with
 * the answer of the last. Ticks that only count are jumped over, so that many of them take no longer than one. No ticks change nothing, and
 * are answered as one tick would be.
 */
flnet_answer flnet_ticks(flnet_core *core, bool *listed, uint16_t *areas, uint8_t *watch, uint8_t *misses, uint32_t count);

/*
 * How many ticks can come, with no other call between, before one brings news: another phase, another view, or a frame that was not due
 * before. A frame that is due already is no news, so ask first. A host can then sleep until one tick more than these have come, or until
 * a frame comes; it ticks up to that moment with flnet_ticks, and hears or asks as ever. Of the list only the flags and the watch times are read.
 */
flnet_quiet_ticks flnet_quiet(const flnet_core *core, const bool *listed, const uint8_t *watch);

/*
 * A frame from the wire, but not one of ours that the network gives back: a station that hears its own number before it participates is
 * turned off (number 6). Off, done, cyclic, or refused with any number but 10. A finished turn is written to its source's areas of the
 * common memory. A block that is kept or finishes a turn is stored in the assembly buffer, which the host lends again as it was left. A copy of
 * the last block still gathered, octet by octet as that buffer has it, is passed over: its data leave all as it was, its token is still read.
 */
flnet_answer flnet_hear(flnet_core *core, bool *listed, uint16_t *areas, uint8_t *watch, uint8_t *misses, const uint8_t *octets,
                        size_t octets_length, uint8_t *memory, size_t memory_length, uint8_t *assembly, size_t assembly_length);

/*
 * Asks for the frame that is due, after each tick and each frame heard: frame, or refused with 11 or 10. Send it before the next call. Ask
 * again after a frame without the token, but only as fast as frames go out: a station alone in its list always has a frame due, so a loop
 * that asks until it is refused would never end. The frame stands at the front of the output. At the first block of a turn our areas are
 * copied from the common memory to the front of the turn buffer, which the host lends again as it was left. The host writes its own areas of
 * the common memory, and nothing else of it, between calls; what it writes during a turn goes out with the next one.
 */
flnet_answer flnet_ask(flnet_core *core, bool *listed, uint16_t *areas, uint8_t *watch, uint8_t *misses, const uint8_t *memory,
                       size_t memory_length, uint8_t *turn, size_t turn_length, uint8_t *output, size_t output_length);

/* What the front panel shows. */
flnet_figure flnet_show(const flnet_core *core);

/* The same calls on a station that the caller keeps. */

static inline void flnet_station_new(flnet_station *station)
{
    flnet_new(&station->core, FLNET_LIST(*station));
}

static inline flnet_answer flnet_station_start(flnet_station *station, flnet_settings own)
{
    return flnet_start(&station->core, FLNET_LIST(*station), own);
}

static inline flnet_answer flnet_station_stop(flnet_station *station)
{
    return flnet_stop(&station->core, FLNET_LIST(*station));
}

static inline flnet_answer flnet_station_tick(flnet_station *station)
{
    return flnet_tick(&station->core, FLNET_LIST(*station));
}

static inline flnet_answer flnet_station_ticks(flnet_station *station, uint32_t count)
{
    return flnet_ticks(&station->core, FLNET_LIST(*station), count);
}

static inline flnet_quiet_ticks flnet_station_quiet(const flnet_station *station)
{
    return flnet_quiet(&station->core, station->list.listed, station->list.watch);
}

static inline flnet_answer flnet_station_hear(flnet_station *station, const uint8_t *octets, size_t octets_length, uint8_t *memory,
                                              size_t memory_length, uint8_t *assembly, size_t assembly_length)
{
    return flnet_hear(&station->core, FLNET_LIST(*station), octets, octets_length, memory, memory_length, assembly, assembly_length);
}

static inline flnet_answer flnet_station_ask(flnet_station *station, const uint8_t *memory, size_t memory_length, uint8_t *turn,
                                             size_t turn_length, uint8_t *output, size_t output_length)
{
    return flnet_ask(&station->core, FLNET_LIST(*station), memory, memory_length, turn, turn_length, output, output_length);
}

static inline flnet_figure flnet_station_show(const flnet_station *station)
{
    return flnet_show(&station->core);
}

#ifndef __cplusplus
static_assert(sizeof(flnet_part) == 4, "flnet_part");
static_assert(sizeof(flnet_areas) == 8, "flnet_areas");
static_assert(sizeof(flnet_settings) == 12, "flnet_settings");
static_assert(sizeof(flnet_list) == 2816, "flnet_list");
static_assert(sizeof(flnet_core) == 72, "flnet_core");
static_assert(offsetof(flnet_core, elapsed) == 36 && offsetof(flnet_core, gap) == 68, "the order of flnet_core");
static_assert(sizeof(flnet_station) == 2888, "flnet_station");
static_assert(sizeof(flnet_route) == 4, "flnet_route");
static_assert(sizeof(flnet_answer) == 16, "flnet_answer");
static_assert(sizeof(flnet_figure) == 24, "flnet_figure");
static_assert(sizeof(flnet_quiet_ticks) == 8, "flnet_quiet_ticks");
#else
}
#endif

#endif
