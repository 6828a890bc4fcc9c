/* gate.c - a whole host in C: a control room and a gate, both in this process, over a network that loses a third of
 * all datagrams, repeats some and lets them overtake each other. Follows the host loop of include/sluicestream.h.
 *
 * Nothing is allocated: the memory of both ends and of the network is below, 500 KB in all.
 * Exit status 0: both texts came through whole, END included. 1: they did not.
 */
#include <stdio.h>
#include <string.h>

#include "sluicestream.h"

enum { EPOCH = 7, INTERVAL = 20, PATIENCE = 100000, SLOTS = 64, LINES = 4000, ROOM = 96 };

/* The memory that one end is lent, and what its host knows. */
struct end {
    const char *name;
    uint64_t table[SLUICE_TABLE_WORDS];
    uint8_t outgoing[SLUICE_RING], incoming[SLUICE_RING], marks[SLUICE_RING];
    unsigned lines;            /* lines of text that it sends in all */
    unsigned line;             /* the line that is being given, */
    char text[ROOM];           /* its text, */
    size_t given;              /* and how much of it was given */
    unsigned peer_line;        /* the peer's line that is being taken, */
    char expected[ROOM];       /* the text it must have, */
    size_t taken;              /* and how much of it was taken */
    int finished, ended, wrong;
    unsigned long sent, refused;
};

/* The network: datagrams under way, each with the tick in which it is handed over. */
static struct slot {
    struct end *to;
    unsigned long tick;
    size_t length;
    uint8_t bytes[SLUICE_DATAGRAM];
} network[SLOTS];

static struct end room, gate;
static uint8_t out[SLUICE_OUTPUT];
static unsigned long now, lost, repeated;
static uint32_t seed = 1;

static uint32_t below(uint32_t bound)
{
    seed = seed * 1664525u + 1013904223u;
    return (uint32_t)(((uint64_t)seed * bound) >> 32);
}

/* Lends an end its buffers. */
static int64_t open_end(struct end *end, const char *name, unsigned lines)
{
    memset(end, 0, sizeof *end);
    end->name = name;
    end->lines = lines;
    return sluice_open(end->table, SLUICE_TABLE_WORDS, end->outgoing, SLUICE_RING, end->incoming, SLUICE_RING,
                       end->marks, SLUICE_RING, EPOCH, INTERVAL);
}

/* Line number n of what an end says. */
static void write_line(char *text, const struct end *end, unsigned n)
{
    snprintf(text, ROOM, "%s %u: GATE %u TO %u CM\n", end->name, n, n % 9 + 1, n * 7 % 240);
}

/* Puts a datagram into a free slot; without one it is lost, as on any network. */
static void carry(struct end *to, const uint8_t *bytes, size_t length)
{
    for (struct slot *slot = network; slot < network + SLOTS; slot++) {
        if (slot->length == 0) {
            slot->to = to;
            slot->tick = now + 1 + below(6);
            slot->length = length;
            memcpy(slot->bytes, bytes, length);
            return;
        }
    }
    lost++;
}

/* 1. Hands an end what the network has for it in this tick. */
static void hand_over(struct end *end)
{
    for (struct slot *slot = network; slot < network + SLOTS; slot++) {
        if (slot->length != 0 && slot->to == end && slot->tick <= now) {
            int64_t answer = sluice_datagram(end->table, SLUICE_TABLE_WORDS, end->incoming, SLUICE_RING, end->marks,
                                             SLUICE_RING, slot->bytes, slot->length);
            end->refused += answer < 0;
            slot->length = 0;
        }
    }
}

/* 2. Gives lines as long as there is room, and finishes after the last. */
static void give(struct end *end)
{
    while (end->line < end->lines) {
        if (end->given == 0)
            write_line(end->text, end, end->line);
        size_t length = strlen(end->text);
        int64_t count = sluice_give(end->table, SLUICE_TABLE_WORDS, end->outgoing, SLUICE_RING,
                                    (const uint8_t *)end->text + end->given, length - end->given);
        if (count < 0) {
            end->wrong = 1;
            return;
        }
        end->given += (size_t)count;
        if (end->given < length)
            return;
        end->given = 0;
        end->line++;
    }
    if (!end->finished)
        end->finished = sluice_finish(end->table, SLUICE_TABLE_WORDS) == 0;
}

/* 3. Takes what is there and compares it, byte for byte, with what the peer has to say. */
static void take(struct end *end, const struct end *peer)
{
    uint8_t bytes[256], ended = 0;
    int64_t count;
    do {
        count = sluice_take(end->table, SLUICE_TABLE_WORDS, end->incoming, SLUICE_RING, bytes, sizeof bytes, &ended);
        for (int64_t i = 0; i < count; i++) {
            if (end->taken == 0)
                write_line(end->expected, peer, end->peer_line);
            end->wrong |= bytes[i] != (uint8_t)end->expected[end->taken++];
            if (end->expected[end->taken] == '\0') {
                end->taken = 0;
                end->peer_line++;
            }
        }
    } while (count > 0);
    end->wrong |= count < 0;
    end->ended = ended;
}

/* 4. Ticks, and gives the network what is to be sent. */
static void tick(struct end *end, struct end *peer)
{
    int64_t written = sluice_tick(end->table, SLUICE_TABLE_WORDS, end->outgoing, SLUICE_RING, out, sizeof out);
    end->wrong |= written < 0;
    for (int64_t at = 0; at < written;) {
        size_t length = SLUICE_HEADER + ((size_t)out[at + 2] << 8 | out[at + 3]);
        end->sent++;
        if (below(3) == 0) {
            lost++;
        } else {
            carry(peer, out + at, length);
            if (below(10) == 0) {
                repeated++;
                carry(peer, out + at, length);
            }
        }
        at += (int64_t)length;
    }
}

static int report(const struct end *end, const struct end *peer)
{
    int right = end->ended && !end->wrong && end->peer_line == peer->lines && end->taken == 0;
    printf("%s: %u lines given, %u taken, END %s, %lu datagrams sent, %lu refused: %s\n", end->name, end->line,
           end->peer_line, end->ended ? "reached" : "not reached", end->sent, end->refused, right ? "right" : "WRONG");
    return right;
}

int main(void)
{
    if (open_end(&room, "room", LINES) != 0 || open_end(&gate, "gate", LINES / 4) != 0) {
        puts("open was refused");
        return 1;
    }
    while (!(room.ended && gate.ended) && !room.wrong && !gate.wrong && now < PATIENCE) {
        now++;
        hand_over(&room);
        hand_over(&gate);
        give(&room);
        give(&gate);
        take(&room, &gate);
        take(&gate, &room);
        tick(&room, &gate);
        tick(&gate, &room);
    }
    int right = report(&room, &gate) & report(&gate, &room);
    printf("%lu ticks, %lu datagrams lost, %lu repeated; %zu bytes of memory for each end\n", now, lost, repeated,
           sizeof room);
    return right ? 0 : 1;
}
