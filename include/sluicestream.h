/* sluicestream.h - a reliable stream of bytes over datagrams, both ways.
 *
 * A connection has two ends that run this code. An end never acts by itself and owns no memory: the host lends it
 * four buffers, calls it, and carries its datagrams. There is no allocation, no clock and no socket in here.
 *
 * Each call answers an int64_t: a value >= 0, or -k where the call was refused with k (SLUICE_REFUSED_..).
 * A refused call has changed nothing, and every call ends and stays inside the buffers that it was lent,
 * whatever they hold. Buffers are passed as a pointer and a length in elements. They may be longer than asked for;
 * what is beyond is never touched. No two of the buffers that one call is lent may overlap. A call takes less than
 * 1,024 bytes of stack.
 *
 * A host loop, for one end:
 *
 *     static uint64_t table[SLUICE_TABLE_WORDS];                        // zeros before the first open
 *     static uint8_t outgoing[SLUICE_RING], incoming[SLUICE_RING], marks[SLUICE_RING], out[SLUICE_OUTPUT];
 *
 *     sluice_open(table, SLUICE_TABLE_WORDS, outgoing, SLUICE_RING, incoming, SLUICE_RING,
 *                 marks, SLUICE_RING, epoch, 50);
 *     for (;;) {                                                        // once for each tick of the host's clock
 *         while ((n = receive_from_network(packet, sizeof packet)) > 0)
 *             sluice_datagram(table, SLUICE_TABLE_WORDS, incoming, SLUICE_RING, marks, SLUICE_RING, packet, n);
 *
 *         given += sluice_give(table, SLUICE_TABLE_WORDS, outgoing, SLUICE_RING, text + given, length - given);
 *         if (given == length)
 *             sluice_finish(table, SLUICE_TABLE_WORDS);
 *
 *         n = sluice_take(table, SLUICE_TABLE_WORDS, incoming, SLUICE_RING, room, sizeof room, &ended);
 *         use(room, n, ended);
 *
 *         n = sluice_tick(table, SLUICE_TABLE_WORDS, outgoing, SLUICE_RING, out, SLUICE_OUTPUT);
 *         for (at = 0; at < n; at += size) {
 *             size = SLUICE_HEADER + (out[at + 2] << 8 | out[at + 3]);
 *             send_to_network(out + at, size);
 *         }
 *     }
 *
 * A packet buffer of SLUICE_DATAGRAM + 1 bytes holds every datagram that an end accepts, and shows one that is too
 * long. A refused datagram needs no answer and no care: it is as if the network had lost it.
 *
 * host/c/gate.c is a whole host.
 */
#ifndef SLUICESTREAM_H
#define SLUICESTREAM_H

#include <stddef.h>
#include <stdint.h>

#ifdef __cplusplus
extern "C" {
#endif

/* Words of the table: all that an end knows, save the bytes themselves. */
#define SLUICE_TABLE_WORDS 165
/* Bytes of each of the buffers outgoing, incoming and marks. */
#define SLUICE_RING 65536
/* Bytes of a datagram's header, and the most that a datagram has. */
#define SLUICE_HEADER 32
#define SLUICE_DATAGRAM 1056
/* Bytes that tick asks for: 32 datagrams of 1,056 bytes. */
#define SLUICE_OUTPUT 33792
/* The longest resend interval, in ticks. */
#define SLUICE_LONGEST_INTERVAL 65535

/* What a call was refused with; the answer is its negative. A datagram is refused with the first that applies. */
enum sluice_refusal {
    SLUICE_REFUSED_LENGTH = 1,      /* datagram shorter than 32 bytes, or not as long as its length field says */
    SLUICE_REFUSED_FORM = 2,        /* unknown kind, or a flag or field that is not allowed */
    SLUICE_REFUSED_EPOCH = 3,       /* datagram of another epoch */
    SLUICE_REFUSED_NUMBER_ZERO = 4, /* datagram with number 0 */
    SLUICE_REFUSED_TOO_OLD = 5,     /* number 1,024 or more behind the highest accepted */
    SLUICE_REFUSED_TAKEN = 6,       /* number taken before */
    SLUICE_REFUSED_NEVER_SENT = 7,  /* ACK for a position that was never sent */
    SLUICE_REFUSED_CREDIT = 8,      /* DATA beyond the credit that was granted, or at 2^62 or above */
    SLUICE_REFUSED_END = 9,         /* DATA at odds with the END, or an END at odds with what has arrived */
    SLUICE_REFUSED_INTERVAL = 10,   /* open with an interval of 0 or above 65,535 */
    SLUICE_REFUSED_SHORT = 11,      /* a lent buffer or table that is too short */
    SLUICE_REFUSED_NOT_OPEN = 12,   /* the table is not one of an open end */
    SLUICE_REFUSED_OUTPUT = 13      /* tick with an output buffer below 33,792 bytes */
};

/* Makes a fresh end.
 *
 * table    at least SLUICE_TABLE_WORDS words, filled with zeros by the host before its first open
 * outgoing at least SLUICE_RING bytes: what was given and isn't yet acknowledged
 * incoming at least SLUICE_RING bytes: what has arrived and isn't yet taken
 * marks    at least SLUICE_RING bytes: which of those have arrived
 * epoch    the same at both ends; the host promises never to use one twice for the same pair of ends
 * interval ticks after which a segment is sent again, 1 to SLUICE_LONGEST_INTERVAL
 *
 * Between calls the host leaves all four buffers as they are. On an end that is open it makes a fresh one.
 * Answers 0. Refused with 10, 11. */
int64_t sluice_open(uint64_t *table, size_t table_words, uint8_t *outgoing, size_t outgoing_bytes, uint8_t *incoming,
                    size_t incoming_bytes, uint8_t *marks, size_t marks_bytes, uint64_t epoch, uint64_t interval);

/* Takes as many of the bytes, from the first on, as there is room for; they will be sent in later ticks.
 * Answers how many: 0 to length, and 0 after finish. Refused with 11, 12. */
int64_t sluice_give(uint64_t *table, size_t table_words, uint8_t *outgoing, size_t outgoing_bytes,
                    const uint8_t *bytes, size_t length);

/* No more bytes will be given: the peer will be told the END. Calling it again has no effect.
 * Answers 0. Refused with 11, 12. */
int64_t sluice_finish(uint64_t *table, size_t table_words);

/* Takes one datagram from the network, of any length and content.
 * Answers 0 where it was accepted. Refused with 1 to 9, 11, 12. */
int64_t sluice_datagram(uint64_t *table, size_t table_words, uint8_t *incoming, size_t incoming_bytes, uint8_t *marks,
                        size_t marks_bytes, const uint8_t *bytes, size_t length);

/* Hands up at most length of the bytes that are next in the peer's stream, in order.
 * Answers how many, and sets *ended to 1 if the END has been reached, to 0 if not. Refused with 11, 12. */
int64_t sluice_take(uint64_t *table, size_t table_words, uint8_t *incoming, size_t incoming_bytes, uint8_t *out,
                    size_t length, uint8_t *ended);

/* The clock moves on by one. Writes the datagrams that are to be sent now to out, one after the other, each of
 * SLUICE_HEADER bytes and as many more as its length field (bytes 2 and 3, the high byte first) says.
 * Answers the bytes written in all: 0 to SLUICE_OUTPUT. Refused with 11, 12, 13. */
int64_t sluice_tick(uint64_t *table, size_t table_words, uint8_t *outgoing, size_t outgoing_bytes, uint8_t *out,
                    size_t out_bytes);

#ifdef __cplusplus
}
#endif

#endif
