/* Stands in the place of live_server, and sends what it has from the header `stream.h`, an array `stream` with a
 * recording, as soon as the client has said its versions: with its blocks compressed, every byte as a literal, or with
 * NONSENSE defined a message that no client can take. It answers all commands, and does nothing else with them. */
#include <stdint.h>
#include <stdlib.h>
#include <string.h>
#include <unistd.h>

#include "stream.h"

enum { FRONT = 5, COMPRESSED = 0x24, SINGLE = 0xE0, SEVERAL_HEAD = 7 };

static uint8_t out[2 * sizeof stream + 65536], command[1 << 23];

static uint32_t number_of(const uint8_t *bytes)
{
    return bytes[0] | bytes[1] << 8 | bytes[2] << 16 | (uint32_t)bytes[3] << 24;
}

static uint8_t *put_number(uint8_t *at, uint32_t number)
{
    for (int i = 0; i < 4; i++)
        *at++ = (uint8_t)(number >> 8 * i);
    return at;
}

/* A block of these bytes: each is a 0 and its eight bits; at the end stands how many bits of the last byte say
 * nothing. */
static uint8_t *put_block(uint8_t *at, const uint8_t *bytes, size_t size)
{
    size_t bits = 0;
    *at++ = COMPRESSED;
    memset(at, 0, size + size / 8 + 1);
    for (size_t i = 0; i < size; i++, bits++)
        for (int bit = 8; bit--;) {
            bits++;
            at[bits / 8] |= (uint8_t)((bytes[i] >> bit & 1) << (7 - bits % 8));
        }
    at += (bits + 7) / 8;
    *at++ = (uint8_t)((8 - bits % 8) % 8);
    return at;
}

/* A channel message with its blocks compressed. */
static uint8_t *put_message(uint8_t *at, const uint8_t *message, size_t size)
{
    if (message[0] == SINGLE) {
        *at++ = SINGLE;
        return put_block(at, message + 2, size - 2);
    }
    memcpy(at, message, SEVERAL_HEAD);
    at += SEVERAL_HEAD;
    for (size_t block = SEVERAL_HEAD; block < size;) {
        size_t length = number_of(message + block);
        uint8_t *end = put_block(at + 4, message + block + 5, length - 1);
        put_number(at, (uint32_t)(end - at - 4));
        at = end;
        block += 4 + length;
    }
    return at;
}

static uint8_t *put_stream(uint8_t *at)
{
#ifdef NONSENSE
    at = put_number(at, 3);
    memcpy(at, "\xE0\x04\xFF", 3);
    return at + 3;
#else
    for (size_t place = 0; place < sizeof stream;) {
        size_t size = number_of(stream + place);
        uint8_t *end = put_message(at + 4, stream + place + 4, size);
        put_number(at, (uint32_t)(end - at - 4));
        at = end;
        place += 4 + size;
    }
    return at;
#endif
}

static void write_all(const uint8_t *bytes, size_t size)
{
    while (size) {
        ssize_t done = write(1, bytes, size);
        if (done <= 0)
            _exit(1);
        bytes += done;
        size -= (size_t)done;
    }
}

static void read_all(uint8_t *bytes, size_t size)
{
    while (size) {
        ssize_t done = read(0, bytes, size);
        if (done <= 0)
            _exit(0);
        bytes += done;
        size -= (size_t)done;
    }
}

static void answer(uint8_t kind, const uint8_t *end)
{
    uint8_t front[FRONT] = {kind};
    put_number(front + 1, (uint32_t)(end - out));
    write_all(front, FRONT);
    write_all(out, (size_t)(end - out));
}

int main(void)
{
    uint8_t front[FRONT];
    for (int has_sent = 0;;) {
        read_all(front, FRONT);
        read_all(command, number_of(front + 1));
        uint8_t *end = put_number(out, 0);
        if (front[0] == 'M') {
            answer('A', has_sent ? end : put_stream(end));
            has_sent = 1;
        } else if (front[0] == 'S') {
            out[0] = 1;
            answer('S', out + 1);
        } else {
            answer(front[0] == '?' ? '-' : 'O', out);
        }
    }
}
