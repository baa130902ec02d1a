/* How long FreeRDP's decoders take for a recorded stream.
 *
 *     bench STREAM N
 *
 * A line for each kind of stream in it: how many, their bytes and pixels, and the processor time inside
 * FreeRDP's calls in ms, the best of N rounds.
 *
 * new  decoders and surfaces are new in each round
 * on   they are kept from round to round, and the cursors of the bands' rings start at 0 in each */
#include "screen.h"

#include <stdlib.h>
#include <string.h>

/* Sets the flag of a cache reset in the first ClearCodec stream of a payload, if it has one. New decoders
 * have their cursors at 0 anyway, so it makes no difference to them. */
static bool reset_cursors(struct bytes *payload)
{
    for (size_t at = 0; at + 25 < payload->size;) {
        uint8_t *message = payload->at + at;
        uint32_t length = message[4] | message[5] << 8 | message[6] << 16 | (uint32_t)message[7] << 24;
        if (message[0] == 1 && message[1] == 0 && message[10] == 8 && message[11] == 0 && length > 25) {
            message[25] |= 4;
            return true;
        }
        if (length < 8)
            break;
        at += length;
    }
    return false;
}

static void play(struct screen *screen, const struct bytes *payloads, size_t count)
{
    for (size_t i = 0; i < count; i++)
        if (!screen_play(screen, &payloads[i]))
            give_up(screen_fault(screen));
}

static void keep_least(double *least, const struct screen *screen, bool first)
{
    for (enum kind kind = 0; kind < KINDS; kind++) {
        double seconds = screen_work(screen, kind)->seconds;
        if (first || seconds < least[kind])
            least[kind] = seconds;
    }
}

int main(int words, char **word)
{
    long rounds = words == 3 ? strtol(word[2], NULL, 10) : 0;
    FILE *file = words == 3 ? fopen(word[1], "rb") : NULL;
    if (rounds < 1 || !file)
        give_up("usage: bench STREAM N");
    start_freerdp(false);

    struct bytes *payloads;
    const char *fault;
    size_t count = read_payloads(read_file(file), &payloads, &fault);
    if (fault)
        give_up(fault);
    for (size_t i = 0; i < count && !reset_cursors(&payloads[i]); i++)
        ;

    double least_new[KINDS], least_on[KINDS];
    for (long round = 0; round < rounds; round++) {
        struct screen *screen = screen_new();
        play(screen, payloads, count);
        keep_least(least_new, screen, round == 0);
        screen_free(screen);
    }

    struct screen *screen = screen_new();
    play(screen, payloads, count);
    for (long round = 0; round < rounds; round++) {
        screen_again(screen);
        screen_clear_work(screen);
        play(screen, payloads, count);
        keep_least(least_on, screen, round == 0);
    }

    printf("%-12s %8s %12s %12s %10s %10s\n", "kind", "streams", "bytes", "pixels", "new ms", "on ms");
    for (enum kind kind = RESIDUAL; kind < KINDS; kind++) {
        const struct work *work = screen_work(screen, kind);
        if (work->streams)
            printf("%-12s %8lu %12llu %12llu %10.3f %10.3f\n", kind_names[kind], work->streams, work->bytes,
                   work->pixels, least_new[kind] * 1e3, least_on[kind] * 1e3);
    }
    screen_free(screen);
    return 0;
}
