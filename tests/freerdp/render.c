/* FreeRDP draws a recorded stream.
 *
 *     render [--count] [--log] < STREAM > DUMP
 *
 * The dump has the form of `gfxpipe render`. Where a message is refused, the dump has the surfaces as
 * they then are, a line on the standard error says which message it was, and the exit number is 1.
 *
 * --count  a line on the standard error with how many streams of each kind were drawn, and how many tiles
 * --log    FreeRDP's own warnings and errors on the standard error */
#include "screen.h"

#include <string.h>

int main(int words, char **word)
{
    bool counts = false, log = false;
    for (int i = 1; i < words; i++) {
        if (!strcmp(word[i], "--count"))
            counts = true;
        else if (!strcmp(word[i], "--log"))
            log = true;
        else
            give_up("usage: render [--count] [--log] < STREAM > DUMP");
    }
    start_freerdp(log);

    struct bytes *payloads;
    const char *fault;
    size_t count = read_payloads(read_file(stdin), &payloads, &fault);
    struct screen *screen = screen_new();
    for (size_t i = 0; i < count; i++)
        if (!screen_play(screen, &payloads[i])) {
            fault = screen_fault(screen);
            break;
        }

    screen_print(screen, stdout);
    if (fflush(stdout) || ferror(stdout))
        give_up("the output can't be written");
    if (counts) {
        for (enum kind kind = 0; kind < KINDS; kind++)
            fprintf(stderr, "%s %lu ", kind_names[kind], screen_work(screen, kind)->streams);
        for (enum tile tile = 0; tile < TILES; tile++)
            fprintf(stderr, "%s %lu ", tile_names[tile], screen_tiles(screen, tile));
        fputc('\n', stderr);
    }
    if (fault)
        fprintf(stderr, "%s\n", fault);
    return fault ? 1 : 0;
}
