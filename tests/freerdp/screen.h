/* A client's screen whose compressed pixels FreeRDP draws.
 *
 * Surfaces and cache slots are plain memory here, and what needs no codec is done by a few lines of our
 * own: fills, copies, the cache, uncompressed pixels. FreeRDP reads the channel messages (zgfx) and
 * decodes ClearCodec, RemoteFX Progressive and RemoteFX video. Its pixels are left exactly as it writes
 * them.
 *
 * Our own lines check what they need for themselves, and not all that the profile refuses. FreeRDP 2.11
 * doesn't check all that it needs (docs/INTEROP.md), so hostile streams aren't for this program. */
#ifndef SCREEN_H
#define SCREEN_H

#include <stdbool.h>
#include <stddef.h>
#include <stdint.h>
#include <stdio.h>

/* Bytes that the screen, or whoever reads them, has to free. */
struct bytes {
    uint8_t *at;
    size_t size;
};

/* What a message of pixels consists of. A ClearCodec stream with more than one part is MIXED. */
enum kind { RAW, RESIDUAL, BANDS, PLAIN, PALETTE, GLYPH_SHOWN, MIXED, PROGRESSIVE, VIDEO, KINDS };
extern const char *const kind_names[KINDS];

/* What was decoded of a kind: how many streams of how many bytes and pixels, and the processor time
 * inside FreeRDP's calls. */
struct work {
    unsigned long streams;
    unsigned long long bytes, pixels;
    double seconds;
};

/* What a tile of RemoteFX Progressive is: DIFFERENCE is a first one that goes on the tile before. A tile of
 * RemoteFX video is WHOLE. */
enum tile { FIRST, DIFFERENCE, UPGRADE, WHOLE, TILES };
extern const char *const tile_names[TILES];

struct screen;

struct screen *screen_new(void);
void screen_free(struct screen *screen);

/* Plays the messages of one payload. The answer is false at the first one that is refused; the reason is
 * then screen_fault. */
bool screen_play(struct screen *screen, const struct bytes *payload);

/* From now on the messages of a stream may come again: a surface that is there stays as it is when it is
 * made again, and any sequence number may come next. FreeRDP's decoders are kept. */
void screen_again(struct screen *screen);

/* `message 4: ..`, the number of the refused message from 1. */
const char *screen_fault(const struct screen *screen);

const struct work *screen_work(const struct screen *screen, enum kind kind);
void screen_clear_work(struct screen *screen);

/* How many tiles were decoded. */
unsigned long screen_tiles(const struct screen *screen, enum tile tile);

/* Prints all surfaces as `render` does: docs/FORMATS.md, "What is printed". */
void screen_print(const struct screen *screen, FILE *out);

/* All bytes of a file. */
struct bytes read_file(FILE *file);

/* Cuts a recording (docs/FORMATS.md) into the payloads of its channel messages, by FreeRDP's zgfx. The
 * answer is how many they are; `fault` is NULL or says why the reading ended there. */
size_t read_payloads(struct bytes recording, struct bytes **payloads, const char **fault);

/* FreeRDP's set-up: its vector code as a client has it, and its log lines on the standard error where
 * `log` is set, else nowhere. */
void start_freerdp(bool log);

/* Says why on the standard error, and ends with exit number 2. */
_Noreturn void give_up(const char *why);

#endif
