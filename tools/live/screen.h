/* The X display that is shared: what it shows, what of it has changed, the form of its pointer, and keys and pointer
 * for it. */
#ifndef SCREEN_H
#define SCREEN_H

#include <stdbool.h>
#include <stddef.h>
#include <stdint.h>

typedef struct SharedScreen SharedScreen;

enum { MOST_SIDE = 1024 }; /* of a piece */

/* A piece of what has changed, with its pixels: rows from the top, of four bytes each, B, G, R and one that says
 * nothing. They stand till the next piece is taken. */
typedef struct {
    uint16_t x, y, width, height;
    const uint8_t *pixels;
    size_t size;
} Piece;

/* A form of the pointer, with its pixels: rows from the top, of four bytes each, B, G, R and alpha, by which the colour
 * isn't multiplied. The point that points is at x, y. They stand till the next form is taken. */
typedef struct {
    uint16_t width, height, x, y;
    const uint8_t *pixels;
} PointerForm;

/* Opens the display of this name, and takes all of it as changed. Where it can't, says why. */
SharedScreen *screen_open(const char *name);
void screen_close(SharedScreen *screen);

uint32_t screen_width(const SharedScreen *screen);
uint32_t screen_height(const SharedScreen *screen);

/* The file to wait on, and whether something that came by it is still to be heard. */
int screen_file(const SharedScreen *screen);
bool screen_has_events(SharedScreen *screen);

/* Hears what the display has to say. Answers whether anything may have changed since the last grab. */
bool screen_has_changed(SharedScreen *screen);

/* A rectangle of what was taken that shows at another place now, since a window was moved. */
typedef struct {
    uint16_t left, top, right, bottom, to_x, to_y;
} Move;

/* Looks at what may have changed. Then the moves are taken one by one, until there is none; and behind them the pieces
 * that really differ from what was taken before and moved since. */
void screen_grab(SharedScreen *screen);
bool screen_take_move(SharedScreen *screen, Move *move);
bool screen_take(SharedScreen *screen, Piece *piece);

/* Takes each square as changed that was taken in parts, or moved to, since it was taken whole. Answers whether there is
 * any. */
bool screen_renew(SharedScreen *screen);

/* Whether the display has got other sides. They are taken over by the second, and then all counts as changed; where
 * that can't be, it says why, and the screen is of no use any more. */
bool screen_has_resized(const SharedScreen *screen);
bool screen_resize(SharedScreen *screen);

/* Takes the form of the pointer where it isn't the one that was taken last: of one that is larger than `most` by `most`
 * the part around the point that points. Where the display doesn't tell it, as that of a
 * program which has ended, it is without pixels. It asks the display, and waits for its answer. */
bool screen_take_pointer(SharedScreen *screen, uint16_t most, PointerForm *form);

/* Takes all as changed. */
void screen_forget(SharedScreen *screen);

/* A key by its scancode, and the pointer, as [MS-RDPBCGR] has them. */
void screen_key(SharedScreen *screen, uint16_t flags, uint16_t code);
void screen_pointer(SharedScreen *screen, uint16_t flags, uint16_t x, uint16_t y);

/* Lets go all keys and buttons that are down by way of here. */
void screen_let_go(SharedScreen *screen);

#endif
