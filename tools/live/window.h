/* The window of view: the picture of the session, and what is done in it by keys and pointer. */
#ifndef WINDOW_H
#define WINDOW_H

#include <stdbool.h>
#include <stdint.h>
#include <stdio.h> /* which FreeRDP's headers want */

#include <freerdp/input.h>

typedef struct Picture Picture;

/* Opens the display of this name, or that of DISPLAY, without a window yet. Where it can't, says why. */
Picture *window_open(const char *display, const char *title);
void window_close(Picture *picture);
int window_file(const Picture *picture);

/* Gives the window these sides; it is shown from the first time on. The picture is black till it is drawn. */
bool window_resize(Picture *picture, uint32_t width, uint32_t height);
bool window_has_sides(const Picture *picture, uint32_t width, uint32_t height);

/* Draws a rectangle: rows from the top, of four bytes each, B, G, R and one. */
void window_draw(Picture *picture, const uint16_t rect[4], const uint8_t *pixels);

/* Forms of the pointer over the window, by their places: there are so many, and none and the usual one besides. */
enum { MOST_POINTERS = 256, NO_POINTER = MOST_POINTERS, USUAL_POINTER };

/* Keeps a form: its width and height, and the point that points, by x and y; its pixels, rows from the top, of alpha,
 * R, G and B from the highest bits on, with the colours multiplied by alpha. One of a higher place is passed over. */
void window_keep_pointer(Picture *picture, uint32_t place, const uint32_t form[4], const uint32_t *pixels);

/* Shows a form that is kept, none, or the usual one, which also comes where nothing is kept at the place. */
void window_show_pointer(Picture *picture, uint32_t place);

/* Hands on what was done in the window; no input where there is no connection to take it. Answers whether the window
 * is to be closed. */
bool window_hear(Picture *picture, rdpInput *input);

/* Writes the picture as `render --output` does. */
bool window_write(const Picture *picture, const char *name);

#endif
