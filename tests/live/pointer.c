/* Prints the form of the pointer that a display shows now: its width and height, the point that points, and a sum over
 * its pixels. Of a pixel of which nothing shows the colour doesn't count. With the number of a form of the X server's
 * font of cursors it gives the display that form, till it is ended: a form whose program has ended is told to nobody.
 *
 *     DISPLAY=:1 pointer [NUMBER] */
#include <stdint.h>
#include <stdio.h>
#include <stdlib.h>
#include <unistd.h>

#include <X11/Xlib.h>
#include <X11/extensions/Xfixes.h>

int main(int count, char **given)
{
    Display *display = XOpenDisplay(NULL);
    if (!display)
        return 1;
    if (count > 1) {
        XDefineCursor(display, DefaultRootWindow(display), XCreateFontCursor(display, (unsigned)atoi(given[1])));
        XSync(display, False);
        pause();
    }
    XFixesCursorImage *image = XFixesGetCursorImage(display);
    uint32_t sum = 2166136261u;
    if (!image)
        return 1;
    for (int i = 0; i < image->width * image->height; i++) {
        uint32_t pixel = (uint32_t)image->pixels[i];
        sum = (sum ^ (pixel >> 24 ? pixel : 0)) * 16777619u;
    }
    printf("%dx%d at %d,%d: %08x\n", image->width, image->height, image->xhot, image->yhot, sum);
    XCloseDisplay(display);
    return 0;
}
