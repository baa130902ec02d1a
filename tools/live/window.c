/* The window of view: the picture of the session, and what is done in it by keys and pointer.
 *
 * The whole picture is kept, in memory that is shared with the X server where it can be, since a window that comes out
 * from behind another is to be drawn again. The window has the sides of the picture and no others. */
#include "window.h"

#include <stdio.h>
#include <stdlib.h>
#include <string.h>
#include <sys/ipc.h>
#include <sys/shm.h>
#include <unistd.h>

#include <X11/XKBlib.h>
#include <X11/Xcursor/Xcursor.h>
#include <X11/Xlib.h>
#include <X11/Xutil.h>
#include <X11/extensions/XShm.h>

#include <freerdp/locale/keyboard.h>

#include "say.h"

enum { PIXEL = 4 };

struct Picture {
    Display *display;
    Window window;
    GC context;
    Visual *visual;
    int depth;
    Atom closing;
    XImage *image;
    XShmSegmentInfo segment; /* with an address where the image is shared */
    uint32_t width, height;
    const char *title;
    Cursor pointers[MOST_POINTERS + 1], pointer; /* kept, with the empty one; the one that shows, None for the usual */
};

/* ---- The beginning and the end */

static bool is_refused;

static int hear_refusal(Display *display, XErrorEvent *event)
{
    (void)display;
    (void)event;
    is_refused = true;
    return 0;
}

/* It may not return, so this process ends here. What it has opened goes with it. */
static int hear_loss(Display *display)
{
    say("display %s has gone", DisplayString(display));
    _exit(1);
}

Picture *window_open(const char *display, const char *title)
{
    Picture *picture = calloc(1, sizeof *picture);
    XSetErrorHandler(hear_refusal);
    XSetIOErrorHandler(hear_loss);
    if (!picture || !(picture->display = XOpenDisplay(display))) {
        say("display %s can't be opened: is its X server there, and may you use it?", XDisplayName(display));
        free(picture);
        return NULL;
    }
    picture->visual = DefaultVisual(picture->display, DefaultScreen(picture->display));
    picture->depth = DefaultDepth(picture->display, DefaultScreen(picture->display));
    picture->title = title;
    if (picture->depth == 24 && picture->visual->red_mask == 0xFF0000 && picture->visual->blue_mask == 0xFF)
        return picture;
    say("display %s has other pixels than 24 bits of colour: start its X server with depth 24", XDisplayName(display));
    window_close(picture);
    return NULL;
}

static void close_image(Picture *picture)
{
    if (!picture->image)
        return;
    if (picture->segment.shmaddr) {
        XShmDetach(picture->display, &picture->segment);
        XSync(picture->display, False);
        shmdt(picture->segment.shmaddr);
        picture->image->data = NULL;
    }
    XDestroyImage(picture->image);
    picture->segment.shmaddr = NULL;
    picture->image = NULL;
}

void window_close(Picture *picture)
{
    if (!picture)
        return;
    close_image(picture);
    XCloseDisplay(picture->display);
    free(picture);
}

int window_file(const Picture *picture)
{
    return ConnectionNumber(picture->display);
}

/* The segment is marked as gone once both ends have it, so that nothing of it stays whatever happens. */
static bool share_image(Picture *picture, uint32_t width, uint32_t height)
{
    if (!XShmQueryExtension(picture->display))
        return false;
    picture->image = XShmCreateImage(picture->display, picture->visual, (unsigned)picture->depth, ZPixmap, NULL,
                                     &picture->segment, width, height);
    if (!picture->image)
        return false;
    size_t size = (size_t)picture->image->bytes_per_line * height;
    int id = picture->segment.shmid = shmget(IPC_PRIVATE, size, IPC_CREAT | 0600);
    void *memory = id < 0 ? (void *)-1 : shmat(id, NULL, 0);
    bool is_shared = memory != (void *)-1;
    if (is_shared) {
        picture->segment.shmaddr = picture->image->data = memory;
        is_refused = false;
        XShmAttach(picture->display, &picture->segment);
        XSync(picture->display, False);
        is_shared = !is_refused;
    }
    if (id >= 0)
        shmctl(id, IPC_RMID, NULL);
    if (is_shared)
        return true;
    if (memory != (void *)-1)
        shmdt(memory);
    picture->segment.shmaddr = picture->image->data = NULL;
    XDestroyImage(picture->image);
    picture->image = NULL;
    return false;
}

static bool open_image(Picture *picture, uint32_t width, uint32_t height)
{
    if (share_image(picture, width, height))
        return true;
    char *pixels = calloc((size_t)width * height, PIXEL);
    picture->image = pixels ? XCreateImage(picture->display, picture->visual, (unsigned)picture->depth, ZPixmap, 0,
                                           pixels, width, height, 32, 0)
                            : NULL;
    if (!picture->image)
        free(pixels);
    return picture->image;
}

/* ---- Sides */

static void fix_sides(Picture *picture)
{
    XSizeHints *hints = XAllocSizeHints();
    if (!hints)
        return;
    hints->flags = PMinSize | PMaxSize;
    hints->min_width = hints->max_width = (int)picture->width;
    hints->min_height = hints->max_height = (int)picture->height;
    XSetWMNormalHints(picture->display, picture->window, hints);
    XFree(hints);
}

static void open_window(Picture *picture)
{
    Window root = DefaultRootWindow(picture->display);
    picture->window = XCreateSimpleWindow(picture->display, root, 0, 0, picture->width, picture->height, 0, 0, 0);
    picture->context = XCreateGC(picture->display, picture->window, 0, NULL);
    picture->closing = XInternAtom(picture->display, "WM_DELETE_WINDOW", False);
    XSetWMProtocols(picture->display, picture->window, &picture->closing, 1);
    XStoreName(picture->display, picture->window, picture->title);
    XSelectInput(picture->display, picture->window,
                 ExposureMask | KeyPressMask | KeyReleaseMask | ButtonPressMask | ButtonReleaseMask |
                     PointerMotionMask | FocusChangeMask | StructureNotifyMask);
    XkbSetDetectableAutoRepeat(picture->display, True, NULL);
    XDefineCursor(picture->display, picture->window, picture->pointer);
    fix_sides(picture);
    XMapWindow(picture->display, picture->window);
}

bool window_has_sides(const Picture *picture, uint32_t width, uint32_t height)
{
    return picture->width == width && picture->height == height;
}

bool window_resize(Picture *picture, uint32_t width, uint32_t height)
{
    close_image(picture);
    picture->width = width;
    picture->height = height;
    if (!open_image(picture, width, height)) {
        say("no memory is left for a picture of %u by %u", width, height);
        return false;
    }
    if (picture->window) {
        fix_sides(picture);
        XResizeWindow(picture->display, picture->window, width, height);
    } else {
        open_window(picture);
    }
    return true;
}

/* ---- Drawing */

static void show(Picture *picture, int x, int y, unsigned width, unsigned height)
{
    if (!picture->image)
        return;
    if (picture->segment.shmaddr)
        XShmPutImage(picture->display, picture->window, picture->context, picture->image, x, y, x, y, width, height,
                     False);
    else
        XPutImage(picture->display, picture->window, picture->context, picture->image, x, y, x, y, width, height);
    XSync(picture->display, False);
}

static uint8_t *row_of(const Picture *picture, uint32_t y)
{
    return (uint8_t *)picture->image->data + (size_t)y * (size_t)picture->image->bytes_per_line;
}

void window_draw(Picture *picture, const uint16_t rect[4], const uint8_t *pixels)
{
    uint32_t left = rect[0], top = rect[1], right = rect[2], bottom = rect[3];
    if (right > picture->width || bottom > picture->height || left >= right || top >= bottom)
        return;
    size_t size = (size_t)(right - left) * PIXEL;
    for (uint32_t y = top; y < bottom; y++, pixels += size)
        memcpy(row_of(picture, y) + (size_t)left * PIXEL, pixels, size);
    show(picture, (int)left, (int)top, right - left, bottom - top);
}

bool window_write(const Picture *picture, const char *name)
{
    static const char digits[] = "0123456789abcdef";
    FILE *file = fopen(name, "we");
    if (!file)
        return false;
    fprintf(file, "output %ux%u\n", picture->width, picture->height);
    for (uint32_t y = 0; picture->image && y < picture->height; y++) {
        const uint8_t *pixels = row_of(picture, y);
        for (uint32_t i = 0; i < picture->width * PIXEL; i++) {
            uint8_t byte = i % PIXEL == PIXEL - 1 ? 0xFF : pixels[i];
            putc(digits[byte >> 4], file);
            putc(digits[byte & 15], file);
        }
        putc('\n', file);
    }
    bool is_written = !ferror(file);
    return fclose(file) == 0 && is_written;
}

/* ---- The form of the pointer */

static Cursor make_pointer(Picture *picture, const uint32_t form[4], const uint32_t *pixels)
{
    XcursorImage *image = XcursorImageCreate((int)form[0], (int)form[1]);
    if (!image)
        return None;
    image->xhot = form[2];
    image->yhot = form[3];
    memcpy(image->pixels, pixels, (size_t)form[0] * form[1] * PIXEL);
    Cursor made = XcursorImageLoadCursor(picture->display, image);
    XcursorImageDestroy(image);
    return made;
}

void window_keep_pointer(Picture *picture, uint32_t place, const uint32_t form[4], const uint32_t *pixels)
{
    if (place > NO_POINTER)
        return;
    if (picture->pointers[place])
        XFreeCursor(picture->display, picture->pointers[place]);
    picture->pointers[place] = make_pointer(picture, form, pixels);
}

void window_show_pointer(Picture *picture, uint32_t place)
{
    const uint32_t clear = 0;
    if (place == NO_POINTER && !picture->pointers[NO_POINTER])
        window_keep_pointer(picture, NO_POINTER, (const uint32_t[]){1, 1, 0, 0}, &clear);
    picture->pointer = place <= NO_POINTER ? picture->pointers[place] : None;
    if (picture->window)
        XDefineCursor(picture->display, picture->window, picture->pointer);
    XFlush(picture->display);
}

/* ---- Keys and pointer */

static void hear_button(rdpInput *input, const XButtonEvent *event, bool is_down)
{
    static const uint16_t flags[] = {0, PTR_FLAGS_BUTTON1, PTR_FLAGS_BUTTON3, PTR_FLAGS_BUTTON2};
    uint16_t x = (uint16_t)(event->x < 0 ? 0 : event->x), y = (uint16_t)(event->y < 0 ? 0 : event->y);
    if (event->button >= 1 && event->button <= 3)
        freerdp_input_send_mouse_event(input, flags[event->button] | (is_down ? PTR_FLAGS_DOWN : 0), x, y);
    else if (is_down && event->button == 4)
        freerdp_input_send_mouse_event(input, PTR_FLAGS_WHEEL | 0x0078, 0, 0);
    else if (is_down && event->button == 5)
        freerdp_input_send_mouse_event(input, PTR_FLAGS_WHEEL | PTR_FLAGS_WHEEL_NEGATIVE | 0x0088, 0, 0);
}

static void hear_motion(rdpInput *input, const XMotionEvent *event)
{
    if (event->x >= 0 && event->y >= 0)
        freerdp_input_send_mouse_event(input, PTR_FLAGS_MOVE, (uint16_t)event->x, (uint16_t)event->y);
}

static void hear_key(rdpInput *input, unsigned keycode, bool is_down)
{
    DWORD code = freerdp_keyboard_get_rdp_scancode_from_x11_keycode(keycode);
    if (code != RDP_SCANCODE_UNKNOWN)
        freerdp_input_send_keyboard_event_ex(input, is_down, code);
}

/* The lights of the keyboard, which tell the server also that no key is down. */
static void hear_focus(const Picture *picture, rdpInput *input)
{
    static const struct { KeySym key; uint16_t flag; } lights[] = {
        {XK_Scroll_Lock, KBD_SYNC_SCROLL_LOCK}, {XK_Num_Lock, KBD_SYNC_NUM_LOCK}, {XK_Caps_Lock, KBD_SYNC_CAPS_LOCK}};
    XkbStateRec state;
    uint16_t flags = 0;
    if (XkbGetState(picture->display, XkbUseCoreKbd, &state) != Success)
        return;
    for (size_t i = 0; i < sizeof lights / sizeof *lights; i++)
        if (state.locked_mods & XkbKeysymToModifiers(picture->display, lights[i].key))
            flags |= lights[i].flag;
    freerdp_input_send_focus_in_event(input, flags);
}

static bool is_closing(const Picture *picture, const XEvent *event)
{
    return event->type == DestroyNotify ||
           (event->type == ClientMessage && (Atom)event->xclient.data.l[0] == picture->closing);
}

static void hear(Picture *picture, const XEvent *event, rdpInput *input)
{
    const XExposeEvent *expose = &event->xexpose;
    if (event->type == Expose)
        show(picture, expose->x, expose->y, (unsigned)expose->width, (unsigned)expose->height);
    if (!input)
        return;
    switch (event->type) {
    case MotionNotify: hear_motion(input, &event->xmotion); break;
    case ButtonPress: hear_button(input, &event->xbutton, true); break;
    case ButtonRelease: hear_button(input, &event->xbutton, false); break;
    case KeyPress: hear_key(input, event->xkey.keycode, true); break;
    case KeyRelease: hear_key(input, event->xkey.keycode, false); break;
    case FocusIn: hear_focus(picture, input); break;
    default: break;
    }
}

bool window_hear(Picture *picture, rdpInput *input)
{
    while (XPending(picture->display)) {
        XEvent event;
        XNextEvent(picture->display, &event);
        if (is_closing(picture, &event))
            return true;
        hear(picture, &event, input);
    }
    return false;
}
