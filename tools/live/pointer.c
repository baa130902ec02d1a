/* The form of the server's pointer, as view's window shows it: what the server tells of it ([MS-RDPBCGR] 2.2.9.1.1.4)
 * is made to pixels, and kept in the window under the number that the server gives it. Where the pointer stands is the
 * person's affair, so what the server says of that is passed over. */
#include "pointer.h"

#include <stdlib.h>
#include <string.h>

#include <freerdp/codec/color.h>
#include <freerdp/pointer.h>

enum { MOST_SIDE = 384, PIXEL = 4 };

static Picture *shown;

/* A form with its masks, whatever message it came in. */
typedef struct {
    UINT32 place, width, height, x, y, bits;
    const BYTE *colours, *mask;
    UINT32 colours_size, mask_size;
} Form;

/* X wants colours that are multiplied by alpha. */
static void multiply(uint32_t *pixels, size_t count)
{
    for (size_t i = 0; i < count; i++) {
        uint32_t pixel = pixels[i], alpha = pixel >> 24, made = alpha << 24;
        for (int shift = 0; shift < 24; shift += 8)
            made |= ((pixel >> shift & 255) * alpha + 127) / 255 << shift;
        pixels[i] = made;
    }
}

/* A form that can't be read is passed over: the pointer then is the usual one. */
static BOOL keep(const Form *form)
{
    size_t count = (size_t)form->width * form->height;
    bool has_bits = form->bits == 1 || form->bits == 16 || form->bits == 24 || form->bits == 32;
    uint32_t *pixels = NULL;
    if (has_bits && form->width <= MOST_SIDE && form->height <= MOST_SIDE && count && form->x < form->width &&
        form->y < form->height)
        pixels = calloc(count, PIXEL);
    if (pixels && freerdp_image_copy_from_pointer_data((BYTE *)pixels, PIXEL_FORMAT_BGRA32, form->width * PIXEL, 0, 0,
                                                       form->width, form->height, form->colours, form->colours_size,
                                                       form->mask, form->mask_size, form->bits, NULL)) {
        multiply(pixels, count);
        window_keep_pointer(shown, form->place, (const uint32_t[]){form->width, form->height, form->x, form->y},
                            pixels);
        window_show_pointer(shown, form->place);
    } else
        window_show_pointer(shown, USUAL_POINTER);
    free(pixels);
    return TRUE;
}

static Form form_of(const POINTER_COLOR_UPDATE *color, UINT32 bits)
{
    return (Form){color->cacheIndex, color->width, color->height, color->xPos, color->yPos, bits,
                  color->xorMaskData, color->andMaskData, color->lengthXorMask, color->lengthAndMask};
}

static BOOL on_color(rdpContext *context, const POINTER_COLOR_UPDATE *color)
{
    (void)context;
    Form form = form_of(color, 24);
    return keep(&form);
}

static BOOL on_new(rdpContext *context, const POINTER_NEW_UPDATE *new)
{
    (void)context;
    Form form = form_of(&new->colorPtrAttr, new->xorBpp);
    return keep(&form);
}

static BOOL on_large(rdpContext *context, const POINTER_LARGE_UPDATE *large)
{
    (void)context;
    Form form = {large->cacheIndex, large->width, large->height, large->hotSpotX, large->hotSpotY, large->xorBpp,
                 large->xorMaskData, large->andMaskData, large->lengthXorMask, large->lengthAndMask};
    return keep(&form);
}

static BOOL on_cached(rdpContext *context, const POINTER_CACHED_UPDATE *cached)
{
    (void)context;
    window_show_pointer(shown, cached->cacheIndex);
    return TRUE;
}

static BOOL on_system(rdpContext *context, const POINTER_SYSTEM_UPDATE *system)
{
    (void)context;
    window_show_pointer(shown, system->type == SYSPTR_NULL ? NO_POINTER : USUAL_POINTER);
    return TRUE;
}

static BOOL on_position(rdpContext *context, const POINTER_POSITION_UPDATE *position)
{
    (void)context;
    (void)position;
    return TRUE;
}

void pointer_take_over(rdpPointerUpdate *pointer, Picture *picture)
{
    shown = picture;
    pointer->PointerPosition = on_position;
    pointer->PointerSystem = on_system;
    pointer->PointerColor = on_color;
    pointer->PointerNew = on_new;
    pointer->PointerCached = on_cached;
    pointer->PointerLarge = on_large;
}
