/* The graphics channel, taken over from FreeRDP's own client: its messages, decompressed, one after the other.
 *
 * FreeRDP joins what comes over the dynamic channel to messages, and calls here from a thread of its own. Each message
 * goes through FreeRDP's decompression, whose history has to see all of them. One that was compressed is put into
 * blocks that aren't; any other is handed on as it came. */
#include "channel.h"

#include <pthread.h>
#include <stdio.h>
#include <stdlib.h>
#include <string.h>

#include <freerdp/client/channels.h>
#include <freerdp/codec/zgfx.h>
#include <freerdp/dvc.h>
#include <winpr/stream.h>
#include <winpr/synch.h>

#include "program.h"

#define CHANNEL "Microsoft::Windows::RDS::Graphics"

/* The framing of a channel message ([MS-RDPEGFX] RDP_SEGMENTED_DATA). */
enum {
    MOST_BLOCK = 65535,
    SINGLE = 0xE0,
    SEVERAL = 0xE1,
    SINGLE_HEAD = 1,
    SEVERAL_HEAD = 7,
    RDP8 = 4,
    COMPRESSED = 0x20
};

static struct {
    pthread_mutex_t lock;
    Message *first, **last;
    HANDLE event;
    bool has_failed;
    IWTSVirtualChannel *channel;
    ZGFX_CONTEXT *history;
    IWTSPlugin plugin;
    IWTSListenerCallback listener;
    IWTSVirtualChannelCallback callback;
} here = {.lock = PTHREAD_MUTEX_INITIALIZER, .last = &here.first};

/* ---- Messages */

static bool is_compressed(const uint8_t *bytes, size_t size)
{
    if (size <= SINGLE_HEAD)
        return false;
    if (bytes[0] == SINGLE)
        return bytes[SINGLE_HEAD] & COMPRESSED;
    for (size_t at = SEVERAL_HEAD; bytes[0] == SEVERAL && at + 4 < size; at += 4 + (size_t)number_of(bytes + at, 4))
        if (bytes[at + 4] & COMPRESSED)
            return true;
    return false;
}

static uint8_t *put_bytes(uint8_t *at, const uint8_t *bytes, size_t size)
{
    if (size)
        memcpy(at, bytes, size);
    return at + size;
}

static Message *message_of(const uint8_t *bytes, uint32_t size)
{
    Message *message = malloc(sizeof *message + size);
    if (message) {
        message->what = CHANNEL_GIVEN;
        message->size = size;
        put_bytes(message->bytes, bytes, size);
    }
    return message;
}

/* A message of this payload, in blocks that aren't compressed. */
static Message *wrapped(const uint8_t *payload, uint32_t size)
{
    Message *message = malloc(sizeof *message + SEVERAL_HEAD + (size_t)size + 5 * ((size_t)size / MOST_BLOCK + 1));
    if (!message)
        return NULL;
    message->what = CHANNEL_GIVEN;
    uint8_t *at = message->bytes;
    if (size <= MOST_BLOCK) {
        *at++ = SINGLE;
        *at++ = RDP8;
        at = put_bytes(at, payload, size);
    } else {
        *at++ = SEVERAL;
        at = put_number(at, (size + MOST_BLOCK - 1) / MOST_BLOCK, 2);
        at = put_number(at, size, 4);
        for (uint32_t done = 0; done < size;) {
            uint32_t part = size - done < MOST_BLOCK ? size - done : MOST_BLOCK;
            at = put_number(at, 1 + part, 4);
            *at++ = RDP8;
            at = put_bytes(at, payload + done, part);
            done += part;
        }
    }
    message->size = (uint32_t)(at - message->bytes);
    return message;
}

/* What FreeRDP can't decompress goes on as it is, and is refused behind. */
static Message *plain(const uint8_t *bytes, uint32_t size)
{
    uint8_t *payload = NULL;
    uint32_t payload_size = 0;
    bool is_read = zgfx_decompress(here.history, bytes, size, &payload, &payload_size, 0) >= 0;
    Message *message = is_read && is_compressed(bytes, size) ? wrapped(payload, payload_size) : message_of(bytes, size);
    free(payload);
    return message;
}

/* Where there is none, no memory was left for it. */
static UINT add(Message *message)
{
    pthread_mutex_lock(&here.lock);
    if (message) {
        message->next = NULL;
        *here.last = message;
        here.last = &message->next;
    } else {
        here.has_failed = true;
    }
    SetEvent(here.event);
    pthread_mutex_unlock(&here.lock);
    return message ? CHANNEL_RC_OK : CHANNEL_RC_NO_MEMORY;
}

static UINT add_happening(Happening what)
{
    Message *message = message_of(NULL, 0);
    if (message)
        message->what = what;
    return add(message);
}

Message *channel_take(void)
{
    pthread_mutex_lock(&here.lock);
    Message *message = here.first;
    if (message)
        here.first = message->next;
    if (!here.first) {
        here.last = &here.first;
        ResetEvent(here.event);
    }
    pthread_mutex_unlock(&here.lock);
    return message;
}

bool channel_has_message(void)
{
    pthread_mutex_lock(&here.lock);
    bool has = here.first;
    pthread_mutex_unlock(&here.lock);
    return has;
}

/* ---- What the library calls */

static UINT on_data(IWTSVirtualChannelCallback *callback, wStream *data)
{
    (void)callback;
    return add(plain(Stream_Pointer(data), (uint32_t)Stream_GetRemainingLength(data)));
}

static UINT on_open(IWTSVirtualChannelCallback *callback)
{
    (void)callback;
    zgfx_context_reset(here.history, TRUE);
    return add_happening(CHANNEL_OPENED);
}

static UINT on_close(IWTSVirtualChannelCallback *callback)
{
    (void)callback;
    pthread_mutex_lock(&here.lock);
    here.channel = NULL;
    pthread_mutex_unlock(&here.lock);
    return add_happening(CHANNEL_CLOSED);
}

/* A second channel of this name beside the first isn't taken. */
static UINT on_new(IWTSListenerCallback *listener, IWTSVirtualChannel *channel, BYTE *data, BOOL *accept,
                   IWTSVirtualChannelCallback **callback)
{
    (void)listener;
    (void)data;
    pthread_mutex_lock(&here.lock);
    *accept = !here.channel;
    if (*accept)
        here.channel = channel;
    pthread_mutex_unlock(&here.lock);
    *callback = &here.callback;
    return CHANNEL_RC_OK;
}

static UINT on_initialize(IWTSPlugin *plugin, IWTSVirtualChannelManager *manager)
{
    IWTSListener *listener;
    (void)plugin;
    return manager->CreateListener(manager, CHANNEL, 0, &here.listener, &listener);
}

static UINT on_terminated(IWTSPlugin *plugin)
{
    (void)plugin;
    return CHANNEL_RC_OK;
}

static UINT enter(IDRDYNVC_ENTRY_POINTS *points)
{
    here.plugin.Initialize = on_initialize;
    here.plugin.Terminated = on_terminated;
    here.listener.OnNewChannelConnection = on_new;
    here.callback.OnDataReceived = on_data;
    here.callback.OnOpen = on_open;
    here.callback.OnClose = on_close;
    return points->RegisterPlugin(points, "rdpgfx", &here.plugin);
}

PVIRTUALCHANNELENTRY channel_provide(LPCSTR name, LPCSTR subsystem, LPCSTR type, DWORD flags)
{
    if (strcmp(name, "rdpgfx") == 0 && flags & FREERDP_ADDIN_CHANNEL_DYNAMIC)
        return (PVIRTUALCHANNELENTRY)(void *)enter;
    return freerdp_channels_load_static_addin_entry(name, subsystem, type, flags);
}

/* ---- The rest */

bool channel_begin(void)
{
    here.event = CreateEventA(NULL, TRUE, FALSE, NULL);
    here.history = zgfx_context_new(FALSE);
    return here.event && here.history;
}

void channel_end(void)
{
    for (Message *message; (message = channel_take());)
        free(message);
    zgfx_context_free(here.history);
    if (here.event)
        CloseHandle(here.event);
}

HANDLE channel_event(void)
{
    return here.event;
}

bool channel_has_failed(void)
{
    pthread_mutex_lock(&here.lock);
    bool has = here.has_failed;
    pthread_mutex_unlock(&here.lock);
    return has;
}

bool channel_send(const uint8_t *bytes, uint32_t size)
{
    pthread_mutex_lock(&here.lock);
    IWTSVirtualChannel *channel = here.channel;
    pthread_mutex_unlock(&here.lock);
    return channel && channel->Write(channel, size, bytes, NULL) == CHANNEL_RC_OK;
}
