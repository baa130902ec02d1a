/* The graphics channel, taken over from FreeRDP's own client: its messages, decompressed, one after the other. */
#ifndef CHANNEL_H
#define CHANNEL_H

#include <stdbool.h>
#include <stdint.h>
#include <stdio.h> /* which FreeRDP's headers want */

#include <freerdp/addin.h>
#include <freerdp/freerdp.h>

/* What happened to the channel. A server may close it and open it anew, and all begins again. */
typedef enum { CHANNEL_OPENED, CHANNEL_GIVEN, CHANNEL_CLOSED } Happening;

/* One of these; where something was given, a channel message of the server, without compression. */
typedef struct Message {
    struct Message *next;
    Happening what;
    uint32_t size;
    uint8_t bytes[];
} Message;

bool channel_begin(void);
void channel_end(void);

/* Gives FreeRDP the entry of this channel in place of its own, and of all others its own. */
PVIRTUALCHANNELENTRY channel_provide(LPCSTR name, LPCSTR subsystem, LPCSTR type, DWORD flags);

/* An event that is set as long as there is a message. */
HANDLE channel_event(void);

/* The oldest message that wasn't taken yet, or NULL; the caller frees it. */
Message *channel_take(void);
bool channel_has_message(void);

/* Whether a message was lost since no memory was left. */
bool channel_has_failed(void);

/* Sends a channel message to the server. */
bool channel_send(const uint8_t *bytes, uint32_t size);

#endif
