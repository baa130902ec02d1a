/* One client of share: its connection, its live_server, and the frames between them.
 *
 * FreeRDP's library has the connection: TLS, the credentials, the joining of what comes over the dynamic channel of
 * graphics. live_server has the graphics: it is told what the display shows, and hands out what goes over that
 * channel. There is one thread. It waits for the connection, for the display, and for the end of live_server, which
 * else speaks only where it is asked.
 *
 * A frame is made where the display has changed and live_server says that it could go at once; so a client that is
 * slow gets fewer of them, and each as the display then looks. */
#define _GNU_SOURCE
#include "session.h"

#include <errno.h>
#include <fcntl.h>
#include <signal.h>
#include <stdint.h>
#include <stdio.h>
#include <stdlib.h>
#include <string.h>
#include <sys/signalfd.h>
#include <time.h>
#include <unistd.h>

#include <freerdp/channels/channels.h>
#include <freerdp/channels/wtsvc.h>
#include <freerdp/error.h>
#include <freerdp/freerdp.h>
#include <freerdp/peer.h>
#include <winpr/string.h>
#include <winpr/synch.h>
#include <winpr/wtsapi.h>

#include "program.h"
#include "say.h"
#include "screen.h"

#define CHANNEL "Microsoft::Windows::RDS::Graphics"

enum {
    MOST_HANDLES = 32,
    MOST_BODY = 65536,       /* of a record with the client's bytes */
    MOST_TURNS = 8,          /* behind a frame */
    BETWEEN_FRAMES = 25,     /* milliseconds, at least */
    BEFORE_IMPROVING = 200,  /* of rest */
    BETWEEN_POINTERS = 100,  /* looks at the pointer's form */
    BEFORE_GRAPHICS = 20000  /* till the first message of the client over the channel */
};

/* The surface, and what its pictures are told as. */
enum { SURFACE = 1, XRGB = 0x20, NO_GLYPH = 0xFFFF };

/* The kinds of pictures by which every pixel comes as it is. */
enum { FIRST_EXACT = 1, LAST_EXACT = 5 };

/* The protocol with NLA ([MS-RDPBCGR] 2.2.1.2.1). */
enum { HYBRID = 2 };

/* The most sides of a pointer's form, for clients that take large ones and for others, and the place where a client
 * keeps it. */
enum { MOST_LARGE = 96, MOST_SMALL = 32, POINTER_PLACE = 0, POINTER_BITS = 32 };

typedef struct {
    const Share *share;
    freerdp_peer *peer;
    HANDLE manager, channel, channel_event; /* of the channels; the graphics channel, where it is open */
    HANDLE screen_event, server_event, signal_event;
    int signals; /* a file that has those by which share ends its sessions */
    SharedScreen *screen;
    Program server;
    bool has_proved;           /* user and password, by NLA */
    bool is_known, is_refused; /* by its credentials */
    bool is_fed;               /* live_server has its server's end */
    bool is_rough;             /* something may show better by an `I` */
    bool has_ended;            /* and a line has said why */
    uint64_t begun, last_frame, last_change, last_pointer;
    uint32_t frames, acknowledged;
    uint8_t *message; /* of the client, behind its length */
    size_t room;
    int record; /* or -1 */
    bool is_recorded; /* as long as it can be */
} Session;

typedef struct {
    rdpContext front;
    Session *session;
} Context;

static Session *session_of(const rdpContext *context)
{
    return ((const Context *)context)->session;
}

static uint64_t now(void)
{
    struct timespec time;
    clock_gettime(CLOCK_MONOTONIC, &time);
    return (uint64_t)time.tv_sec * 1000 + (uint64_t)time.tv_nsec / 1000000;
}

/* ---- What the library calls */

static BOOL on_capabilities(freerdp_peer *peer)
{
    const Session *session = session_of(peer->context);
    peer->settings->DesktopWidth = screen_width(session->screen);
    peer->settings->DesktopHeight = screen_height(session->screen);
    return TRUE;
}

/* Why the connection ends, which a client shows in words of its own. */
static void tell_client(freerdp_peer *peer, UINT32 error)
{
    freerdp_set_error_info(peer->context->rdp, error);
    freerdp_send_error_info(peer->context->rdp);
}

/* Looks at every letter whatever the first ones are, so that the time tells nothing. */
static bool is_same(const char *wanted, const char *given)
{
    size_t size = strlen(wanted), given_size = given ? strlen(given) : 0;
    unsigned differences = size != given_size;
    for (size_t i = 0; i < size; i++)
        differences |= (unsigned char)wanted[i] ^ (unsigned char)(i < given_size ? given[i] : 0);
    return differences == 0;
}

/* With NLA the client has proved that it has the password before this is called, and has handed it over. Both are
 * looked at again here, so that nothing hangs on the library's judgement alone. */
static BOOL on_logon(freerdp_peer *peer, SEC_WINNT_AUTH_IDENTITY *identity, BOOL has_proved)
{
    Session *session = session_of(peer->context);
    char *user = NULL, *password = NULL;
    if (!has_proved)
        return TRUE;
    if (identity->User)
        ConvertFromUnicode(CP_UTF8, 0, identity->User, (int)identity->UserLength, &user, 0, NULL, NULL);
    if (identity->Password)
        ConvertFromUnicode(CP_UTF8, 0, identity->Password, (int)identity->PasswordLength, &password, 0, NULL, NULL);
    bool is_user = is_same(session->share->user, user);
    session->has_proved = is_same(session->share->password, password) && is_user;
    free(user);
    free(password);
    return session->has_proved;
}

/* With TLS alone the credentials come in the client's information, behind the call of Logon: so they are looked at
 * here, before anything of the display is sent. */
static BOOL on_connected(freerdp_peer *peer)
{
    Session *session = session_of(peer->context);
    bool is_user = is_same(session->share->user, peer->settings->Username);
    bool has_password = is_same(session->share->password, peer->settings->Password);
    session->is_known = session->has_proved || (is_user && has_password);
    session->is_refused = !session->is_known;
    if (session->is_refused) {
        sleep(1); /* So that not many can be tried. */
        tell_client(peer, ERRINFO_SERVER_INSUFFICIENT_PRIVILEGES);
    }
    return session->is_known;
}

static BOOL on_activated(freerdp_peer *peer)
{
    (void)peer;
    return TRUE;
}

/* A client that isn't known yet may send keys already: they go nowhere. */
static BOOL on_key(rdpInput *input, UINT16 flags, UINT16 code)
{
    const Session *session = session_of(input->context);
    if (session->is_known)
        screen_key(session->screen, flags, code);
    return TRUE;
}

static BOOL on_pointer(rdpInput *input, UINT16 flags, UINT16 x, UINT16 y)
{
    const Session *session = session_of(input->context);
    if (session->is_known)
        screen_pointer(session->screen, flags, x, y);
    return TRUE;
}

static BOOL on_synchronize(rdpInput *input, UINT32 flags)
{
    (void)flags;
    screen_let_go(session_of(input->context)->screen);
    return TRUE;
}

static BOOL on_nothing(rdpContext *context, BYTE count, const RECTANGLE_16 *areas)
{
    (void)context;
    (void)count;
    (void)areas;
    return TRUE;
}

static BOOL on_suppress(rdpContext *context, BYTE allow, const RECTANGLE_16 *area)
{
    (void)context;
    (void)allow;
    (void)area;
    return TRUE;
}

static BOOL on_new_context(freerdp_peer *peer, rdpContext *context)
{
    (void)peer;
    (void)context;
    return TRUE;
}

static void on_free_context(freerdp_peer *peer, rdpContext *context)
{
    (void)peer;
    (void)context;
}

/* ---- The connection */

static bool set_words(const Session *session, rdpSettings *settings)
{
    settings->PrivateKeyContent = strdup(session->share->certificate.key);
    settings->CertificateContent = strdup(session->share->certificate.certificate);
    settings->RdpSecurity = FALSE;
    settings->TlsSecurity = TRUE;
    settings->NlaSecurity = session->share->users != NULL;
    settings->NtlmSamFile = session->share->users ? strdup(session->share->users) : NULL;
    settings->ColorDepth = 32;
    settings->SupportGraphicsPipeline = TRUE;
    settings->RefreshRect = TRUE;
    settings->SuppressOutput = TRUE;
    settings->MultifragMaxRequestSize = 0xFFFFFF;
    return settings->PrivateKeyContent && settings->CertificateContent;
}

static bool open_peer(Session *session, int connection)
{
    freerdp_peer *peer = session->peer = freerdp_peer_new(connection);
    if (!peer)
        return false;
    peer->ContextSize = sizeof(Context);
    peer->ContextNew = on_new_context;
    peer->ContextFree = on_free_context;
    if (!freerdp_peer_context_new(peer) || !set_words(session, peer->settings))
        return false;
    ((Context *)peer->context)->session = session;
    session->manager = WTSOpenServerA((LPSTR)peer->context);
    peer->Capabilities = on_capabilities;
    peer->Logon = on_logon;
    peer->PostConnect = on_connected;
    peer->Activate = on_activated;
    peer->input->SynchronizeEvent = on_synchronize;
    peer->input->KeyboardEvent = on_key;
    peer->input->MouseEvent = on_pointer;
    peer->update->RefreshRect = on_nothing;
    peer->update->SuppressOutput = on_suppress;
    return session->manager && session->manager != INVALID_HANDLE_VALUE && peer->Initialize(peer);
}

static void end(Session *session, const char *why)
{
    if (!session->has_ended)
        say("%s; %u frames, %u acknowledged", why, session->frames, session->acknowledged);
    session->has_ended = true;
}

/* ---- live_server */

static HANDLE event_of(int file)
{
    return CreateFileDescriptorEventA(NULL, FALSE, FALSE, file, WINPR_FD_READ);
}

static bool start_server(Session *session)
{
    bool has_started = program_start(&session->server, session->share->server, session->share->sandbox);
    session->server_event = has_started ? event_of(session->server.from) : NULL;
    return session->server_event;
}

static void stop_server(Session *session)
{
    if (session->server_event)
        CloseHandle(session->server_event);
    session->server_event = NULL;
    program_end(&session->server);
}

static bool write_all(int file, const uint8_t *bytes, size_t size)
{
    while (size) {
        ssize_t done = write(file, bytes, size);
        if (done < 0 && errno == EINTR)
            continue;
        if (done <= 0)
            return false;
        bytes += done;
        size -= (size_t)done;
    }
    return true;
}

/* A message behind its length is one of a recording as it stands; that which takes none of a client's kept bitmaps
 * belongs in none. The file is made with the first of them, so that who
 * only looks whether somebody listens leaves none. Where it can't be written, the session goes on. */
static void record(Session *session, const uint8_t *bytes, size_t size)
{
    static const uint8_t takes_none[] = {12, 0, 0, 0, 0xE0, 4, 0x11, 0, 0, 0, 10, 0, 0, 0, 0, 0};
    if (!session->is_recorded || (size == sizeof takes_none && memcmp(bytes, takes_none, size) == 0))
        return;
    if (session->record < 0)
        session->record = open(session->share->record, O_WRONLY | O_CREAT | O_EXCL | O_CLOEXEC, 0600);
    off_t before = session->record < 0 ? 0 : lseek(session->record, 0, SEEK_CUR);
    if (session->record >= 0 && write_all(session->record, bytes, size))
        return;
    if (session->record < 0 && errno == EEXIST)
        say("%s is there already, and isn't written over: nothing is recorded", session->share->record);
    else
        say("%s: %s: nothing more is recorded", session->share->record, strerror(errno));
    if (session->record >= 0 && (before < 0 || ftruncate(session->record, before) < 0))
        say("%s ends within a message", session->share->record);
    session->is_recorded = false;
}

/* Each of the channel messages that stand here behind their lengths is sent as one. */
static void send_messages(Session *session, uint8_t *bytes, size_t size)
{
    while (size > 4) {
        uint32_t length = number_of(bytes, 4);
        ULONG written;
        if (length > size - 4) {
            end(session, "live_server's messages are cut");
            return;
        }
        record(session, bytes, 4 + (size_t)length);
        if (!WTSVirtualChannelWrite(session->channel, (PCHAR)bytes + 4, length, &written)) {
            end(session, "the client takes no graphics any more");
            return;
        }
        bytes += 4 + length;
        size -= 4 + length;
    }
}

/* Asks live_server, and answers the kind of what it says, or 0 where the session has ended. */
static char ask(Session *session, char kind, const Part *parts, size_t count)
{
    if (session->has_ended)
        return 0;
    char answer = program_ask(&session->server, kind, parts, count);
    if (answer == 0)
        session->has_ended = true; /* A line has said why. */
    return answer;
}

/* What isn't the answer that has to come ends the session. */
static bool must(Session *session, char wanted, char kind, const Part *parts, size_t count)
{
    char answer = ask(session, kind, parts, count);
    if (answer != 0 && answer != wanted && !session->has_ended) {
        if (answer == 'F')
            end(session, "live_server has no room for more pictures: connect again");
        else if (answer == 'N')
            end(session, "live_server has no memory left");
        else {
            say("live_server answers `%c` by %c %s; %u frames, %u acknowledged", kind, answer,
                program_told(&session->server, 0), session->frames, session->acknowledged);
            session->has_ended = true;
        }
    }
    return answer == wanted;
}

static bool push(Session *session, char kind, const uint8_t *body, size_t size)
{
    return must(session, 'O', kind, &(Part){body, size}, size ? 1 : 0);
}

/* Turns, until one does nothing. */
static void turn(Session *session)
{
    bool has_moved = true;
    for (int turns = 0; has_moved && turns < MOST_TURNS && must(session, 'S', 'S', NULL, 0); turns++) {
        has_moved = session->server.size > 0 && session->server.body[0] == 0;
        if (session->server.size > 1)
            send_messages(session, session->server.body + 1, session->server.size - 1);
    }
}

/* Says the sides of the output, and that a surface is all of it. */
static void push_output(Session *session)
{
    uint32_t width = screen_width(session->screen), height = screen_height(session->screen);
    uint8_t body[16], *at = put_number(body, width, 4);
    put_number(at, height, 4);
    push(session, 'r', body, 8);
    at = put_number(body, SURFACE, 2);
    at = put_number(at, width, 2);
    at = put_number(at, height, 2);
    put_number(at, XRGB, 1);
    push(session, 's', body, 7);
    at = put_number(body, SURFACE, 2);
    at = put_number(at, 0, 4);
    put_number(at, 0, 4);
    push(session, 'm', body, 10);
    screen_forget(session->screen);
}

static void begin_output(Session *session)
{
    push_output(session);
    session->is_fed = !session->has_ended;
    alarm(0); /* Up to here a client that says nothing had its time. */
}

/* Where the display has got other sides, the old surface goes, and the output begins anew. */
static void follow_sides(Session *session)
{
    uint8_t body[2];
    if (session->has_ended || !screen_has_resized(session->screen))
        return;
    if (!screen_resize(session->screen))
        session->has_ended = true; /* A line has said why. */
    else if (session->is_fed) {
        put_number(body, SURFACE, 2);
        push(session, 'd', body, sizeof body);
        push_output(session);
    }
}

static void push_piece(Session *session, const Piece *piece)
{
    uint8_t front[13], *at = put_number(front, SURFACE, 2);
    at = put_number(at, piece->x, 2);
    at = put_number(at, piece->y, 2);
    at = put_number(at, piece->width, 2);
    at = put_number(at, piece->height, 2);
    at = put_number(at, session->share->kind, 1);
    put_number(at, NO_GLYPH, 2);
    must(session, 'O', 'p', (const Part[]){{front, sizeof front}, {piece->pixels, piece->size}}, 2);
}

/* What was pushed in whole frames is sent. */
static void send_frame(Session *session)
{
    turn(session);
    session->frames++;
    session->last_frame = now();
}

static void push_move(Session *session, const Move *move)
{
    const uint16_t numbers[] = {SURFACE,     SURFACE,      move->left, move->top,
                                move->right, move->bottom, move->to_x, move->to_y};
    uint8_t body[16], *at = body;
    for (size_t i = 0; i < sizeof numbers / sizeof *numbers; i++)
        at = put_number(at, numbers[i], 2);
    push(session, 'c', body, sizeof body);
}

/* What windows have shown is copied to where they are now, and what differs then is sent. */
static void push_changes(Session *session)
{
    Move move;
    Piece piece;
    bool has_pushed = false;
    screen_grab(session->screen);
    while (!session->has_ended && screen_take_move(session->screen, &move)) {
        push_move(session, &move);
        has_pushed = true;
    }
    while (!session->has_ended && screen_take(session->screen, &piece)) {
        push_piece(session, &piece);
        has_pushed = true;
    }
    if (has_pushed) {
        push(session, 'F', NULL, 0);
        send_frame(session);
        session->is_rough = true;
        session->last_change = now();
    }
}

/* What shows is improved by a level, and by the next one behind as long a rest, until nothing is left to improve. */
static void push_improvement(Session *session)
{
    char answer = ask(session, 'I', NULL, 0);
    if (answer == 'Y') {
        send_frame(session);
        session->last_change = now();
    } else if (answer == '-')
        session->is_rough = false;
    else if (answer != 0)
        end(session, "live_server can't improve what shows");
}

/* The client's bytes: one of its channel messages, with its length before it. */
static void take(Session *session, size_t size)
{
    for (size_t at = 0; at < size && !session->has_ended; at += MOST_BODY) {
        size_t part = size - at < MOST_BODY ? size - at : MOST_BODY;
        char answer = ask(session, 'M', &(Part){session->message + at, part}, 1);
        if (answer == 'R') {
            say("live_server refuses the client's message: %s; %u frames, %u acknowledged",
                program_told(&session->server, 0), session->frames, session->acknowledged);
            session->has_ended = true;
        } else if (answer == 'A' && session->server.size >= 4) {
            uint32_t told = number_of(session->server.body, 4), front = 4;
            for (uint32_t i = 0; i < told && front + 9 <= session->server.size; i++)
                front += 9 + (session->server.body[front + 8] ? 32 : 0);
            session->acknowledged += told;
            send_messages(session, session->server.body + front, session->server.size - front);
        }
    }
}

/* ---- The channel */

static bool read_message(Session *session, size_t *size)
{
    ULONG length = 0, read = 0;
    if (!WTSVirtualChannelRead(session->channel, 0, NULL, 0, &length))
        return false;
    if (5 + (size_t)length > session->room) {
        uint8_t *message = realloc(session->message, 5 + (size_t)length);
        if (!message) {
            end(session, "no memory is left for a message of the client");
            return false;
        }
        session->message = message;
        session->room = 5 + (size_t)length;
    }
    /* An empty one is taken too where there seems to be room for a byte. */
    put_number(session->message, (uint32_t)length, 4);
    *size = 4 + (size_t)length;
    return WTSVirtualChannelRead(session->channel, 0, (PCHAR)session->message + 4, length ? length : 1, &read) &&
           read == length;
}

/* A client that may begin to feed is given the output behind its first whole message. */
static void hear_client(Session *session)
{
    size_t size;
    while (!session->has_ended && read_message(session, &size)) {
        take(session, size);
        if (!session->has_ended && !session->is_fed)
            begin_output(session);
        else if (!session->has_ended)
            turn(session);
    }
}

static void open_channel(Session *session)
{
    DWORD size = 0;
    void *event = NULL;
    LPSTR id = NULL;
    if (!WTSQuerySessionInformationA(session->manager, WTS_CURRENT_SESSION, WTSSessionId, &id, &size))
        return;
    DWORD number = *(DWORD *)(void *)id;
    WTSFreeMemory(id);
    session->channel = WTSVirtualChannelOpenEx(number, (LPSTR)CHANNEL, WTS_CHANNEL_OPTION_DYNAMIC);
    if (session->channel && WTSVirtualChannelQuery(session->channel, WTSVirtualEventHandle, &event, &size) &&
        size == sizeof(HANDLE))
        memcpy(&session->channel_event, event, sizeof(HANDLE));
    else
        end(session, "the graphics channel can't be opened");
    if (event)
        WTSFreeMemory(event);
}

static void hear_channels(Session *session)
{
    if (!session->is_known || !session->peer->activated)
        return;
    if (!session->peer->settings->SupportGraphicsPipeline ||
        !WTSVirtualChannelManagerIsChannelJoined(session->manager, "drdynvc")) {
        end(session, "the client has no graphics channel: xfreerdp takes /gfx");
        return;
    }
    BYTE state = WTSVirtualChannelManagerGetDrdynvcState(session->manager);
    if (state == DRDYNVC_STATE_NONE)
        SetEvent(WTSVirtualChannelManagerGetEventHandle(session->manager));
    else if (state == DRDYNVC_STATE_READY && !session->channel)
        open_channel(session);
    else if (state == DRDYNVC_STATE_FAILED)
        end(session, "the client's dynamic channels failed");
    if (session->channel)
        hear_client(session);
}

/* ---- The pointer */

/* Each row of bits of a pointer's mask has whole pairs of bytes. */
static size_t mask_row(size_t width)
{
    return (width + 15) / 16 * 2;
}

/* The rows go from the bottom. The mask says which pixels nothing shows of ([MS-RDPBCGR] 2.2.9.1.1.4.4). */
static void put_form(const PointerForm *form, uint8_t *colours, uint8_t *mask)
{
    size_t row = (size_t)form->width * 4;
    for (size_t y = 0; y < form->height; y++) {
        const uint8_t *from = form->pixels + (form->height - 1 - y) * row;
        memcpy(colours + y * row, from, row);
        for (size_t x = 0; x < form->width; x++)
            if (from[4 * x + 3] == 0)
                mask[y * mask_row(form->width) + x / 8] |= (uint8_t)(0x80 >> x % 8);
    }
}

/* The client shows it from now on, at the place that the person there has it. */
static void send_pointer(Session *session)
{
    static uint8_t colours[MOST_LARGE * MOST_LARGE * 4], mask[MOST_LARGE * MOST_LARGE / 8];
    freerdp_peer *peer = session->peer;
    PointerForm form;
    if (session->has_ended || !session->is_known || !peer->activated || peer->settings->PointerCacheSize == 0 ||
        now() < session->last_pointer + BETWEEN_POINTERS)
        return;
    session->last_pointer = now();
    uint16_t most = peer->settings->LargePointerFlag ? MOST_LARGE : MOST_SMALL;
    if (!screen_take_pointer(session->screen, most, &form))
        return;
    if (!form.pixels) {
        POINTER_SYSTEM_UPDATE usual = {SYSPTR_DEFAULT};
        peer->update->pointer->PointerSystem(peer->context, &usual);
        return;
    }
    memset(mask, 0, sizeof mask);
    put_form(&form, colours, mask);
    POINTER_NEW_UPDATE update = {
        .xorBpp = POINTER_BITS,
        .colorPtrAttr = {.cacheIndex = POINTER_PLACE, .xPos = form.x, .yPos = form.y, .width = form.width,
                         .height = form.height, .xorMaskData = colours, .andMaskData = mask,
                         .lengthXorMask = (UINT32)form.width * form.height * 4,
                         .lengthAndMask = (UINT32)mask_row(form.width) * form.height}};
    peer->update->pointer->PointerNew(peer->context, &update);
}

/* ---- The loop */

/* Milliseconds until there is something to do of which no handle tells. */
static DWORD longest_wait(Session *session, bool wants_frame)
{
    uint64_t at = now(), due = at + BETWEEN_POINTERS;
    if (screen_has_events(session->screen))
        due = at;
    else if (session->is_fed && wants_frame)
        due = session->last_frame + BETWEEN_FRAMES;
    else if (session->is_fed && session->is_rough)
        due = session->last_change + BEFORE_IMPROVING;
    return due <= at ? 1 : (DWORD)(due - at);
}

static bool wait_for_any(Session *session, DWORD milliseconds)
{
    HANDLE handles[MOST_HANDLES];
    DWORD count = session->peer->GetEventHandles(session->peer, handles, MOST_HANDLES - 5);
    if (count == 0)
        return false;
    handles[count++] = WTSVirtualChannelManagerGetEventHandle(session->manager);
    handles[count++] = session->screen_event;
    handles[count++] = session->server_event;
    handles[count++] = session->signal_event;
    if (session->channel_event)
        handles[count++] = session->channel_event;
    return WaitForMultipleObjects(count, handles, FALSE, milliseconds) != WAIT_FAILED;
}

static void hear_connection(Session *session)
{
    if (session->peer->CheckFileDescriptor(session->peer) &&
        WTSVirtualChannelManagerCheckFileDescriptor(session->manager))
        hear_channels(session);
    else if (session->is_refused)
        end(session, "the client has another user or password");
    else if (session->peer->settings->SelectedProtocol == HYBRID && !session->has_proved) {
        sleep(1);
        end(session, "the client didn't log on: it has another user or password, or doesn't take the certificate");
    } else
        end(session, "the client has gone");
}

/* What went in passes and was copied, or painted over in part, is as rough as it was, and nothing improves it any more:
 * so it is sent again where the display has rested. */
static bool has_rough_parts(Session *session)
{
    bool is_exact = session->share->kind >= FIRST_EXACT && session->share->kind <= LAST_EXACT;
    return !is_exact && screen_renew(session->screen);
}

/* Where a frame may go: what has changed, or, where nothing has for a while, what may show better. Answers whether
 * the display has changes that wait for the client. */
static bool make_frame(Session *session)
{
    bool has_changed = screen_has_changed(session->screen);
    follow_sides(session);
    send_pointer(session);
    uint64_t at = now();
    if (!session->is_fed || session->has_ended)
        return false;
    bool is_due = has_changed ? at >= session->last_frame + BETWEEN_FRAMES
                              : session->is_rough && at >= session->last_change + BEFORE_IMPROVING;
    if (!is_due)
        return has_changed;
    if (ask(session, '?', NULL, 0) != 'Y')
        return false;
    if (has_changed || has_rough_parts(session))
        push_changes(session);
    else
        push_improvement(session);
    return false;
}

/* SIGTERM and SIGINT come by a file, so that live_server and the client are told before the end. */
static HANDLE open_signals(Session *session)
{
    sigset_t ends;
    sigemptyset(&ends);
    sigaddset(&ends, SIGTERM);
    sigaddset(&ends, SIGINT);
    sigprocmask(SIG_SETMASK, &ends, NULL);
    session->signals = signalfd(-1, &ends, SFD_CLOEXEC | SFD_NONBLOCK);
    return session->signals < 0 ? NULL : event_of(session->signals);
}

static void hear_signal(Session *session)
{
    struct signalfd_siginfo told;
    if (session->has_ended || read(session->signals, &told, sizeof told) != sizeof told)
        return;
    tell_client(session->peer, ERRINFO_RPC_INITIATED_DISCONNECT);
    end(session, "share was ended");
}

static void serve(Session *session)
{
    bool wants_frame = false;
    while (!session->has_ended) {
        if (!wait_for_any(session, longest_wait(session, wants_frame)))
            end(session, "the connection can't be waited for");
        if (program_is_lost(&session->server))
            session->has_ended = true;
        hear_signal(session);
        if (!session->has_ended)
            hear_connection(session);
        wants_frame = make_frame(session);
        if (!session->is_fed && now() > session->begun + BEFORE_GRAPHICS)
            end(session, "the client hasn't begun with graphics in 20 seconds");
    }
}

static bool open_session(Session *session, int connection)
{
    session->screen = screen_open(session->share->display);
    if (!session->screen || !start_server(session))
        return false;
    session->screen_event = event_of(screen_file(session->screen));
    session->signal_event = open_signals(session);
    if (session->screen_event && session->signal_event && open_peer(session, connection))
        return true;
    say("FreeRDP's library doesn't begin");
    return false;
}

static void close_session(Session *session)
{
    stop_server(session);
    if (session->channel)
        WTSVirtualChannelClose(session->channel);
    if (session->peer) {
        session->peer->Disconnect(session->peer);
        if (session->manager)
            WTSCloseServer(session->manager);
        if (session->peer->context)
            freerdp_peer_context_free(session->peer);
        freerdp_peer_free(session->peer);
    }
    screen_close(session->screen);
    if (session->record >= 0)
        close(session->record);
    free(session->message);
}

int session_run(const Share *share, int connection, const char *client)
{
    Session session = {.share = share, .begun = now(), .record = -1, .is_recorded = share->record};
    say_as("share: %s", client);
    bool is_open = open_session(&session, connection);
    if (is_open)
        serve(&session);
    close_session(&session);
    return is_open ? 0 : 1;
}
