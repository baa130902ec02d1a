/* Views a session of Remote Desktop: a window with the picture that the proved program live_client draws.
 *
 * FreeRDP's library has the connection: TLS, the credentials, the joining of what comes over the dynamic channel of
 * graphics; channel.c takes that channel over. live_client, in a process of its own, is given each channel message,
 * and says what goes back, what of the output was written, and how that looks (docs/LIVE.md). There is one thread but
 * for FreeRDP's own. README.md of this folder has the words and the exit numbers. */
#define _GNU_SOURCE
#include <errno.h>
#include <fcntl.h>
#include <getopt.h>
#include <signal.h>
#include <stdio.h>
#include <stdlib.h>
#include <string.h>
#include <termios.h>
#include <time.h>
#include <unistd.h>

#include <freerdp/client.h>
#include <freerdp/client/channels.h>
#include <freerdp/client/cmdline.h>
#include <freerdp/freerdp.h>
#include <freerdp/locale/keyboard.h>
#include <winpr/synch.h>
#include <winpr/wlog.h>

#include "channel.h"
#include "pointer.h"
#include "program.h"
#include "say.h"
#include "window.h"

enum {
    MOST_HANDLES = 64,
    MOST_RECTS = 64,
    MOST_PIXELS = 262144,   /* of one picture */
    BETWEEN_PICTURES = 40,  /* milliseconds, where messages keep coming */
    LONGEST_WAIT = 100,
    BEFORE_GRAPHICS = 20000, /* till the first frame */
    BEFORE_OPENING = 5000,   /* of a channel that was closed */
    MOST_LINE = 512          /* bytes that somebody types */
};

/* The exit numbers. */
enum { CLOSED = 0, FAILED = 1, WRONG_WORDS = 2, SERVER_GONE = 3, CLIENT_GONE = 4 };

/* The protocol with NLA ([MS-RDPBCGR] 2.2.1.2.1). */
enum { HYBRID = 2 };

static const char usage[] =
    "view HOST[:PORT] [--user NAME] [--password WORD] [--trust] [--size WIDTHxHEIGHT]\n"
    "     [--record FILE] [--picture FILE] [--client PATH]\n"
    "\n"
    "Shows a session of Remote Desktop in a window, drawn by live_client at PATH, which is that of crates/live_client\n"
    "of this repository where none is named. Without --password the password is what VIEW_PASSWORD says, or what is\n"
    "typed on the terminal; NAME may have a domain, as DOMAIN\\NAME. --trust takes any certificate; otherwise one\n"
    "that isn't known is asked about. --record writes what the server sends as a recording, and --picture the last\n"
    "picture, as `render --output` does. README.md of tools/live says more.\n";

typedef struct {
    uint16_t sides[4]; /* left, top, right, bottom */
} Rect;

typedef struct {
    const char *host, *user, *password, *record, *picture, *client;
    bool trusts;
    long port, width, height;
} Words;

typedef struct {
    Words words;
    freerdp *connection;
    Picture *picture;
    HANDLE picture_event, client_event;
    Program client;
    int record; /* or -1 */
    uint32_t openings;        /* of the channel */
    bool is_open, is_written; /* the channel; something that isn't drawn yet */
    bool is_told;             /* why there is no connection */
    Rect rects[MOST_RECTS];
    uint32_t first, count; /* of the rectangles that are to be drawn */
    uint64_t begun, closed, last_picture;
    uint32_t messages, frames;
    int ended; /* the exit number, or -1 */
} View;

typedef struct {
    rdpContext front;
    View *view;
} Context;

static View *view_of(const freerdp *connection)
{
    return ((const Context *)connection->context)->view;
}

static volatile sig_atomic_t is_interrupted;

static void on_interrupt(int signal)
{
    (void)signal;
    is_interrupted = 1;
}

static uint64_t now(void)
{
    struct timespec time;
    clock_gettime(CLOCK_MONOTONIC, &time);
    return (uint64_t)time.tv_sec * 1000 + (uint64_t)time.tv_nsec / 1000000;
}

/* The first reason to end is the one that is told; where `why` is NULL it was told already. */
static void end(View *view, int number, const char *why)
{
    if (view->ended >= 0)
        return;
    view->ended = number;
    if (why)
        say("%s; %u messages, %u frames", why, view->messages, view->frames);
}

/* ---- Words */

static _Noreturn void be_wrong(const char *why)
{
    say("%s (--help says more)", why);
    exit(WRONG_WORDS);
}

static void read_size(Words *words, const char *given)
{
    int read = 0;
    if (sscanf(given, "%ldx%ld%n", &words->width, &words->height, &read) < 2 || given[read] || words->width < 200 ||
        words->width > 8192 || words->height < 200 || words->height > 8192)
        be_wrong("--size is two numbers from 200 to 8192, as 1024x768");
}

/* HOST, HOST:PORT or [ADDRESS]:PORT. */
static void read_host(Words *words, char *given)
{
    char *rest, *port = strrchr(given, ':');
    bool has_brackets = *given == '[';
    char *end_of_host = has_brackets ? strchr(given, ']') : port;
    if (has_brackets && !end_of_host)
        be_wrong("HOST lacks its ]");
    if (has_brackets)
        port = end_of_host[1] == ':' ? end_of_host + 1 : NULL;
    if (port) {
        words->port = strtol(port + 1, &rest, 10);
        if (*rest || words->port < 1 || words->port > 65535)
            be_wrong("PORT is 1 to 65535");
    }
    if (end_of_host)
        *end_of_host = 0;
    words->host = given + has_brackets;
    if (!*words->host)
        be_wrong("HOST is missing");
}

/* The words of a process can be seen by all, so the password doesn't stay among them. */
static const char *take_password(char *given)
{
    char *taken = strdup(given);
    memset(given, '*', strlen(given));
    return taken;
}

static void read_words(Words *words, int count, char **given)
{
    static const struct option options[] = {
        {"user", required_argument, NULL, 'u'}, {"password", required_argument, NULL, 'p'},
        {"trust", no_argument, NULL, 't'}, {"size", required_argument, NULL, 's'},
        {"record", required_argument, NULL, 'r'}, {"picture", required_argument, NULL, 'i'},
        {"client", required_argument, NULL, 'c'}, {"help", no_argument, NULL, 'h'}, {NULL, 0, NULL, 0}};
    opterr = 0;
    for (int option; (option = getopt_long(count, given, "", options, NULL)) >= 0;)
        switch (option) {
        case 'u': words->user = optarg; break;
        case 'p': words->password = take_password(optarg); break;
        case 't': words->trusts = true; break;
        case 's': read_size(words, optarg); break;
        case 'r': words->record = optarg; break;
        case 'i': words->picture = optarg; break;
        case 'c': words->client = optarg; break;
        case 'h':
            fputs(usage, stdout);
            exit(0);
        default: be_wrong("a word isn't known, or lacks what belongs to it");
        }
    if (optind + 1 != count)
        be_wrong("the words are one HOST, and what is to be other than usual");
    read_host(words, given[optind]);
}

/* ---- live_client */

/* Asks live_client, and answers the kind of what it says, or 0 where it is lost. */
static char ask(View *view, char kind, const Part *parts, size_t count)
{
    char answer = program_ask(&view->client, kind, parts, count);
    if (answer == 0)
        end(view, CLIENT_GONE, NULL);
    return answer;
}

/* Each of the channel messages that stand here behind their lengths is sent as one. */
static void send_messages(View *view, const uint8_t *bytes, size_t size)
{
    while (size > 4 && view->ended < 0) {
        uint32_t length = number_of(bytes, 4);
        if (length > size - 4)
            end(view, CLIENT_GONE, "live_client's messages are cut");
        else if (!channel_send(bytes + 4, length))
            end(view, SERVER_GONE, "the server takes no answers any more");
        else {
            bytes += 4 + length;
            size -= 4 + length;
        }
    }
}

/* The body of an `A`: the frames that ended, and what is to be sent. */
static void hear_answer(View *view)
{
    uint32_t size = view->client.size, count = size < 4 ? 0 : number_of(view->client.body, 4);
    if (size < 4 || count > (size - 4) / 4) {
        end(view, CLIENT_GONE, "live_client's answer is cut");
        return;
    }
    view->frames += count;
    view->is_written = view->is_written || count;
    send_messages(view, view->client.body + 4 + 4 * (size_t)count, size - 4 - 4 * (size_t)count);
}

static void hear_refusal(View *view)
{
    if (view->client.size >= 8)
        say("live_client refuses the server's message %u: %s; %u messages, %u frames",
            number_of(view->client.body, 4), program_told(&view->client, 8), view->messages, view->frames);
    end(view, CLIENT_GONE, view->client.size >= 8 ? NULL : "live_client refuses the server's message");
}

static bool write_all(int file, const uint8_t *bytes, size_t size)
{
    while (size) {
        ssize_t done = write(file, bytes, size);
        if (done < 0 && errno == EINTR)
            continue;
        if (done <= 0)
            return false;
        bytes += done;
        size -= (size_t)done;
    }
    return true;
}

/* Where a message can't be written, nothing more is recorded, and the session goes on. */
static void record(View *view, const Message *message)
{
    uint8_t length[4];
    off_t before = view->record < 0 ? 0 : lseek(view->record, 0, SEEK_CUR);
    put_number(length, message->size, 4);
    if (view->record < 0 ||
        (write_all(view->record, length, 4) && write_all(view->record, message->bytes, message->size)))
        return;
    say("%s: %s: nothing more is recorded", view->words.record, strerror(errno));
    if (before >= 0 && ftruncate(view->record, before) < 0)
        say("%s ends within a message", view->words.record);
    close(view->record);
    view->record = -1;
}

static void give(View *view, const Message *message)
{
    record(view, message);
    view->messages++;
    switch (ask(view, 'M', &(Part){message->bytes, message->size}, 1)) {
    case 'A': hear_answer(view); break;
    case 'R': hear_refusal(view); break;
    case 0: break;
    default: end(view, CLIENT_GONE, "live_client doesn't take the server's message");
    }
}

static HANDLE event_of(int file)
{
    return CreateFileDescriptorEventA(NULL, FALSE, FALSE, file, WINPR_FD_READ);
}

static bool start_client(View *view)
{
    char *sandbox = program_path("sandbox.so");
    bool has_started = sandbox && program_start(&view->client, view->words.client, sandbox);
    view->client_event = has_started ? event_of(view->client.from) : NULL;
    free(sandbox);
    return view->client_event;
}

static void stop_client(View *view)
{
    if (view->client_event)
        CloseHandle(view->client_event);
    view->client_event = NULL;
    program_end(&view->client);
}

/* The file of --record; what comes over a channel that was opened anew goes to NAME.2, and so on. */
static bool open_record(View *view)
{
    char name[4096];
    if (view->record >= 0)
        close(view->record);
    view->record = -1;
    if (!view->words.record)
        return true;
    snprintf(name, sizeof name, view->openings > 1 ? "%s.%u" : "%s", view->words.record, view->openings);
    view->record = open(name, O_WRONLY | O_CREAT | O_EXCL | O_CLOEXEC, 0666);
    if (view->record < 0 && errno == EEXIST)
        say("%s is there already, and isn't written over", name);
    else if (view->record < 0)
        say("%s can't be written: %s", name, strerror(errno));
    return view->record >= 0;
}

/* The channel is open. Where it was before, a new live_client begins, since all of the old one's state is gone. */
static void begin_channel(View *view)
{
    if (view->openings++ > 0) {
        stop_client(view);
        view->first = view->count = 0;
        view->is_written = false;
        if (!start_client(view) || !open_record(view)) {
            end(view, FAILED, NULL);
            return;
        }
    }
    view->is_open = true;
    if (ask(view, 'C', NULL, 0) == 'A')
        hear_answer(view);
    else
        end(view, CLIENT_GONE, "live_client has nothing to begin with");
}

static void hear_message(View *view, const Message *message)
{
    if (message->what == CHANNEL_OPENED)
        begin_channel(view);
    else if (message->what == CHANNEL_GIVEN)
        give(view, message);
    else {
        view->is_open = false;
        view->closed = now();
    }
}

/* All messages that are there, but where they keep coming, a picture is drawn between them. */
static void hear_messages(View *view)
{
    Message *message;
    while (view->ended < 0 && (message = channel_take())) {
        hear_message(view, message);
        free(message);
        if (view->is_written && now() > view->last_picture + BETWEEN_PICTURES)
            return;
    }
}

/* ---- The picture */

/* Asks what was written, where all that was told is drawn. */
static void ask_written(View *view)
{
    view->is_written = false;
    if (ask(view, 'D', NULL, 0) != 'D' || view->client.size < 8 || view->client.size % 8) {
        end(view, CLIENT_GONE, "live_client doesn't say what was written");
        return;
    }
    const uint8_t *at = view->client.body;
    uint32_t width = number_of(at, 4), height = number_of(at + 4, 4);
    view->first = 0;
    view->count = view->client.size / 8 - 1;
    if (view->count > MOST_RECTS || width > 32766 || height > 32766) {
        end(view, CLIENT_GONE, "live_client says too much was written");
        return;
    }
    for (uint32_t i = 0; i < 4 * view->count; i++)
        view->rects[i / 4].sides[i % 4] = (uint16_t)number_of(at + 8 + 2 * i, 2);
    if (width && height && !window_has_sides(view->picture, width, height)) {
        if (!window_resize(view->picture, width, height))
            end(view, FAILED, NULL);
        view->rects[0] = (Rect){{0, 0, (uint16_t)width, (uint16_t)height}};
        view->count = 1;
    }
}

/* The rows of a rectangle that go as one picture. */
static Rect front_of(const Rect *rect)
{
    uint32_t width = rect->sides[2] - rect->sides[0], height = rect->sides[3] - rect->sides[1];
    uint32_t rows = MOST_PIXELS / width ? MOST_PIXELS / width : 1;
    Rect front = *rect;
    if (rows < height)
        front.sides[3] = (uint16_t)(front.sides[1] + rows);
    return front;
}

/* Draws one picture. One that lies in the output no more is left out: what came in its place is told next. */
static void draw_one(View *view)
{
    Rect *rect = view->rects + view->first;
    uint8_t body[8];
    if (rect->sides[0] >= rect->sides[2] || rect->sides[1] >= rect->sides[3]) {
        view->first++;
        return;
    }
    Rect front = front_of(rect);
    for (int i = 0; i < 4; i++)
        put_number(body + 2 * i, front.sides[i], 2);
    char answer = ask(view, 'P', &(Part){body, sizeof body}, 1);
    size_t size = (size_t)(front.sides[2] - front.sides[0]) * (size_t)(front.sides[3] - front.sides[1]) * 4;
    if (answer == 'P' && view->client.size == size)
        window_draw(view->picture, front.sides, view->client.body);
    else if (answer != 'W')
        end(view, CLIENT_GONE, "live_client doesn't say how the output looks");
    rect->sides[1] = front.sides[3];
    view->last_picture = now();
}

static bool has_to_draw(const View *view)
{
    return view->first < view->count || view->is_written;
}

static void draw(View *view)
{
    if (view->first < view->count)
        draw_one(view);
    else if (view->is_written)
        ask_written(view);
}

/* ---- What the library calls */

static BOOL on_painting(rdpContext *context)
{
    (void)context;
    return TRUE;
}

/* Takes an update, and does nothing. */
#define PASS_OVER(name, Update)                              \
    static BOOL name(rdpContext *context, const Update *update) \
    {                                                        \
        (void)context, (void)update;                         \
        return TRUE;                                         \
    }

PASS_OVER(on_bitmap, BITMAP_UPDATE)
PASS_OVER(on_palette, PALETTE_UPDATE)
PASS_OVER(on_surface_bits, SURFACE_BITS_COMMAND)
PASS_OVER(on_surface_marker, SURFACE_FRAME_MARKER)

static BOOL on_connecting(freerdp *connection)
{
    return freerdp_client_load_addins(connection->context->channels, connection->settings);
}

/* Pictures come over the graphics channel alone; but the library ends the connection at the first update that nobody
 * takes. */
static BOOL on_connected(freerdp *connection)
{
    rdpUpdate *update = connection->update;
    update->BeginPaint = on_painting;
    update->EndPaint = on_painting;
    update->DesktopResize = on_painting;
    update->BitmapUpdate = on_bitmap;
    update->Palette = on_palette;
    update->SurfaceBits = on_surface_bits;
    update->SurfaceFrameMarker = on_surface_marker;
    pointer_take_over(update->pointer, view_of(connection)->picture);
    return freerdp_keyboard_init(connection->settings->KeyboardLayout) || TRUE;
}

/* Asks where somebody can answer. 2 takes it for this time, 0 doesn't. */
static DWORD ask_trust(freerdp *connection, const char *host, UINT16 port, const char *state, const char *fingerprint)
{
    char answer[10] = "";
    bool is_asked = isatty(STDIN_FILENO);
    say("%s:%u has a certificate that %s%s; its fingerprint is %s", host, port, state,
        is_asked ? "" : ", and isn't taken without --trust", fingerprint);
    if (is_asked) {
        fputs("view: take it this time (y or n)? ", stderr);
        if (!fgets(answer, sizeof answer, stdin))
            *answer = 0;
    }
    bool is_trusted = *answer == 'y' || *answer == 'Y';
    view_of(connection)->is_told = !is_trusted;
    return is_trusted ? 2 : 0;
}

static DWORD on_certificate(freerdp *connection, const char *host, UINT16 port, const char *common_name,
                            const char *subject, const char *issuer, const char *fingerprint, DWORD flags)
{
    (void)common_name, (void)subject, (void)issuer, (void)flags;
    return ask_trust(connection, host, port, "isn't known", fingerprint);
}

static DWORD on_changed_certificate(freerdp *connection, const char *host, UINT16 port, const char *common_name,
                                    const char *subject, const char *issuer, const char *fingerprint,
                                    const char *old_subject, const char *old_issuer, const char *old_fingerprint,
                                    DWORD flags)
{
    (void)common_name, (void)subject, (void)issuer, (void)flags;
    (void)old_subject, (void)old_issuer, (void)old_fingerprint;
    return ask_trust(connection, host, port, "isn't the one that it had", fingerprint);
}

/* Asks for a line on the terminal; one that is secret isn't shown. Answers a text of its own, or NULL. */
static char *ask_line(const char *what, bool is_secret)
{
    struct termios usual, silent;
    char line[MOST_LINE];
    is_secret = is_secret && tcgetattr(STDIN_FILENO, &usual) == 0;
    fprintf(stderr, "view: %s: ", what);
    if (is_secret) {
        silent = usual;
        silent.c_lflag &= ~(tcflag_t)ECHO;
        tcsetattr(STDIN_FILENO, TCSAFLUSH, &silent);
    }
    bool is_read = fgets(line, sizeof line, stdin);
    if (is_secret) {
        tcsetattr(STDIN_FILENO, TCSAFLUSH, &usual);
        fputc('\n', stderr);
    }
    line[is_read ? strcspn(line, "\n") : 0] = 0;
    char *text = is_read ? strdup(line) : NULL;
    explicit_bzero(line, sizeof line);
    return text;
}

/* The library asks so where NLA wants a user and a password, and one of them wasn't said. */
static BOOL on_credentials(freerdp *connection, char **user, char **password, char **domain)
{
    (void)domain;
    if (!isatty(STDIN_FILENO)) {
        say("the server wants a user and a password: --user, and --password or VIEW_PASSWORD in the environment");
        view_of(connection)->is_told = true;
        return FALSE;
    }
    if (!*user || !**user) {
        free(*user);
        *user = ask_line("user", false);
    }
    if (!*password || !**password) {
        free(*password);
        *password = ask_line("password", true);
    }
    return *user && *password;
}

/* ---- The connection */

/* A user may have a domain, as DOMAIN\NAME or NAME@DOMAIN. */
static bool set_user(const char *user, rdpSettings *settings)
{
    if (!user)
        return true;
    return freerdp_parse_username(user, &settings->Username, &settings->Domain) && settings->Username;
}

static bool set_words(const Words *words, rdpSettings *settings)
{
    settings->ServerHostname = strdup(words->host);
    settings->ServerPort = (UINT32)words->port;
    if (words->password)
        settings->Password = strdup(words->password);
    else if (words->user && isatty(STDIN_FILENO))
        settings->Password = ask_line("password", true);
    settings->DesktopWidth = (UINT32)words->width;
    settings->DesktopHeight = (UINT32)words->height;
    settings->IgnoreCertificate = words->trusts;
    settings->ColorDepth = 32;
    settings->SupportGraphicsPipeline = TRUE;
    settings->SupportDynamicChannels = TRUE;
    /* No other channel is wanted: none that has files, sound or what was copied. */
    settings->RedirectClipboard = FALSE;
    settings->DeviceRedirection = FALSE;
    settings->NetworkAutoDetect = FALSE;
    settings->SupportHeartbeatPdu = FALSE;
    settings->SupportMultitransport = FALSE;
    settings->AutoReconnectionEnabled = FALSE;
    memset(settings->OrderSupport, 0, 32);
    return settings->ServerHostname && set_user(words->user, settings);
}

/* By NLA a server whose library tells no more just ends a connection whose user or password is another. */
static void say_failure(const View *view, rdpContext *context)
{
    UINT32 error = freerdp_get_last_error(context);
    bool has_ended = error == FREERDP_ERROR_CONNECT_TRANSPORT_FAILED && context->settings->SelectedProtocol == HYBRID;
    if (has_ended && !view->is_told)
        say("%s:%ld has ended the connection: is it another user or password?", view->words.host, view->words.port);
    else if (!view->is_told)
        say("%s:%ld can't be connected to: %s", view->words.host, view->words.port,
            freerdp_get_last_error_string(error));
}

static bool open_connection(View *view)
{
    RDP_CLIENT_ENTRY_POINTS entry = {.Size = sizeof entry, .Version = RDP_CLIENT_INTERFACE_VERSION,
                                     .ContextSize = sizeof(Context)};
    rdpContext *context = freerdp_client_context_new(&entry);
    if (!context || !channel_begin() || !set_words(&view->words, context->settings)) {
        say("FreeRDP's library doesn't begin");
        return false;
    }
    ((Context *)context)->view = view;
    view->connection = context->instance;
    freerdp_register_addin_provider(channel_provide, 0);
    view->connection->PreConnect = on_connecting;
    view->connection->PostConnect = on_connected;
    view->connection->Authenticate = on_credentials;
    view->connection->VerifyCertificateEx = on_certificate;
    view->connection->VerifyChangedCertificateEx = on_changed_certificate;
    if (freerdp_connect(view->connection))
        return true;
    say_failure(view, context);
    return false;
}

static void close_connection(View *view)
{
    if (!view->connection)
        return;
    freerdp_disconnect(view->connection);
    freerdp_client_context_free(view->connection->context);
    channel_end();
}

/* What the server said at its end, if anything. */
static void end_by_server(View *view)
{
    UINT32 error = freerdp_error_info(view->connection);
    char why[300] = "the server has gone";
    if (error) {
        snprintf(why, sizeof why, "the server has ended the connection: %s", freerdp_get_error_info_string(error));
        why[strlen(why) - (why[strlen(why) - 1] == '.')] = 0;
    }
    end(view, SERVER_GONE, why);
}

/* ---- The loop */

static bool wait_for_any(View *view)
{
    HANDLE handles[MOST_HANDLES];
    bool is_busy = has_to_draw(view) || channel_has_message();
    DWORD count = freerdp_get_event_handles(view->connection->context, handles, MOST_HANDLES - 3);
    if (count == 0)
        return false;
    handles[count++] = channel_event();
    handles[count++] = view->picture_event;
    handles[count++] = view->client_event;
    return WaitForMultipleObjects(count, handles, FALSE, is_busy ? 0 : LONGEST_WAIT) != WAIT_FAILED;
}

static void hear_channel(View *view)
{
    hear_messages(view);
    if (channel_has_failed())
        end(view, FAILED, "no memory is left for a message of the server");
    if (view->openings && !view->is_open && !channel_has_message() && now() > view->closed + BEFORE_OPENING)
        end(view, SERVER_GONE, "the server has closed the graphics channel");
    if (!view->frames && now() > view->begun + BEFORE_GRAPHICS)
        end(view, FAILED, "the server has drawn nothing over the graphics channel in 20 seconds");
}

static void hear_all(View *view)
{
    if (window_hear(view->picture, view->connection->input))
        end(view, CLOSED, "the window was closed");
    if (is_interrupted)
        end(view, CLOSED, "interrupted");
    if (program_is_lost(&view->client))
        end(view, CLIENT_GONE, NULL);
    if (view->ended >= 0)
        return;
    bool is_connected = freerdp_check_event_handles(view->connection->context) &&
                        !freerdp_shall_disconnect(view->connection);
    hear_channel(view);
    if (!is_connected)
        end_by_server(view);
}

/* The connection is heard before it is waited for: what came with its beginning may be in the library already. */
static void run(View *view)
{
    view->begun = now();
    while (view->ended < 0) {
        hear_all(view);
        if (view->ended < 0)
            draw(view);
        if (view->ended < 0 && !wait_for_any(view))
            end(view, FAILED, "the connection can't be waited for");
    }
}

/* What the frames that ended have written is drawn to the end, so that the last picture is that of the recording. */
static void draw_rest(View *view)
{
    int ended = view->ended;
    view->ended = -1;
    while (view->ended < 0 && has_to_draw(view))
        draw(view);
    view->ended = ended;
}

static void write_picture(View *view)
{
    if (view->words.picture && view->frames && !window_write(view->picture, view->words.picture))
        say("%s can't be written: %s", view->words.picture, strerror(errno));
}

/* A recording without a message doesn't stay. */
static void close_record(const View *view)
{
    if (view->record >= 0 && lseek(view->record, 0, SEEK_CUR) == 0)
        unlink(view->words.record);
    if (view->record >= 0)
        close(view->record);
}

/* live_client comes first, so that what is wrong with it is told before anybody is connected to. */
static bool begin(View *view)
{
    if (!start_client(view))
        return false;
    view->picture = window_open(NULL, view->words.host);
    if (!view->picture || !open_record(view))
        return false;
    view->picture_event = event_of(window_file(view->picture));
    return view->picture_event && open_connection(view);
}

int main(int count, char **given)
{
    View view = {.words = {.password = getenv("VIEW_PASSWORD"), .port = 3389, .width = 1024, .height = 768,
                           .client = program_path("../../../crates/live_client/out/live_client")},
                 .ended = -1, .record = -1};
    say_as("view");
    read_words(&view.words, count, given);
    signal(SIGPIPE, SIG_IGN);
    signal(SIGINT, on_interrupt);
    signal(SIGTERM, on_interrupt);
    if (!getenv("WLOG_LEVEL"))
        WLog_SetLogLevel(WLog_GetRoot(), WLOG_OFF);
    if (begin(&view)) {
        run(&view);
        if (view.client.pid)
            draw_rest(&view);
        write_picture(&view);
    }
    close_record(&view);
    stop_client(&view);
    close_connection(&view);
    window_close(view.picture);
    return view.ended < 0 ? FAILED : view.ended;
}
