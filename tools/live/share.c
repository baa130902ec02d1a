/* Shares an X display by the Remote Desktop protocol: listens, and has a process for each client.
 *
 * What is drawn over the graphics channel is said by the proved program live_server, in a process of its own for each
 * client (docs/LIVE.md); session.c joins both. README.md of this folder has the words. */
#define _GNU_SOURCE
#include <arpa/inet.h>
#include <errno.h>
#include <getopt.h>
#include <netinet/in.h>
#include <netinet/tcp.h>
#include <poll.h>
#include <signal.h>
#include <stdio.h>
#include <stdlib.h>
#include <string.h>
#include <sys/mman.h>
#include <sys/prctl.h>
#include <sys/socket.h>
#include <sys/wait.h>
#include <time.h>
#include <unistd.h>

#include <freerdp/channels/channels.h>
#include <winpr/ntlm.h>
#include <winpr/ssl.h>
#include <winpr/wlog.h>
#include <winpr/wtsapi.h>

#include "program.h"
#include "say.h"
#include "screen.h"
#include "session.h"

enum { DEFAULT_PORT = 3389, MOST_CLIENTS = 16, WAITING = 8, MOST_PASSWORD = 255 };

/* Seconds: till the first graphics of a client, till one is lost that takes nothing any more, and till one is killed
 * where share ends. */
enum { BEFORE_CLIENT = 30, BEFORE_LOST = 30, BEFORE_KILLED = 4 };

static const char usage[] =
    "share --display NAME --user NAME [--password WORD] [--listen ADDRESS] [--port N]\n"
    "      [--certificate FILE --key FILE] [--kind KIND] [--record FILE] [--server PATH]\n"
    "\n"
    "Shares the X display of that name with clients of Remote Desktop, at port 3389 of 127.0.0.1 unless other words\n"
    "say so. Without --password the password is what SHARE_PASSWORD says. Without --certificate one is made. The\n"
    "server's end is live_server at PATH, crates/live_server/out/live_server of this repository where none is named.\n"
    "Pictures go as raw, residual, bands, plain, progressive or video where KIND is one of these, else as what costs\n"
    "least. --record writes what each client is sent as a recording. It goes on until it is interrupted. README.md of\n"
    "tools/live says more.\n";

typedef struct {
    Share share;
    const char *address, *certificate, *key, *record;
    long port;
} Words;

/* The processes of clients. */
typedef struct {
    pid_t pids[MOST_CLIENTS];
    int count;
    unsigned began; /* so many in all */
} Clients;

static volatile sig_atomic_t has_to_end;

static void on_end(int signal)
{
    (void)signal;
    has_to_end = 1;
}

/* ---- Words */

static _Noreturn void be_wrong(const char *why)
{
    say("%s (--help says more)", why);
    exit(2);
}

static long read_number(const char *given, long least, long most, const char *wanted)
{
    char *rest;
    long number = strtol(given, &rest, 10);
    if (*rest || number < least || number > most)
        be_wrong(wanted);
    return number;
}

/* The words of a process can be seen by all, so the password doesn't stay among them. */
static const char *take_password(char *given)
{
    char *taken = strdup(given);
    memset(given, '*', strlen(given));
    return taken;
}

static uint8_t read_kind(const char *given)
{
    static const struct { const char *name; uint8_t kind; } kinds[] = {
        {"raw", 1}, {"residual", 2}, {"bands", 3}, {"plain", 5}, {"progressive", 6}, {"video", 7}};
    for (size_t i = 0; i < sizeof kinds / sizeof *kinds; i++)
        if (strcmp(given, kinds[i].name) == 0)
            return kinds[i].kind;
    be_wrong("--kind is raw, residual, bands, plain, progressive or video");
}

static void read_words(Words *words, int count, char **given)
{
    static const struct option options[] = {
        {"display", required_argument, NULL, 'd'}, {"user", required_argument, NULL, 'u'},
        {"password", required_argument, NULL, 'p'}, {"listen", required_argument, NULL, 'l'},
        {"port", required_argument, NULL, 'P'}, {"certificate", required_argument, NULL, 'c'},
        {"key", required_argument, NULL, 'k'}, {"server", required_argument, NULL, 's'},
        {"kind", required_argument, NULL, 'K'}, {"record", required_argument, NULL, 'r'},
        {"help", no_argument, NULL, 'h'}, {NULL, 0, NULL, 0}};
    opterr = 0;
    for (int option; (option = getopt_long(count, given, "", options, NULL)) >= 0;)
        switch (option) {
        case 'd': words->share.display = optarg; break;
        case 'u': words->share.user = optarg; break;
        case 'p': words->share.password = take_password(optarg); break;
        case 'l': words->address = optarg; break;
        case 'c': words->certificate = optarg; break;
        case 'k': words->key = optarg; break;
        case 's': words->share.server = optarg; break;
        case 'K': words->share.kind = read_kind(optarg); break;
        case 'r': words->record = optarg; break;
        case 'P': words->port = read_number(optarg, 1, 65535, "--port is 1 to 65535"); break;
        case 'h':
            fputs(usage, stdout);
            exit(0);
        default: be_wrong("a word isn't known, or lacks what belongs to it");
        }
    if (optind < count)
        be_wrong("a word isn't known");
    if (!words->share.display || !words->share.user)
        be_wrong("--display and --user have to be there");
    if (!words->share.password)
        be_wrong("the password is missing: --password, or SHARE_PASSWORD in the environment");
    if (!words->certificate != !words->key)
        be_wrong("--certificate and --key go together");
}

/* ---- NLA */

/* The user and the hash of the password, as a line of the file by which the library's server knows who may log on. It
 * stands in memory. Where there is no such line, NLA is left out. */
static const char *make_users(const Share *share)
{
    static char name[40];
    char password[MOST_PASSWORD + 1];
    BYTE hash[16];
    size_t size = strlen(share->password);
    if (strpbrk(share->user, ":\r\n") || size > MOST_PASSWORD || size == 0)
        return NULL;
    winpr_InitializeSSL(WINPR_SSL_INIT_DEFAULT); /* The hash is of a kind that OpenSSL else leaves out. */
    int file = memfd_create("users", MFD_CLOEXEC);
    strcpy(password, share->password);
    if (file < 0 || !NTOWFv1A(password, (UINT32)size, hash))
        return NULL;
    dprintf(file, "%s:::", share->user);
    for (size_t i = 0; i < sizeof hash; i++)
        dprintf(file, "%02x", hash[i]);
    dprintf(file, ":::\n");
    snprintf(name, sizeof name, "/proc/self/fd/%d", file);
    return name;
}

/* ---- Listening */

static int listen_at(const Words *words)
{
    struct sockaddr_in here = {.sin_family = AF_INET, .sin_port = htons((uint16_t)words->port)};
    struct sockaddr_in6 here6 = {.sin6_family = AF_INET6, .sin6_port = htons((uint16_t)words->port)};
    bool is_old = inet_pton(AF_INET, words->address, &here.sin_addr) == 1;
    if (!is_old && inet_pton(AF_INET6, words->address, &here6.sin6_addr) != 1)
        be_wrong("--listen wants an address in numbers");
    int on = 1, listener = socket(is_old ? AF_INET : AF_INET6, SOCK_STREAM | SOCK_CLOEXEC, 0);
    const struct sockaddr *address = is_old ? (const void *)&here : (const void *)&here6;
    socklen_t size = is_old ? sizeof here : sizeof here6;
    if (listener >= 0 && setsockopt(listener, SOL_SOCKET, SO_REUSEADDR, &on, sizeof on) == 0 &&
        bind(listener, address, size) == 0 && listen(listener, WAITING) == 0)
        return listener;
    say("port %ld of %s can't be listened at: %s", words->port, words->address, strerror(errno));
    if (listener >= 0)
        close(listener);
    return -1;
}

static void name_client(const struct sockaddr_storage *from, char *name, size_t size)
{
    char address[INET6_ADDRSTRLEN] = "?";
    const struct sockaddr_in *old = (const void *)from;
    const struct sockaddr_in6 *new = (const void *)from;
    bool is_old = from->ss_family == AF_INET;
    inet_ntop(from->ss_family, is_old ? (const void *)&old->sin_addr : (const void *)&new->sin6_addr, address,
              sizeof address);
    snprintf(name, size, is_old ? "%s:%u" : "[%s]:%u", address, ntohs(is_old ? old->sin_port : new->sin6_port));
}

/* ---- Clients */

/* Lets the kernel end the connection of a client whose machine or network has gone, or that reads no more. */
static void watch(int connection)
{
    int on = 1, quiet = BEFORE_LOST / 2, between = BEFORE_LOST / 6, milliseconds = BEFORE_LOST * 1000;
    setsockopt(connection, SOL_SOCKET, SO_KEEPALIVE, &on, sizeof on);
    setsockopt(connection, IPPROTO_TCP, TCP_KEEPIDLE, &quiet, sizeof quiet);
    setsockopt(connection, IPPROTO_TCP, TCP_KEEPINTVL, &between, sizeof between);
    setsockopt(connection, IPPROTO_TCP, TCP_USER_TIMEOUT, &milliseconds, sizeof milliseconds);
}

/* In the process of a client, by its number: it ends with share, and where the client doesn't come to graphics, by the
 * alarm. */
static _Noreturn void be_session(Words *words, int connection, const char *name, unsigned number, pid_t parent)
{
    char record[4096];
    signal(SIGCHLD, SIG_DFL);
    alarm(BEFORE_CLIENT);
    watch(connection);
    prctl(PR_SET_PDEATHSIG, SIGTERM);
    if (getppid() != parent)
        _exit(1);
    snprintf(record, sizeof record, number > 1 ? "%s.%u" : "%s", words->record ? words->record : "", number);
    words->share.record = words->record ? record : NULL;
    int ended = session_run(&words->share, connection, name);
    fflush(NULL);
    _exit(ended);
}

static void forget(Clients *clients, pid_t pid)
{
    for (int i = 0; i < clients->count; i++)
        if (clients->pids[i] == pid) {
            clients->pids[i] = clients->pids[--clients->count];
            return;
        }
}

/* Takes the ends of clients' processes, and tells those that didn't say a line themselves. */
static void hear_ends(Clients *clients)
{
    int status;
    for (pid_t pid; (pid = waitpid(-1, &status, WNOHANG)) > 0; forget(clients, pid))
        if (WIFSIGNALED(status))
            say("the process %d of a client was ended by signal %d", (int)pid, WTERMSIG(status));
}

static void begin_client(Words *words, Clients *clients, int listener, int connection,
                         const struct sockaddr_storage *from)
{
    char name[80];
    pid_t parent = getpid();
    name_client(from, name, sizeof name);
    pid_t pid = fork();
    if (pid == 0) {
        close(listener);
        be_session(words, connection, name, clients->began + 1, parent);
    }
    clients->began += pid > 0;
    if (pid > 0)
        clients->pids[clients->count++] = pid;
    else
        say("%s can't be served: %s", name, strerror(errno));
}

static void accept_client(Words *words, Clients *clients, int listener)
{
    struct sockaddr_storage from;
    socklen_t size = sizeof from;
    int connection = accept4(listener, (struct sockaddr *)&from, &size, SOCK_CLOEXEC);
    if (connection < 0)
        return;
    if (clients->count >= MOST_CLIENTS)
        say("a client is turned away: there are %d already", clients->count);
    else
        begin_client(words, clients, listener, connection, &from);
    close(connection);
}

/* Signals come only while it waits for clients, so that none is missed before. */
static void serve_clients(Words *words, Clients *clients, int listener)
{
    struct pollfd here = {.fd = listener, .events = POLLIN};
    sigset_t none;
    sigemptyset(&none);
    while (!has_to_end) {
        int found = ppoll(&here, 1, NULL, &none);
        hear_ends(clients);
        if (found > 0)
            accept_client(words, clients, listener);
    }
}

static void kill_clients(const Clients *clients, int signal)
{
    for (int i = 0; i < clients->count; i++)
        kill(clients->pids[i], signal);
}

/* They have some seconds to end. */
static void end_clients(Clients *clients)
{
    const struct timespec moment = {0, 10000000};
    kill_clients(clients, SIGTERM);
    for (int moments = 0; clients->count && moments < 100 * BEFORE_KILLED; moments++) {
        nanosleep(&moment, NULL);
        hear_ends(clients);
    }
    kill_clients(clients, SIGKILL);
}

static void on_client_ended(int signal)
{
    (void)signal;
}

static void hear_signals(void)
{
    static const struct { int number; void (*on)(int); } signals[] = {
        {SIGINT, on_end}, {SIGTERM, on_end}, {SIGCHLD, on_client_ended}};
    sigset_t heard;
    sigemptyset(&heard);
    for (size_t i = 0; i < sizeof signals / sizeof *signals; i++) {
        struct sigaction action = {.sa_handler = signals[i].on};
        sigaction(signals[i].number, &action, NULL);
        sigaddset(&heard, signals[i].number);
    }
    sigprocmask(SIG_BLOCK, &heard, NULL);
    signal(SIGPIPE, SIG_IGN);
}

/* The display is opened once, to say what is wrong with it before a client comes. */
static bool say_beginning(const Words *words)
{
    SharedScreen *screen = screen_open(words->share.display);
    if (!screen)
        return false;
    say("display %s, %u by %u, at port %ld of %s; the certificate's SHA-256 is %s", words->share.display,
        screen_width(screen), screen_height(screen), words->port, words->address,
        words->share.certificate.fingerprint);
    screen_close(screen);
    return true;
}

int main(int count, char **given)
{
    char *server = program_path("../../../crates/live_server/out/live_server");
    char *sandbox = program_path("sandbox.so");
    Words words = {.share = {.password = getenv("SHARE_PASSWORD"), .server = server, .sandbox = sandbox},
                   .address = "127.0.0.1", .port = DEFAULT_PORT};
    say_as("share");
    read_words(&words, count, given);
    bool is_ready = words.certificate
                        ? certificate_read(&words.share.certificate, words.certificate, words.key)
                        : certificate_make(&words.share.certificate);
    words.share.users = make_users(&words.share);
    hear_signals();
    if (!getenv("WLOG_LEVEL"))
        WLog_SetLogLevel(WLog_GetRoot(), WLOG_OFF);
    WTSRegisterWtsApiFunctionTable(FreeRDP_InitWtsApi());
    int listener = is_ready ? listen_at(&words) : -1;
    if (listener < 0 || !say_beginning(&words))
        return 1;
    Clients clients = {.count = 0};
    serve_clients(&words, &clients, listener);
    close(listener);
    end_clients(&clients);
    return 0;
}
