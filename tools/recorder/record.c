/* Writes what a client of Remote Desktop is sent over the graphics channel as a recording (docs/FORMATS.md).
 *
 * A library to be laid over a client that stands on FreeRDP, by LD_PRELOAD; tools/record does it. FreeRDP's function
 * zgfx_decompress takes a channel message of the server and gives its payload, decompressed. Here stands a function
 * of the same name, which calls FreeRDP's, and writes each payload that it gave to the file that GFXPIPE_RECORDING
 * names, as a channel message that isn't compressed.
 *
 * The client is never disturbed: where a payload can't be written, a line on the standard error says why, and
 * nothing more is recorded. The file has whole channel messages at every moment. */
#define _GNU_SOURCE
#include <dlfcn.h>
#include <errno.h>
#include <fcntl.h>
#include <pthread.h>
#include <stdbool.h>
#include <stdint.h>
#include <stdio.h>
#include <stdlib.h>
#include <string.h>
#include <unistd.h>

/* The framing of a recording. */
enum {
    LENGTH = 4,          /* the length before a channel message */
    MOST_BLOCK = 65535,  /* bytes of content in a block */
    SINGLE = 0xE0,       /* descriptor: one block */
    SEVERAL = 0xE1,      /* descriptor: several blocks, behind their count and the size of their contents */
    SEVERAL_HEAD = 7,
    RDP8 = 4             /* header of a block that isn't compressed */
};
#define MOST_PAYLOAD 67000000u

typedef int decompress(void *context, const uint8_t *message, uint32_t size, uint8_t **payload,
                       uint32_t *payload_size, uint32_t flags);

static pthread_mutex_t lock = PTHREAD_MUTEX_INITIALIZER;
static pthread_once_t begun = PTHREAD_ONCE_INIT;
static decompress *theirs;
static int file = -1; /* or -1, where nothing is recorded */

static void stop(const char *why)
{
    fprintf(stderr, "record: %s: nothing more is recorded\n", why);
    if (file >= 0)
        close(file);
    file = -1;
}

/* FreeRDP's own function. Where its library isn't among those that the program was started with, it is loaded
 * already, since somebody calls here. */
static decompress *find_theirs(void)
{
    static const char *const libraries[] = {"libfreerdp3.so.3", "libfreerdp2.so.2"};
    decompress *found = (decompress *)dlsym(RTLD_NEXT, "zgfx_decompress");
    for (size_t i = 0; !found && i < sizeof libraries / sizeof *libraries; i++) {
        void *library = dlopen(libraries[i], RTLD_LAZY | RTLD_NOLOAD);
        if (library)
            found = (decompress *)dlsym(library, "zgfx_decompress");
    }
    return found;
}

static void begin(void)
{
    const char *name = getenv("GFXPIPE_RECORDING");
    theirs = find_theirs();
    if (!theirs) {
        fputs("record: FreeRDP's zgfx_decompress isn't found\n", stderr);
        return;
    }
    if (!name)
        return;
    file = open(name, O_WRONLY | O_CREAT | O_APPEND | O_CLOEXEC, 0666);
    if (file < 0)
        stop(strerror(errno));
}

static uint8_t *put_number(uint8_t *at, uint32_t number, int bytes)
{
    for (int i = 0; i < bytes; i++)
        *at++ = (uint8_t)(number >> 8 * i);
    return at;
}

static uint8_t *put_bytes(uint8_t *at, const uint8_t *bytes, uint32_t size)
{
    if (size)
        memcpy(at, bytes, size);
    return at + size;
}

/* The most that a payload becomes. */
static size_t room_for(uint32_t size)
{
    return LENGTH + SEVERAL_HEAD + (size_t)size + 5 * ((size_t)size / MOST_BLOCK + 1);
}

/* A channel message of this payload, behind its length. The answer is how many bytes it has. */
static size_t put_message(uint8_t *message, const uint8_t *payload, uint32_t size)
{
    uint8_t *at = message + LENGTH;
    if (size <= MOST_BLOCK) {
        *at++ = SINGLE;
        *at++ = RDP8;
        at = put_bytes(at, payload, size);
    } else {
        *at++ = SEVERAL;
        at = put_number(at, (size + MOST_BLOCK - 1) / MOST_BLOCK, 2);
        at = put_number(at, size, 4);
        for (uint32_t done = 0; done < size;) {
            uint32_t part = size - done < MOST_BLOCK ? size - done : MOST_BLOCK;
            at = put_number(at, 1 + part, 4);
            *at++ = RDP8;
            at = put_bytes(at, payload + done, part);
            done += part;
        }
    }
    put_number(message, (uint32_t)(at - message - LENGTH), LENGTH);
    return (size_t)(at - message);
}

static bool write_all(const uint8_t *bytes, size_t size)
{
    while (size) {
        ssize_t done = write(file, bytes, size);
        if (done < 0 && errno == EINTR)
            continue;
        if (done <= 0)
            return false;
        bytes += done;
        size -= (size_t)done;
    }
    return true;
}

/* Where not all of a message can be written, none of it stays. */
static void record(const uint8_t *payload, uint32_t size)
{
    if (size > MOST_PAYLOAD) {
        stop("a payload is longer than a recording takes");
        return;
    }
    uint8_t *message = malloc(room_for(size));
    if (!message) {
        stop("no memory is left");
        return;
    }
    off_t before = lseek(file, 0, SEEK_END);
    if (!write_all(message, put_message(message, payload, size))) {
        const char *why = strerror(errno);
        if (before >= 0 && ftruncate(file, before) < 0)
            fputs("record: the recording ends within a message\n", stderr);
        stop(why);
    }
    free(message);
}

int zgfx_decompress(void *context, const uint8_t *message, uint32_t size, uint8_t **payload,
                    uint32_t *payload_size, uint32_t flags)
{
    pthread_once(&begun, begin);
    if (!theirs)
        return -1;
    int answer = theirs(context, message, size, payload, payload_size, flags);
    pthread_mutex_lock(&lock);
    if (answer >= 0 && file >= 0)
        record(*payload, *payload_size);
    pthread_mutex_unlock(&lock);
    return answer;
}
