/* One client of share: its connection, its live_server, and the frames between them. */
#ifndef SESSION_H
#define SESSION_H

#include <stdint.h>

#include "certificate.h"

/* How share shares, by its words. */
typedef struct {
    const char *display, *user, *password;
    const char *server, *sandbox; /* live_server, and what is laid over it */
    const char *users;            /* the file by which NLA knows the user and the password, or NULL without NLA */
    const char *record;           /* the file for what is sent, or NULL */
    uint8_t kind;                 /* of the pictures, as a `p` has it */
    Certificate certificate;
} Share;

/* Serves the client of this connection, till one of both ends. Answers the exit number of its process. */
int session_run(const Share *share, int connection, const char *client);

#endif
