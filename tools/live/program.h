/* A proved program that runs beside this one, in the sandbox, joined by two pipes (docs/LIVE.md, "Records"). */
#ifndef PROGRAM_H
#define PROGRAM_H

#include <stdbool.h>
#include <stddef.h>
#include <stdint.h>
#include <sys/types.h>

typedef struct {
    const char *name; /* as it is told to people: the file without its folder */
    pid_t pid;        /* 0 where it has ended */
    int to, from, line;
    bool is_confined; /* the sandbox was seen to be in force */
    uint8_t *body;    /* of the last answer */
    uint32_t size;
    size_t room;
} Program;

/* A piece of a command's body. */
typedef struct {
    const void *bytes;
    size_t size;
} Part;

/* Starts the program of this path, with this sandbox laid over it. Where it can't, says why. */
bool program_start(Program *program, const char *path, const char *sandbox);

/* Writes a command whose body is these parts, and reads its answer, whose body then is in `body`. Answers its kind, or
 * 0 where the program has ended, which is said in a line. */
char program_ask(Program *program, char kind, const Part *parts, size_t count);

/* A name that an answer tells, as `W` and `R` do, of at most 60 letters behind `skipped` bytes. Till the next call. */
const char *program_told(const Program *program, uint32_t skipped);

/* Looks whether the program has ended by itself; then says so. */
bool program_is_lost(Program *program);

/* Ends its input, waits for its end, and gives all back. */
void program_end(Program *program);

/* Where a file of this project is: `beside` is looked for from the folder of this program's own file. */
char *program_path(const char *beside);

/* Numbers as records have them. */
uint32_t number_of(const uint8_t *bytes, int count);
uint8_t *put_number(uint8_t *at, uint32_t number, int count);

#endif
