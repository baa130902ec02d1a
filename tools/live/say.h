/* What is said to people: lines on the standard error, each behind the name of the program. */
#ifndef SAY_H
#define SAY_H

/* The name before each line; share's sessions put their client behind it. */
void say_as(const char *format, ...) __attribute__((format(printf, 1, 2)));

/* A line, which is written at once, so that those of several processes don't mix. */
void say(const char *format, ...) __attribute__((format(printf, 1, 2)));

#endif
