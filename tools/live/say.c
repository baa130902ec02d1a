/* What is said to people: lines on the standard error, each behind the name of the program. */
#include "say.h"

#include <stdarg.h>
#include <stdio.h>
#include <string.h>
#include <unistd.h>

static char speaker[100] = "live";

void say_as(const char *format, ...)
{
    va_list words;
    va_start(words, format);
    vsnprintf(speaker, sizeof speaker, format, words);
    va_end(words);
}

void say(const char *format, ...)
{
    char line[1000];
    va_list words;
    int front = snprintf(line, sizeof line, "%s: ", speaker);
    va_start(words, format);
    vsnprintf(line + front, sizeof line - (size_t)front - 1, format, words);
    va_end(words);
    strcat(line, "\n");
    if (write(STDERR_FILENO, line, strlen(line)) < 0) {
        /* Nobody listens. */
    }
}
