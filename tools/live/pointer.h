/* The form of the server's pointer, as view's window shows it. */
#ifndef POINTER_H
#define POINTER_H

#include <stdio.h> /* which FreeRDP's headers want */

#include <freerdp/freerdp.h>

#include "window.h"

/* Lets the library call what is here for each form that the server tells. */
void pointer_take_over(rdpPointerUpdate *pointer, Picture *picture);

#endif
