/* Numbers in hexadecimal over the serial line, one a line. */
#ifndef SAY_H
#define SAY_H
#include "serial.h"

static void say(uint64_t number)
{
    for (int shift = 60; shift >= 0; shift -= 4)
        serial_send("0123456789abcdef"[number >> shift & 15]);
    serial_send('\n');
}
#endif
