/* The serial line of a board, 115,200 baud, 8 bits, no parity: LM3S6965, micro:bit and STM32F405 have a file each. */
#ifndef SERIAL_H
#define SERIAL_H
#include <stdint.h>

#define REGISTER(address) (*(volatile uint32_t *)(address))

void serial_open(void);
void serial_send(uint8_t byte);     /* waits until there is room */
#endif
