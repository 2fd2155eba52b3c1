/* micro:bit: the nRF51822's UART on P0.24, which the board hands on over USB. */
#include "serial.h"

enum { HFCLK_START = 0x40000000, HFCLK_STARTED = 0x40000100 };
enum { GPIO_OUTSET = 0x50000508, GPIO_DIRSET = 0x50000518 };
enum { UART_START = 0x40002008, UART_READY = 0x4000211C, UART_ENABLE = 0x40002500, UART_PIN = 0x4000250C, UART_DATA = 0x4000251C,
       UART_BAUD = 0x40002524 };

void serial_open(void)
{
    REGISTER(HFCLK_START) = 1;                                  /* the crystal of 16 MHz */
    while (!REGISTER(HFCLK_STARTED))
        ;
    REGISTER(GPIO_OUTSET) = 1 << 24;
    REGISTER(GPIO_DIRSET) = 1 << 24;
    REGISTER(UART_PIN) = 24;
    REGISTER(UART_BAUD) = 0x01D7E000;                           /* 115,200, as the part's manual has it */
    REGISTER(UART_ENABLE) = 4;
    REGISTER(UART_START) = 1;
}

void serial_send(uint8_t byte)
{
    REGISTER(UART_READY) = 0;
    REGISTER(UART_DATA) = byte;
    while (!REGISTER(UART_READY))
        ;
}
