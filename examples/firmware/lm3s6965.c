/* LM3S6965: UART0 on PA1, by the board's crystal of 8 MHz. */
#include "serial.h"

enum { RCC = 0x400FE060, RCGC1 = 0x400FE104, RCGC2 = 0x400FE108 };                         /* clocks */
enum { GPIOA_AFSEL = 0x40004420, GPIOA_DEN = 0x4000451C };
enum { UART_DATA = 0x4000C000, UART_FLAGS = 0x4000C018, UART_IBRD = 0x4000C024, UART_FBRD = 0x4000C028, UART_LCRH = 0x4000C02C,
       UART_CTL = 0x4000C030 };

void serial_open(void)
{
    REGISTER(RCC) = (REGISTER(RCC) & ~0x3F1u) | 0xE << 6;       /* the main oscillator, of 8 MHz, on and taken */
    REGISTER(RCGC1) |= 1;
    REGISTER(RCGC2) |= 1;
    (void)REGISTER(RCGC2);                                      /* some cycles until the clocks are there */
    REGISTER(GPIOA_AFSEL) |= 3;
    REGISTER(GPIOA_DEN) |= 3;
    REGISTER(UART_CTL) = 0;
    REGISTER(UART_IBRD) = 4;                                    /* 8,000,000 / (16 * 115,200) = 4 + 22 / 64 */
    REGISTER(UART_FBRD) = 22;
    REGISTER(UART_LCRH) = 0x70;                                 /* 8 bits, with the FIFO */
    REGISTER(UART_CTL) = 0x301;
}

void serial_send(uint8_t byte)
{
    while (REGISTER(UART_FLAGS) & 0x20)                         /* the FIFO is full */
        ;
    REGISTER(UART_DATA) = byte;
}
