/* STM32F405: USART1 on PA9, by the oscillator of 16 MHz that runs after reset. */
#include "serial.h"

enum { RCC_AHB1ENR = 0x40023830, RCC_APB2ENR = 0x40023844 };    /* clocks */
enum { GPIOA_MODER = 0x40020000, GPIOA_AFRH = 0x40020024 };
enum { USART_SR = 0x40011000, USART_DR = 0x40011004, USART_BRR = 0x40011008, USART_CR1 = 0x4001100C };

void serial_open(void)
{
    REGISTER(RCC_AHB1ENR) |= 1;
    REGISTER(RCC_APB2ENR) |= 1 << 4;
    (void)REGISTER(RCC_APB2ENR);                                /* some cycles until the clocks are there */
    REGISTER(GPIOA_AFRH) = (REGISTER(GPIOA_AFRH) & ~0xF0u) | 0x70;
    REGISTER(GPIOA_MODER) = (REGISTER(GPIOA_MODER) & ~0xC0000u) | 0x80000;
    REGISTER(USART_BRR) = 139;                                  /* 16,000,000 / 115,200 */
    REGISTER(USART_CR1) = 0x2008;                               /* on, sending */
}

void serial_send(uint8_t byte)
{
    while (!(REGISTER(USART_SR) & 0x80))                        /* the byte before is still there */
        ;
    REGISTER(USART_DR) = byte;
}
