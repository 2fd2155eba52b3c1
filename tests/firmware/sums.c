/* A sum that ARMv7-M's libgcc gets wrong, by the libgcc that the firmware takes for itself; and an exponential of the library, in
 * which such sums stand: with ARMv7-M's inside it would end in 0e. */
#include "say.h"
#include "tonekit.h"

typedef union { uint64_t bits; double value; } f64;

int main(void)
{
    volatile f64 a = {0x3FCFFFFFFFFFFFD9}, b = {0xC1D0000000001000}, sum;
    sum.value = a.value + b.value;
    serial_open();
    say(sum.bits);
    say(tonekit_exp(0xBDE2FEF107A27529));
    return 0;
}
