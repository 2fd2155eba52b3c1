/* A firmware of the sample: judges the sample query against the sample pack, both in flash, and sends the record over the
 * board's serial line in hexadecimal, 16 bytes a line; or a refusal, six bytes as the programs write it. */
#include "serial.h"
#include "tonekit.h"

extern const uint8_t pack[], pack_end[], query[], query_end[];  /* sample.s */

static void send_hex(const uint8_t *bytes, uint32_t n)
{
    static const char digits[] = "0123456789abcdef";
    for (uint32_t i = 0; i < n; i++) {
        serial_send(digits[bytes[i] >> 4]);
        serial_send(digits[bytes[i] & 15]);
        serial_send(i % 16 == 15 || i + 1 == n ? '\n' : ' ');
    }
}

int main(void)
{
    uint8_t record[TONEKIT_JUDGEMENT_SIZE];
    uint64_t place;
    uint32_t refusal = tonekit_judge(pack, pack_end - pack, query, query_end - query, record, sizeof record, &place);
    serial_open();
    if (refusal) {
        uint8_t refused[6] = {52, refusal, place, place >> 8, place >> 16, place >> 24};
        send_hex(refused, sizeof refused);
    } else
        send_hex(record, sizeof record);
    return 0;
}
