/* One checked read of C1CON by the driver, answered with its reset word and a CRC that crc_twin.c works out. 0: the word was read. */
#include <stdint.h>

uint32_t checked(uint32_t address);
uint16_t one_by_bits(uint16_t c, uint8_t b);

uint8_t answer[6] = {0x60, 0x07, 0x98, 0x04};

int main(void) {
    static const uint8_t sent[3] = {0xB0, 0x00, 0x04};
    uint16_t c = 0xFFFF;
    for (int i = 0; i < 3; i++) c = one_by_bits(c, sent[i]);
    for (int i = 0; i < 4; i++) c = one_by_bits(c, answer[i]);
    answer[4] = c >> 8;
    answer[5] = c & 0xFF;
    return checked(0) == 0x04980760 ? 0 : 1;
}
