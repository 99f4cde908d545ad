/* One byte of the CRC in C, as in crc.rs, for the listing of a processor that no program here is run for. It includes nothing: a bare clang
   compiles it. */
static const unsigned short NIBBLES[16] = {0x0000, 0x8005, 0x800F, 0x000A, 0x801B, 0x001E, 0x0014, 0x8011,
                                           0x8033, 0x0036, 0x003C, 0x8039, 0x0028, 0x802D, 0x8027, 0x0022};

static unsigned short nibble(unsigned short c, unsigned short n) {
    return (unsigned short)(c << 4) ^ NIBBLES[(c >> 12) ^ n];
}

unsigned short one_by_table(unsigned short c, unsigned char b) {
    return nibble(nibble(c, b >> 4), b & 0x0F);
}

static unsigned short shift(unsigned short c) {
    return c < 0x8000 ? c << 1 : (c << 1) ^ 0x8005;
}

unsigned short one_by_bits(unsigned short c, unsigned char b) {
    unsigned short x = c ^ (unsigned short)(b << 8);
    for (unsigned char i = 0; i < 8; i++) x = shift(x);
    return x;
}
