/* The CRC-32 of a buffer, bit by bit. That of the bytes "123456789" is 0xCBF43926. */
unsigned crc32(const unsigned char *bytes, unsigned n) {
  unsigned crc = 0xFFFFFFFF;
  unsigned i;
  for (i = 0; i < n; i++) {
    int bit;
    crc ^= bytes[i];
    for (bit = 0; bit < 8; bit++) {
      if (pc_label(crc & 1, 1, "DC"), pc_label(!(crc & 1), 2, "DC"), crc & 1)
        crc = crc >> 1 ^ 0xEDB88320;
      else
        crc = crc >> 1;
    }
    pc_label(bytes[i] == 0, 3, "zero-byte");
    pc_label(bytes[i] > 127, 4, "high-byte");
  }
  pc_label(n == 0, 5, "empty");
  pc_label(~crc == 0xCBF43926, 6, "check-value");
  return ~crc;
}
