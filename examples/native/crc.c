/* The CRC-32 of bytes (ITU-T V.42), one after another. */
unsigned table[256];
unsigned rest;

/* Before the first byte. */
void begin(void) {
    int byte = 0;
    while (byte < 256) {
        unsigned bits = (unsigned)byte;
        int step = 0;
        while (step < 8) {
            if (bits & 1u) bits = (bits >> 1) ^ 3988292384u;
            else bits = bits >> 1;
            step = step + 1;
        }
        table[byte] = bits;
        byte = byte + 1;
    }
    rest = 4294967295u;
}

void add(unsigned byte) {
    rest = (rest >> 8) ^ table[(rest ^ byte) & 255u];
}

/* Behind the last one. */
unsigned sum(void) {
    return rest ^ 4294967295u;
}

/* Whether the sum of the digits 1 to 9 is what it has to be. */
int main(void) {
    unsigned digit = 49u;
    unsigned found;
    begin();
    while (digit <= 57u) {
        add(digit);
        digit = digit + 1u;
    }
    found = sum();
    return found == 3421780262u;
}
