/* The longest of Collatz's walks that begin below 1000: where it begins, and its steps as the result. */
int putchar(int);

void number(unsigned n) {
    unsigned unit = 1u;
    while (n / unit > 9u) unit *= 10u;
    do {
        putchar('0' + (int)(n / unit % 10u));
        unit /= 10u;
    } while (unit > 0u);
}

unsigned steps(unsigned n) {
    unsigned taken = 0u;
    while (n != 1u) {
        n = n % 2u == 0u ? n / 2u : 3u * n + 1u;
        taken++;
    }
    return taken;
}

int main(void) {
    unsigned best = 1u;
    unsigned longest = 0u;
    for (unsigned n = 1u; n < 1000u; n++) {
        unsigned taken = steps(n);
        if (taken > longest) {
            longest = taken;
            best = n;
        }
    }
    number(best);
    putchar('\n');
    return (int)longest;
}
