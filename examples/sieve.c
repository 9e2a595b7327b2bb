/* The primes below 100, by the sieve of Eratosthenes. */
int putchar(int);

int composite[100];

void number(int n) {
    if (n >= 10) putchar('0' + n / 10);
    putchar('0' + n % 10);
    putchar(' ');
}

int main(void) {
    int count = 0;
    for (int n = 2; n < 100; n++) {
        if (composite[n]) continue;
        number(n);
        count++;
        for (int m = n * n; m < 100; m += n) composite[m] = 1;
    }
    putchar('\n');
    return count;
}
