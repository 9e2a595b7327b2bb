int main(void) { int sum = 0; int step = 2; for (int i = 0; i < 10; i += step) sum += i * step; return sum; }
