int putchar(int c);

int total;

void print(int n) {
  if (n > 9) print(n / 10);
  putchar('0' + n % 10);
}

int cube(int n) {
  return n * n * n;
}

int main(void) {
  int n = 1;
  while (n <= 5) {
    int next = cube(n);
    total += next;
    print(total);
    putchar('\n');
    n++;
  }
  return total;
}
