/* Mandelbrot's set, in numbers with ten bits behind the point. */
int putchar(int);

int escape(int real, int imaginary) {
    int x = 0;
    int y = 0;
    for (int turn = 0; turn < 32; turn++) {
        int xx = x * x / 1024;
        int yy = y * y / 1024;
        if (xx + yy > 4096) return turn;
        y = 2 * x * y / 1024 + imaginary;
        x = xx - yy + real;
    }
    return 32;
}

int main(void) {
    int inside = 0;
    for (int row = 0; row < 23; row++) {
        for (int at = 0; at < 72; at++) {
            int turns = escape(at * 44 - 2200, row * 106 - 1166);
            if (turns == 32) {
                inside++;
                putchar('#');
            } else putchar(turns > 9 ? '+' : turns > 5 ? '.' : ' ');
        }
        putchar('\n');
    }
    return inside;
}
