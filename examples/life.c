/* Conway's Life: a glider on a torus of eight by eight cells, four generations. */
int putchar(int);

int cell[64] = {0, 1, 0, 0, 0, 0, 0, 0,
                0, 0, 1, 0, 0, 0, 0, 0,
                1, 1, 1};
int later[64];

void show(void) {
    for (int at = 0; at < 64; at++) {
        putchar(cell[at] ? 'o' : '.');
        if (at % 8 == 7) putchar('\n');
    }
    putchar('\n');
}

void step(void) {
    for (int row = 0; row < 8; row++)
        for (int at = 0; at < 8; at++) {
            int living = -cell[row * 8 + at];
            for (int up = 7; up < 10; up++)
                for (int side = 7; side < 10; side++)
                    living += cell[(row + up) % 8 * 8 + (at + side) % 8];
            later[row * 8 + at] = living == 3 || living == 2 && cell[row * 8 + at];
        }
    for (int at = 0; at < 64; at++) cell[at] = later[at];
}

int main(void) {
    show();
    for (int generation = 0; generation < 4; generation++) {
        step();
        show();
    }
    int living = 0;
    for (int at = 0; at < 64; at++) living += cell[at];
    return living;
}
