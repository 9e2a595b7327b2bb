/* The first way to set eight queens so that none attacks another, and how many ways there are. */
int putchar(int);

int column[8];

int attacked(int row, int at) {
    for (int above = 0; above < row; above++) {
        int apart = column[above] - at;
        if (apart < 0) apart = -apart;
        if (apart == 0 || apart == row - above) return 1;
    }
    return 0;
}

void show(void) {
    for (int row = 0; row < 8; row++) {
        for (int at = 0; at < 8; at++) putchar(column[row] == at ? 'Q' : '.');
        putchar('\n');
    }
}

int found;

void place(int row) {
    if (row == 8) {
        if (found == 0) show();
        found++;
        return;
    }
    for (int at = 0; at < 8; at++) {
        int taken = attacked(row, at);
        if (taken) continue;
        column[row] = at;
        place(row + 1);
    }
}

int main(void) {
    place(0);
    return found;
}
