/* Every placing of eight queens on a board, counted; the first one is drawn. */
int row[8];
char column_taken[8];
char rising_taken[15];
char falling_taken[15];
int found;

void put(int n) {
    if (n > 9) put(n / 10);
    putchar('0' + n % 10);
}

void draw(void) {
    int r, c;
    for (r = 0; r < 8; r++) {
        for (c = 0; c < 8; c++) putchar(row[r] == c ? 'Q' : '.');
        putchar('\n');
    }
}

void place(int r) {
    int c;
    if (r == 8) {
        if (found == 0) draw();
        found++;
        return;
    }
    for (c = 0; c < 8; c++) {
        if (column_taken[c] || rising_taken[r + c] || falling_taken[r - c + 7]) continue;
        column_taken[c] = rising_taken[r + c] = falling_taken[r - c + 7] = 1;
        row[r] = c;
        place(r + 1);
        column_taken[c] = rising_taken[r + c] = falling_taken[r - c + 7] = 0;
    }
}

int main() {
    place(0);
    put(found);
    putchar('\n');
    return 0;
}
