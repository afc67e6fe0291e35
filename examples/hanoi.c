/* The towers of Hanoi: how four discs move from a to c, a move a line. */
void move(int discs, int from, int to, int by) {
    if (discs == 0) return;
    move(discs - 1, from, by, to);
    putchar(from);
    putchar(to);
    putchar('\n');
    move(discs - 1, by, to, from);
}

int main() {
    move(4, 'a', 'c', 'b');
    return 0;
}
