/* A division by zero traps, behind what was written before it. */
int zero;

int main() {
    putchar('A');
    putchar('\n');
    return 1 / zero;
}
