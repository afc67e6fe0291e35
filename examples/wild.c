/* A store outside the data area: up to it the output is promised, and nothing behind it. */
int main() {
    putchar('B');
    putchar('\n');
    *(int *)0 = 1;
    return 0;
}
