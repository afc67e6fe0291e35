/* Writes its input, and answers how many bytes that were. */
int main() {
    int c, count = 0;
    while ((c = getchar()) >= 0) {
        putchar(c);
        count++;
    }
    return count;
}
