/* Twenty numbers, sorted by Hoare's quicksort through pointers. */
void put(int n) {
    if (n > 9) put(n / 10);
    putchar('0' + n % 10);
}

void exchange(int *one, int *other) {
    int n = *one;
    *one = *other;
    *other = n;
}

/* Sorts the numbers from this one up to the one in front of the end. */
void sort(int *from, int *end) {
    int *low = from, *high = end - 1, middle;
    if (end - from < 2) return;
    middle = from[(end - from) / 2];
    while (low <= high) {
        while (*low < middle) low++;
        while (middle < *high) high--;
        if (low <= high) exchange(low++, high--);
    }
    sort(from, high + 1);
    sort(low, end);
}

int main() {
    int numbers[20], n, next = 1;
    for (n = 0; n < 20; n++) numbers[n] = next = (next * 73 + 41) % 1009;
    sort(numbers, numbers + 20);
    for (n = 0; n < 20; n++) {
        put(numbers[n]);
        putchar(n == 19 ? '\n' : ' ');
    }
    return 0;
}
