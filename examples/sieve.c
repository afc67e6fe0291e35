/* The primes below 100, by the sieve of Eratosthenes. */
char crossed[100];

void put(int n) {
    if (n > 9) put(n / 10);
    putchar('0' + n % 10);
}

int main() {
    int n, multiple;
    for (n = 2; n < 100; n++) {
        if (crossed[n]) continue;
        put(n);
        putchar(' ');
        for (multiple = n * n; multiple < 100; multiple += n) crossed[multiple] = 1;
    }
    putchar('\n');
    return 0;
}
