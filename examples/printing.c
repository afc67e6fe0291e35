/* What every program brings along to print: a string, a number, a number in hexadecimal. Copy what you need. */

void print_string(char *s)
{
    while (*s) putchar(*s++);
}

/* n is zero or below: so the smallest number has its digits too. */
void print_digits(int n)
{
    if (n < -9) print_digits(n / 10);
    putchar('0' - n % 10);
}

void print_number(int n)
{
    if (n < 0) {
        putchar('-');
        print_digits(n);
    } else print_digits(-n);
}

void print_hexadecimal(int n)
{
    int shift;
    for (shift = 28; shift >= 0; shift -= 4) putchar("0123456789abcdef"[(n >> shift) & 15]);
}

int main()
{
    print_string("numbers:");
    putchar(' '); print_number(0);
    putchar(' '); print_number(-2147483647 - 1);
    putchar(' '); print_number(2147483647);
    putchar(' '); print_hexadecimal(-2);
    putchar('\n');
    return 0;
}
