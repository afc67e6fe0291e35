/* Writes each line of its input from its end to its begin. Of a line of over 80 characters the rest is a line of its own. */
int read_line(char *line, int *length) {
    int c = getchar();
    *length = 0;
    while (c >= 0 && c != '\n') {
        line[(*length)++] = c;
        if (*length == 80) return 1;
        c = getchar();
    }
    return c >= 0 || *length > 0;
}

void reverse(char *from, char *to) {
    char c;
    while (from < to) {
        c = *from;
        *from++ = *--to;
        *to = c;
    }
}

int main() {
    char line[81];
    int length, n;
    while (read_line(line, &length)) {
        reverse(line, line + length);
        for (n = 0; n < length; n++) putchar(line[n]);
        putchar('\n');
    }
    return 0;
}
