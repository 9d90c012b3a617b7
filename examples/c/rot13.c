// Copies the input with each letter turned 13 places on: a loop over the input that ends with it, and a function of chars.
#include <stdio.h>

char turned(char c, char first)
{
    return first + (c - first + 13) % 26;
}

int main(void)
{
    int c;
    // the built-in getchar gives -1 at the end and for a zero byte
    while ((c = getchar()) != EOF) {
        if (c >= 'a' && c <= 'z')
            putchar(turned(c, 'a'));
        else if (c >= 'A' && c <= 'Z')
            putchar(turned(c, 'A'));
        else
            putchar(c);
    }
    return 0;
}
