// Reads sums like 2*(3+4)-1, a line each, and writes what they come to: recursive descent, switch, and undefined acts avoided.
#include <stdio.h>

int next;
int failed;

void advance(void)
{
    do
        next = getchar();
    while (next == ' ');
}

int sum(void);

int factor(void)
{
    int value = 0;
    switch (next) {
    case '-':
        advance();
        return -factor();
    case '(':
        advance();
        value = sum();
        if (next == ')')
            advance();
        else
            failed = 1;
        return value;
    default:
        if (next < '0' || next > '9') {
            failed = 1;
            return 0;
        }
    }
    while (next >= '0' && next <= '9') {
        value = value * 10 + (next - '0');
        advance();
    }
    return value;
}

int quotient(int value, int by)
{
    if (by)
        return value / by;
    failed = 1;
    return 0;
}

int product(void)
{
    int value = factor();
    while (1) {
        switch (next) {
        case '*':
            advance();
            value *= factor();
            break;
        case '/':
            advance();
            value = quotient(value, factor());
            break;
        default:
            return value;
        }
    }
    return value;
}

int sum(void)
{
    int value = product();
    while (next == '+' || next == '-') {
        int minus = next == '-', other;
        advance();
        other = product();
        value = minus ? value - other : value + other;
    }
    return value;
}

int main(void)
{
    advance();
    while (next != EOF) {
        int value;
        failed = 0;
        value = sum();
        if (next != '\n' && next != EOF)
            failed = 1;
        while (next != '\n' && next != EOF)
            advance();
        if (failed)
            puts("?");
        else
            printf("%d\n", value);
        if (next == '\n')
            advance();
    }
    return 0;
}
