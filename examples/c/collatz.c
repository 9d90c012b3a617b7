// Counts how often numbers are halved, or tripled with 1 added where they are odd, until they are 1: what was counted is kept in an
// array at file scope, and so each run ends where it meets one that is known.
#include <stdio.h>

#define MOST 10

unsigned char counted[MOST + 1];

int next(int n)
{
    int half = n / 2;
    return half + half == n ? half : 3 * n + 1;
}

int turns(int n)
{
    int turned = 0, m = n;
    while (m != 1) {
        if (m < n)
            return turned + counted[m];
        m = next(m);
        turned++;
    }
    return turned;
}

int main(void)
{
    int n, longest = 1;
    for (n = 1; n <= MOST; n++) {
        counted[n] = turns(n);
        printf("%d: %d\n", n, counted[n]);
        if (counted[n] > counted[longest])
            longest = n;
    }
    printf("%d takes %d turns\n", longest, counted[longest]);
    return 0;
}
