#include <stdio.h>

/* the student's loop, and the recursion that it should equal */
int up(int n) {
    int s = 0;
    for (int i = 1; i <= n; i++)
        s += i;
    return s;
}

int rec(int n) {
    if (n <= 0)
        return 0;
    return n + rec(n - 1);
}
