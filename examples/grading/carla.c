#include <stdio.h>

int student(int n) {
    int sum;
    while (n > 0) {
        sum = sum + n;
        n--;
    }
    return sum;
}
