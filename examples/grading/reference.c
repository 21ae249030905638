/* 1 + 2 + .. + n, and 0 where n is not positive */
int reference(int n) {
    if (n <= 0)
        return 0;
    return n + reference(n - 1);
}
