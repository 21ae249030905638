/* Two loops that both start at constants: one counts up, the other down. */
int up(int n) {
    int s = 0;
    for (int i = 0; i < n; i++)
        s += 4;
    return s;
}

int down(int n) {
    int s = 0;
    int left = n;
    while (left > 0) {
        s += 4;
        left--;
    }
    return s;
}
