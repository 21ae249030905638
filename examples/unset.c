int larger(int x, int y) {
    int result;
    if (x < y)
        result = y;
    if (x > y)
        result = x;
    return result;
}
