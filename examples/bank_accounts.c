/* The accounts of a bank with two offices, each behind a lock of its own. */
/* Whoever needs both locks takes `east` first: with one order for all no thread waits for ever. */
lock east;
lock west;
shared(east) int east_money[4] = { 100, 100, 100, 100 };
shared(west) int west_money[4] = { 100, 100, 100, 100 };

/* Moves an amount from an account in the east to one in the west, where there is enough. */
/* Returns what was moved. */
int transfer(int from, int to, int amount) {
    int moved = 0;
    lock(east);
    lock(west);
    if (east_money[from] >= amount) {
        east_money[from] -= amount;
        west_money[to] += amount;
        moved = amount;
    }
    unlock(west);
    unlock(east);
    return moved;
}

/* The money in all accounts. The caller holds both locks, so none is moved meanwhile. */
int total(void) holds(east, west) {
    int i;
    int sum = 0;
    for (i = 0; i < 4; i++) {
        sum += east_money[i] + west_money[i];
    }
    return sum;
}
