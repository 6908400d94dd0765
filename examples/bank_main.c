/* The tellers of the bank: each moves money ten times, and then prints what it moved and the total. */
extern lock east;
extern lock west;
int transfer(int from, int to, int amount);
int total(void) holds(east, west);

/* A thread. Each teller takes from the account of its own number, in turns of four. */
void teller(int me) {
    int i;
    int part;
    int moved = 0;
    int sum;
    for (i = 0; i < 10; i++) {
        part = transfer(me % 4, i % 4, 15);
        moved += part;
    }
    lock(east);
    lock(west);
    sum = total();
    unlock(west);
    unlock(east);
    print(moved);
    print(sum);
}
