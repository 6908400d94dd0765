/* Seats are looked at before their lock is taken, while another thread may be taking one. */
lock door;
shared(door) int seats = 3;

void guest(int me) {
    if (seats > 0) {
        lock(door);
        seats -= 1;
        print(seats);
        unlock(door);
    }
}
