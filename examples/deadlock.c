/* Two threads take two locks, each in its own order. Where each has taken its first one, both wait for ever. */
lock left;
lock right;
shared(left) int a;
shared(right) int b;

void rising(int me) {
    lock(left);
    lock(right);
    a += 1;
    b += 1;
    unlock(right);
    unlock(left);
    print(me);
}

void falling(int me) {
    lock(right);
    lock(left);
    a -= 1;
    b -= 1;
    unlock(left);
    unlock(right);
    print(me);
}
