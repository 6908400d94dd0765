void w(int me) { print(40 + 1); }
