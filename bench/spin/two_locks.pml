/* The question of two_locks.toml in tests/answers/explorations. A lock is a thread that hands out a token and takes it
   back, twice: lock 0 by the endpoints 0 and 1, lock 1 by 2 and 3. Two clients take both locks, in opposite order. */
#define THREADS   4
#define ENDPOINTS 4
#include "endpoints.pml"

#define TOKEN_0 1
#define TOKEN_1 2
#define BACK    3

active proctype lock_0() {
  send(0, 0, TOKEN_0, true);
  recv(0, 1);
  send(0, 0, TOKEN_0, true);
  recv(0, 1);
end: false
}

active proctype lock_1() {
  send(1, 2, TOKEN_1, true);
  recv(1, 3);
  send(1, 2, TOKEN_1, true);
  recv(1, 3);
end: false
}

active proctype client_0() {
  recv(2, 0);
  recv(2, 2);
  send(2, 3, BACK, true);
  send(2, 1, BACK, true);
end: false
}

active proctype client_1() {
  recv(3, 2);
  recv(3, 0);
  send(3, 1, BACK, true);
  send(3, 3, BACK, true);
end: false
}
