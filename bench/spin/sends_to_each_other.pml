/* The question of sends_to_each_other.toml in tests/answers/explorations: two threads send to each other before they
   receive. */
#define THREADS   2
#define ENDPOINTS 2
#include "endpoints.pml"

active proctype client_0() {
  send(0, 0, 1, true);
  recv(0, 1);
end: false
}

active proctype client_1() {
  send(1, 1, 2, true);
  recv(1, 0);
end: false
}
