/* The question of revoke_against_send.toml in tests/answers/explorations, from behind its first two calls on: a client
   has a badged capability in one slot and a copy of it in another, and the server takes back both. */
#define THREADS 2
#define ENDPOINTS 1
#include "endpoints.pml"

#define SERVER 0
#define CLIENT 1
#define LABEL  2

bool given = true;  /* the slot that the server filled has the capability */
bool copied = true; /* and so has the one that the client filled */

active proctype server() {
  d_step { state[SERVER] == READY; copied = false };  /* revoke */
  d_step { state[SERVER] == READY; given = false };   /* delete */
  d_step {                                            /* nbrecv */
    state[SERVER] == READY;
    if
    :: state[CLIENT] == SENDING ->
      waiting[0] ? other;
      inbox[SERVER] = offered[CLIENT];
      offered[CLIENT] = 0;
      state[CLIENT] = READY
    :: else
    fi
  };
end: false
}

active proctype client() {
  state[CLIENT] == READY;                             /* nbsend by the first: nobody waits, so nothing is sent */
  d_step {                                            /* send by the copy: refused where it is gone */
    state[CLIENT] == READY;
    if
    :: copied ->
      state[CLIENT] = SENDING;
      offered[CLIENT] = LABEL;
      waiting[0] ! CLIENT
    :: else
    fi
  };
end: false
}
