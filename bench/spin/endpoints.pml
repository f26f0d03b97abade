/* Threads that send to endpoints and receive from them, as seL4 has it: as much of it as questions about messages need.
   Before it includes this file a model says how many THREADS and ENDPOINTS it has; each process makes the calls of one
   thread, and stays at its `end` behind them. A call is one step, and is made while its thread is ready. */
#define READY     0
#define SENDING   1
#define RECEIVING 2

byte state[THREADS];       /* what each thread does */
byte offered[THREADS];     /* the label that a waiting sender offers */
byte inbox[THREADS];       /* the label that was delivered to it last */
byte receivers[ENDPOINTS]; /* of those that wait on an endpoint, how many receive: all of them, or none */
chan waiting[ENDPOINTS] = [THREADS] of { byte };
hidden byte other;

inline send(me, endpoint, label, waits) {
  d_step {
    state[me] == READY;
    if
    :: receivers[endpoint] > 0 ->
      waiting[endpoint] ? other;
      receivers[endpoint]--;
      state[other] = READY;
      inbox[other] = label
    :: receivers[endpoint] == 0 && waits ->
      state[me] = SENDING;
      offered[me] = label;
      waiting[endpoint] ! me
    :: else
    fi
  }
}

inline recv(me, endpoint) {
  d_step {
    state[me] == READY;
    if
    :: receivers[endpoint] == 0 && len(waiting[endpoint]) > 0 ->
      waiting[endpoint] ? other;
      state[other] = READY;
      inbox[me] = offered[other];
      offered[other] = 0
    :: else ->
      state[me] = RECEIVING;
      receivers[endpoint]++;
      waiting[endpoint] ! me
    fi
  }
}
