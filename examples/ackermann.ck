// The function of Ackermann and Peter: A(0, n) = n + 1, A(m, 0) = A(m - 1, 1), A(m, n) = A(m - 1, A(m, n - 1)).
// So A(1, n) = n + 2, A(2, n) = 2n + 3 and A(3, n) = 2^(n + 3) - 3. Each call is a task a step below the one that spawned it:
// A(1, n) goes n + 1 steps down, A(2, n) 2n + 3 and A(3, n) 2^(n + 3) - 2. A run is too deep past 1,024 steps.
//
//   m n      outcome
//   0 0      value 1
//   0 41     value 42
//   1 5      value 7
//   2 3      value 9
//   3 3      value 61
//   3 4      value 125
//   3 7      value 1021
//   2 510    value 1023
//   2 511    too deep
//   1 1023   value 1025
//   1 1024   too deep
thread main(k, m, n) {
  if m == 0 { send_argument(k, n + 1); }
  else {
    if n == 0 { spawn_next main(k, m - 1, 1); }
    else { spawn_next main(k, m - 1, ?inner); spawn main(inner, m, n - 1); }
  }
}
