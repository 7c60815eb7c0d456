// The Fibonacci numbers, as in the Cilk papers: fib(0) = 0, fib(1) = 1, fib(n) = fib(n - 1) + fib(n - 2).
// A number below 2 is its own answer, so a negative input gives itself.
//
//   input   outcome
//   0       value 0
//   1       value 1
//   2       value 1
//   10      value 55
//   20      value 6765
//   -3      value -3
thread main(k, n) {
  if n < 2 { send_argument(k, n); }
  else { spawn_next sum(k, ?x, ?y); spawn main(x, n - 1); spawn main(y, n - 2); }
}
thread sum(k, x, y) { send_argument(k, x + y); }
