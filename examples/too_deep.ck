// A chain of n successors, of which the last sends 7. A task stands at most 1,024 steps below the root, so the chain of 1,024
// is the longest that ends with a value.
//
//   input   outcome
//   -1      value 7
//   0       value 7
//   1024    value 7
//   1025    too deep
//   9000    too deep
thread main(k, n) {
  if n < 1 { send_argument(k, 7); }
  else { spawn_next main(k, n - 1); }
}
