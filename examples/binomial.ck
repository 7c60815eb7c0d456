// The binomial coefficients by Pascal's rule: C(n, m) = C(n - 1, m - 1) + C(n - 1, m), with C(n, 0) = C(n, n) = 1, and 0
// where m is below 0 or above n. The count n isn't negative.
//
//   n m     outcome
//   0 0     value 1
//   4 2     value 6
//   5 2     value 10
//   10 3    value 120
//   10 10   value 1
//   3 4     value 0
//   3 -1    value 0
//   49 1    value 49
//   12 6    value 924
//   13 5    value 1287
thread main(k, n, m) {
  if m < 0 | n < m { send_argument(k, 0); }
  else {
    if m == 0 | m == n { send_argument(k, 1); }
    else { spawn_next sum(k, ?x, ?y); spawn main(x, n - 1, m - 1); spawn main(y, n - 1, m); }
  }
}
thread sum(k, x, y) { send_argument(k, x + y); }
