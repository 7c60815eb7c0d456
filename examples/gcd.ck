// The greatest common divisor of two numbers that aren't negative, by Euclid: gcd(a, 0) = a, gcd(a, b) = gcd(b, a mod b).
// Two Fibonacci numbers that follow each other take the most steps; the last row has the greatest two that fit.
//
//   a b                                       outcome
//   0 0                                       value 0
//   0 5                                       value 5
//   48 18                                     value 6
//   18 48                                     value 6
//   1071 462                                  value 21
//   17 5                                      value 1
//   7540113804746346429 4660046610375530309   value 1
thread main(k, a, b) {
  if b == 0 { send_argument(k, a); }
  else { spawn_next main(k, b, a % b); }
}
