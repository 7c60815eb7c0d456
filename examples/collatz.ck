// The steps of Collatz's sequence from n to 1: an even number is halved, an odd one becomes three times itself and 1. Each
// step is a successor, so a start with more than 1,023 steps is too deep: of those below 10^9 none is (670617279 has the
// most steps, 986), and below 10^10 the first is 9780657630, with 1,132 steps.
//
//   n            outcome
//   1            value 0
//   2            value 1
//   3            value 7
//   27           value 111
//   97           value 118
//   871          value 178
//   6171         value 261
//   837799       value 524
//   63728127     value 949
//   670617279    value 986
//   9780657630   too deep
thread main(k, n) { spawn_next steps(k, n, 0); }

thread steps(k, n, count) {
  if n < 2 { send_argument(k, count); }
  else {
    if n % 2 { spawn_next steps(k, 3 * n + 1, count + 1); }
    else { spawn_next steps(k, n / 2, count + 1); }
  }
}
