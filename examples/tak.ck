// Takeuchi's function in the form that Gabriel's benchmarks made known: tak(x, y, z) is z where x is at most y, and else
// tak of tak(x - 1, y, z), tak(y - 1, z, x) and tak(z - 1, x, y). The three inner calls run side by side, and the outer
// one is their successor: 63,609 turns for 18 12 6.
//
//   x y z     outcome
//   1 2 3     value 3
//   0 0 -5    value -5
//   1 0 0     value 0
//   2 1 0     value 1
//   18 12 6   value 7
thread main(k, x, y, z) {
  if x <= y { send_argument(k, z); }
  else {
    spawn_next main(k, ?a, ?b, ?c);
    spawn main(a, x - 1, y, z);
    spawn main(b, y - 1, z, x);
    spawn main(c, z - 1, x, y);
  }
}
