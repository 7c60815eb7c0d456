// f(n) = n up to 2, and above f(n - 1) + n * n + f(n - 2): f(3) = 12, f(4) = 30, f(5) = 67, f(6) = 133.
thread main(k, n) {
  let is_low = n < 2 | n == 2;
  if is_low { send_argument(k, n); }
  else {
    let less = n - 1;
    spawn_next sum(k, ?x, ?square, 0, ?y);
    spawn main(y, less - 1);
    send_argument(square, n * n);
    spawn main(x, less);
  }
}
thread sum(k, x, square, zero, y) {
  let kids = x + (y - zero);
  send_argument(k, kids + square);
}
