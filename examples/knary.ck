// The tree of the Cilk papers' test program knary: n levels, in which each node above the last level has b kids. The first
// r kids of a node run one after another, and the others side by side. The outcome is the count of the nodes, which is
// 1 + b + .. + b^(n - 1) whatever r is: (b^n - 1) / (b - 1), or n where b is 1.
//
//   n b r   outcome
//   0 5 2   value 0
//   1 5 2   value 1
//   6 1 0   value 6
//   6 1 1   value 6
//   4 3 0   value 40
//   4 3 1   value 40
//   4 3 3   value 40
//   5 4 2   value 341
//   4 8 0   value 585
//   10 2 1  value 1023
thread main(k, n, b, r) {
  if n < 1 { send_argument(k, 0); }
  else { spawn_next one_by_one(k, n, b, r, 0, 1, 0); }
}

// `done` kids have run; the nodes so far are `count` and those of the last kid
thread one_by_one(k, n, b, r, done, count, last) {
  if done < r & done < b {
    spawn_next one_by_one(k, n, b, r, done + 1, count + last, ?nodes);
    spawn main(nodes, n - 1, b, r);
  } else {
    spawn_next sum(k, count + last, ?nodes);
    spawn side_by_side(nodes, n, b, r, b - done);
  }
}

// the nodes of so many kids
thread side_by_side(k, n, b, r, kids) {
  if kids < 1 { send_argument(k, 0); }
  else {
    spawn_next sum(k, ?first, ?others);
    spawn main(first, n - 1, b, r);
    spawn side_by_side(others, n, b, r, kids - 1);
  }
}

thread sum(k, x, y) { send_argument(k, x + y); }
