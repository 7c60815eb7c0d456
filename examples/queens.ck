// The number of ways to put n queens on a board of n by n squares so that no queen attacks another.
// It goes down row by row. Bit i of `columns`, `left` and `right` says that column i of the row is attacked along its
// column or along a diagonal. All free columns of a row are tried side by side.
//
//   input   outcome
//   0       value 1
//   1       value 1
//   2       value 0
//   3       value 0
//   4       value 2
//   5       value 10
//   6       value 4
//   7       value 40
//   8       value 92
thread main(k, n) { spawn_next row(k, (1 << n) - 1, 0, 0, 0); }

// the ways to fill the rows from this one on
thread row(k, all, columns, left, right) {
  let free = all ^ (all & (columns | left | right));
  if columns == all { send_argument(k, 1); }
  else { spawn_next square(k, all, columns, left, right, free); }
}

// the ways with the queen of this row in one of the columns of `free`: in the lowest of them, or in another
thread square(k, all, columns, left, right, free) {
  let queen = free & (0 - free);
  if free == 0 { send_argument(k, 0); }
  else {
    spawn_next sum(k, ?lowest, ?others);
    spawn row(lowest, all, columns | queen, (left | queen) << 1, (right | queen) >> 1);
    spawn square(others, all, columns, left, right, free - queen);
  }
}

thread sum(k, x, y) { send_argument(k, x + y); }
