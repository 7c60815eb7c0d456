thread main(k, n) { let m = n + 1; spawn_next main(k, ?x); spawn main(x, m, z); }
