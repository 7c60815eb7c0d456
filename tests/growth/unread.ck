thread main(k, n) { let m = (n + 1) * (n - 1); send_argument(k, m) }
