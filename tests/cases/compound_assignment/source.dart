f() { print('f'); return 0; }
main() { var a = [1]; a[f()] += 1; print(a); }
