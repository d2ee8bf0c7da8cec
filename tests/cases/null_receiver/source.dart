class A {}
main() { print(null == A()); print(null.foo()); }
