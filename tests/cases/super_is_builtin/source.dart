class A extends int {}
main() {}
