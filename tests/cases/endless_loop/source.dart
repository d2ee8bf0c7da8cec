main() { while (true) { print(1); } }
