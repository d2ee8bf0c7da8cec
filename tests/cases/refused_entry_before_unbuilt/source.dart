main(a) { while (true) {} }
