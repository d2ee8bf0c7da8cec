main() {
  break;
}
