// One class.
class A {
	@override
  void m() => 0x7; /* seven */
}
@pragma('vm:entry-point')
main() {
  print(A().m(),);
}
