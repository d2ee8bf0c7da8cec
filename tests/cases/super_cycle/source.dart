class A extends B {}
class B implements A {}
