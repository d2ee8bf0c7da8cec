// A trap, the end of the turns and a stack that is too deep end the entry; its lines so far stay.
main() { print('one'); print('two'); [][0]; print('three'); }
@pragma('vm:entry-point')
deep() { print('deep'); deep(); }
@pragma('vm:entry-point')
endless() { print('endless'); while (true) {} }
