main() { var s = '😀'; print(s.length); print(s[0]); print(s[0] + s[1]); }
