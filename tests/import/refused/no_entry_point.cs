class P { static int F(int x) { return x; } }
