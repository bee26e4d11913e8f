using System; delegate int Operation(int a, int b); class P { int scale; static int Minus(int a, int b) { return a - b; } int Scaled(int a, int b) { return (a + b) * scale; }
 static void Main() { Operation o = new Operation(Minus); Console.WriteLine(o(7, 2)); P p = new P(); p.scale = 10; o = new Operation(p.Scaled); Console.WriteLine(o(7, 2)); } }
