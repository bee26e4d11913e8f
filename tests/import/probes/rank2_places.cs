using System; struct Cell { public int n; public int Twice() { return n * 2; } } class P { static void Main() { int[,] a = new int[2,3]; a[1,2] += 7; Console.WriteLine(a[1,2]); Console.WriteLine(a.GetLength(1)); Console.WriteLine(a.Length);
 Cell[,] c = new Cell[2,2]; c[1,1].n = 21; Console.WriteLine(c[1,1].Twice()); } }
