using System; class P { int field; static int shared; static void Add(ref int place, int k) { place += k; }
 static void Main() { P p = new P(); int[] a = new int[3]; Add(ref p.field, 5); Add(ref a[2], 6); Add(ref shared, 7); Console.WriteLine(p.field); Console.WriteLine(a[2]); Console.WriteLine(shared); } }
