using System; struct V { public int x, y; public int Sum() { return x + y; } } class P { V kept; static V Moved(V v) { v.x += 100; return v; }
 static void Main() { V a = new V(); a.x = 1; V b = a; b.y = 5; V c = Moved(a); Console.WriteLine(a.Sum()); Console.WriteLine(b.Sum()); Console.WriteLine(c.Sum());
 V[] d = new V[2]; d[1] = b; d[1].x = 9; Console.WriteLine(b.x); Console.WriteLine(d[1].Sum()); P p = new P(); p.kept = b; Console.WriteLine(p.kept.Sum()); } }
