using System; class P { class Counter { int n; public void Add(int k) { n += k; } public int Twice() { return n * 2; } }
 static void Main() { Counter c = new Counter(); c.Add(3); Console.WriteLine(c.Twice()); } }
