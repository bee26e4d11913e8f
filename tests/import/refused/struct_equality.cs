using System; struct V { public int x; } class P { static void Main() { V v = new V(); Console.WriteLine(v.Equals(v)); } }
