using System; class P { static void Main() { int n = 5; Func<int, int> f = k => k * n; Console.WriteLine(f(3)); n = 7; Console.WriteLine(f(3)); } }
