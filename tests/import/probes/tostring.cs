using System; class P { static void Main() { int n = 42; Console.WriteLine(n.ToString()); } }
