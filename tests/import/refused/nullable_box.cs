using System; class P { static void Main() { int? a = null; object o = a; if (o == null) Console.WriteLine(1); } }
