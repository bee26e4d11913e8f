using System; class P { static void Main() { double d = 2.5; Console.WriteLine(d * 2); } }
