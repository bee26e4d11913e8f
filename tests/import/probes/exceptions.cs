using System; class P { static void Main() { try { throw new Exception("bad"); } catch (Exception) { Console.WriteLine(1); } } }
