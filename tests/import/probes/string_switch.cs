using System; class P { static int Code(string s) { switch (s) { case "add": return 1; case "mul": return 2; default: return 0; } }
 static void Main() { Console.WriteLine(Code("mul")); Console.WriteLine(Code("sub")); } }
