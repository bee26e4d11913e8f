using System; class P { static void Main() { int[,,] a = new int[3,3,3]; Console.WriteLine("caf\u00e9"); } }
