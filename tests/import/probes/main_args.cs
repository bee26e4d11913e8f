using System; class P { static int Main(string[] args) { Console.WriteLine(args.Length); return 3; } }
