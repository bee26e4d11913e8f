using System; class P { static int twice = Base.Value * 2; static void Main() { Console.WriteLine(twice); } } class Base { static int value = 21; public static int Value { get { return value; } } }
