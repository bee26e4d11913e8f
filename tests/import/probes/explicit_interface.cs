using System; interface ILeft { int Get(); } interface IRight { int Get(); } class Both : ILeft, IRight { int ILeft.Get() { return 1; } public int Get() { return 2; } }
class P { static void Main() { Both b = new Both(); Console.WriteLine(((ILeft)b).Get()); Console.WriteLine(((IRight)b).Get()); Console.WriteLine(b.Get()); } }
