using System; class Age : IComparable<Age> { public int n; public Age(int n) { this.n = n; } public int CompareTo(Age other) { return n - other.n; } }
class P { static T Greater<T>(T a, T b) where T : IComparable<T> { return a.CompareTo(b) > 0 ? a : b; } static void Main() { Console.WriteLine(Greater(new Age(30), new Age(40)).n); } }
