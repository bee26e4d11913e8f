using System; class P { static void Main() { byte b = 250; b += 10; Console.WriteLine(b); byte[] a = new byte[2]; a[1]--; Console.WriteLine(a[1]);
 short s = 32767; s++; Console.WriteLine(s); sbyte t = (sbyte)(b + 125); Console.WriteLine(t); } }
