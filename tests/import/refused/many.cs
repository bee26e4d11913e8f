using System; using System.Threading; class P {
 static void Strings(string s) { Console.WriteLine(s + "!"); Console.WriteLine(s.ToUpper()); Console.WriteLine(string.Format("{0}", 1)); }
 static void Input() { Console.WriteLine(int.Parse(Console.ReadLine())); Console.WriteLine(Environment.TickCount); }
 static void Failing() { try { throw new InvalidOperationException(); } catch (InvalidOperationException) { } }
 static void Numbers() { Console.WriteLine((int)Math.Sqrt(2)); Console.WriteLine(new Random().Next(6)); }
 static void Tasks() { Thread.CurrentThread.IsBackground = true; new object().GetType(); }
 static void Main() { Strings("a"); Input(); Failing(); Numbers(); Tasks(); } }
