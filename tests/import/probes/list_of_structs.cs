using System; using System.Collections.Generic; struct Point { public int x; public Point(int x) { this.x = x; } }
class P { static void Main() { List<Point> l = new List<Point>(); for (int i = 0; i < 6; i++) l.Add(new Point(i)); Point p = l[2]; p.x = 99; int sum = 0; foreach (Point q in l) sum += q.x; Console.WriteLine(sum); Console.WriteLine(p.x); } }
