using System; class Stack<T> { T[] items = new T[8]; int count; public void Push(T item) { items[count++] = item; } public T Pop() { return items[--count]; } }
class P { static void Main() { Stack<int> s = new Stack<int>(); s.Push(4); s.Push(5); Console.WriteLine(s.Pop() - s.Pop()); Stack<string> t = new Stack<string>(); t.Push("top"); Console.WriteLine(t.Pop()); } }
