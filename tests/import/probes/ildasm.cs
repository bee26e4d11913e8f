class Count { class Step { public int width = 2; }
 static void Main() { Step step = new Step(); for (int i = 0; i < 9; i += step.width) System.Console.WriteLine(i); } }
