using System;
using System.Threading;

class Race {
    static int seen;

    static void Count() { for (int i = 0; i < 100; i++) seen++; }

    static void Main() {
        Thread a = new Thread(Count), b = new Thread(Count);
        a.Start(); b.Start(); a.Join(); b.Join();
        Console.WriteLine(seen);
    }
}
