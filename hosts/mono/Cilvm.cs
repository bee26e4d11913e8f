// The class Cilvm.Thread for Mono, so that sources for cilvm that start threads, and programs in C# with threads
// of this class, run there too (docs/PROFILE.md, "On Mono"; docs/FROM_CSHARP.md).
using System;
using System.Threading;
using Host = System.Threading.Thread;

namespace Cilvm
{
    public class Thread
    {
        Host host; // made by Start: a constructor of a derived class need not call this class's own

        public virtual void Run() { }

        public void Start()
        {
            var made = new Host(RunToItsEnd);
            if (Interlocked.CompareExchange(ref host, made, null) != null) throw new ThreadStateException();
            made.Start();
        }

        public void Join()
        {
            if (host == null) throw new ThreadStateException();
            host.Join();
        }

        // A fault ends its own thread alone, as in cilvm.
        void RunToItsEnd()
        {
            try { Run(); } catch (Exception fault) { Console.Error.WriteLine(fault.GetType().FullName); }
        }
    }
}
