// A hot reload host: a task starts with a method, and makes some steps. Then the next delta of a folder is applied, in
// the order of the numbers in their names (delta2 before delta10) and as they appear, and the task goes on, until it
// ends. A delta that is refused waits, since it may have come before the one that it follows: it is tried again behind
// each that is applied. Those that still wait at the end are told then.
// Usage: HotReloadHost.exe BASE METHOD FOLDER [STEPS], such as: bank Bank.Main deltas 20
using System;
using System.Collections.Generic;
using System.IO;
using System.Linq;
using System.Text.RegularExpressions;
using Enc;

sealed class HotReloadHost : IDisposable
{
    readonly EncModule module;    // for names
    readonly EncSession session;  // runs
    readonly string folder;
    readonly HashSet<string> seen = new HashSet<string>();
    readonly Dictionary<string, EncRefusal> waiting = new Dictionary<string, EncRefusal>();  // by their files

    HotReloadHost(string name, string folder)
    {
        module = EncModule.Load(name);
        session = EncSession.Load(name);
        session.KeepsEvents = false;
        this.folder = folder;
    }

    // The next delta that nobody has seen; null where there is none.
    string Next()
    {
        IEnumerable<string> left = Directory.GetFiles(folder, "*.meta").Where(f => !seen.Contains(f));
        string next = InOrder(left).FirstOrDefault();
        if (next != null) seen.Add(next);
        return next;
    }

    // Files by their names, in which numbers are compared as numbers.
    static IEnumerable<string> InOrder(IEnumerable<string> files)
    {
        return files.OrderBy(f => Regex.Replace(Path.GetFileName(f), "[0-9]+", number => number.Value.PadLeft(20, '0')),
                             StringComparer.Ordinal);
    }

    // The next delta is applied, and behind it those that wait for it.
    void Apply(string file)
    {
        if (!Applied(file)) return;
        while (InOrder(waiting.Keys).Any(Applied)) { }
    }

    // Applies a delta, or else it waits. It is judged twice, for the machine and for the names: both say the same.
    bool Applied(string file)
    {
        EncDelta delta = EncDelta.Load(Path.ChangeExtension(file, null));
        if (!session.TryApply(delta, out EncRefusal refusal))
        {
            waiting[file] = refusal;
            return false;
        }
        waiting.Remove(file);
        module.Apply(delta);
        Console.WriteLine("applied {0} generation {1}", Path.GetFileNameWithoutExtension(file), module.Generations - 1);
        return true;
    }

    // What still waits, once.
    void TellWaiting()
    {
        foreach (string file in InOrder(waiting.Keys))
            Console.WriteLine("refused {0} {1}: {2}", Path.GetFileNameWithoutExtension(file), waiting[file],
                              waiting[file].Words);
    }

    // Each frame of a task: its method, the generation of its body, where it stands.
    void Tell(uint task)
    {
        foreach (EncFrame frame in session.Frames(task))
            Console.WriteLine("  {0} generation {1} IL_{2:x4} line {3}", module.Name(frame.Method), frame.Generation,
                              frame.Offset, frame.Line);
    }

    void Run(string method, uint steps)
    {
        uint task = session.Spawn(module.Find(method));
        while (true)
        {
            EncStepped now = session.Step(task, steps);
            Console.Write(session.Output());
            Console.WriteLine("{0} after {1} steps", now, now.Ran);
            if (now.State != EncTaskState.Running) return;
            Tell(task);
            string delta = Next();
            if (delta != null) Apply(delta);
        }
    }

    public void Dispose()
    {
        session.Dispose();
        module.Dispose();
    }

    static int Main(string[] words)
    {
        try
        {
            using (var host = new HotReloadHost(words[0], words[2]))
            {
                host.Run(words[1], words.Length > 3 ? uint.Parse(words[3]) : 20);
                host.TellWaiting();
            }
            return 0;
        }
        catch (EncRefusedException refused)
        {
            Console.WriteLine("refused " + refused.Message);
            return 1;
        }
    }
}
