// A profiler that names methods by their tokens, after deltas: each method's token, its name, the place where it
// stands now, how long its code is, and its lines. Usage: Profiler.exe BASE [DELTA ..], names without endings.
using System;
using System.IO;
using System.Linq;
using Enc;

static class Profiler
{
    // The document and the first and the last line of a method's visible points.
    static string Lines(EncPoint[] points)
    {
        EncPoint[] seen = points.Where(point => !point.IsHidden).ToArray();
        if (seen.Length == 0) return "-";
        string document = Path.GetFileName(seen[0].Document);
        return document + ":" + seen.Min(point => point.StartLine) + "-" + seen.Max(point => point.EndLine);
    }

    static int Main(string[] names)
    {
        try
        {
            using (EncModule module = EncModule.Load(names[0]))
            {
                foreach (string delta in names.Skip(1)) module.Apply(EncDelta.Load(delta));
                foreach (uint method in module.Rows(0x06))
                    Console.WriteLine("{0:x8} {1} @{2} {3} bytes {4}", method, module.Name(method),
                                      module.Locate(method), module.Body(method)?.Code.Length ?? 0,
                                      Lines(module.Points(method)));
            }
            return 0;
        }
        catch (EncRefusedException refused)
        {
            Console.WriteLine("refused " + refused.Message);
            return 1;
        }
    }
}
