// A module as it was published: what was in the way, and the first line of a method. Prepared.exe FILE METHOD
using System;
using System.IO;
using Enc;
static class Prepared
{
    static void Main(string[] words)
    {
        EncPrepared made = EncPrepare.Prepare(File.ReadAllBytes(words[0]));
        foreach (string line in made.Done) Console.WriteLine(line);
        using (EncModule module = EncModule.Open(made.Module, made.Pdb))
            Console.WriteLine("line " + module.Points(module.Find(words[1]))[0].StartLine);
    }
}
