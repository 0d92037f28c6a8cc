// Tests of EncPrepare.cs, which ./test compiles with it and Enc.cs and runs where mono is.
// PrepareTests.exe prepare FILE ..  prepares each file, saves it as FILE.made.dll and FILE.made.pdb, and prints what
//                                   was done or why not, as python3 -m enc prepare does
// PrepareTests.exe calls FOLDER     prepares files made of the examples in a folder; the last line says how many
using System;
using System.Collections.Generic;
using System.IO;
using System.IO.Compression;
using System.Linq;
using Enc;

// An image that is made of bank.dll: what is put into it stands behind its last section, which gets longer.
sealed class Made
{
    public const int Cli = 0x208, Debug = 0xF8 + 6 * 8;
    public readonly List<byte> Data;
    readonly int section;
    public int Entries;

    public Made(byte[] bank)
    {
        Data = bank.ToList();
        section = 0x178 + 40 * 2;
    }

    public uint U32(int at)
    {
        return BitConverter.ToUInt32(Data.GetRange(at, 4).ToArray(), 0);
    }

    public Made Put(int at, params uint[] numbers)
    {
        foreach (byte b in numbers.SelectMany(BitConverter.GetBytes)) Data[at++] = b;
        return this;
    }

    // Adds bytes to the last section, and tells where they stand in the file.
    int Append(IEnumerable<byte> part)
    {
        int at = Data.Count;
        Data.AddRange(part);
        Put(section + 16, U32(section + 16) + (uint)(Data.Count - at));
        return at;
    }

    uint Rva(int at)
    {
        return U32(section + 12) + (uint)at - U32(section + 20);
    }

    // Debug entries of these kinds; an embedded PDB is that of a blob.
    public Made Debugged(byte[] blob, params uint[] kinds)
    {
        var entries = new List<byte>();
        foreach (uint kind in kinds)
        {
            int at = Append(blob);
            var numbers = new uint[] { 0, 0, 0x01000100, kind, (uint)blob.Length, Rva(at), (uint)at };
            entries.AddRange(numbers.SelectMany(BitConverter.GetBytes));
        }
        Entries = Append(entries);
        return Put(Debug, Rva(Entries), (uint)entries.Count);
    }

    // A native header with a signature, and flags of the CLI header.
    public Made Native(uint signature, uint flags, uint own = 3)
    {
        int at = Append(new uint[] { signature, 0x00020009, own, 0 }.SelectMany(BitConverter.GetBytes));
        return Put(Cli + 16, flags).Put(Cli + 64, Rva(at), 16);
    }

    public byte[] Bytes => Data.ToArray();
}

sealed class Prepares
{
    const uint readyToRun = 0x00525452;
    readonly string folder;
    readonly byte[] bank, pdb;
    int asked, wrong;

    public Prepares(string folder)
    {
        this.folder = folder + "/";
        bank = File.ReadAllBytes(this.folder + "bank.dll");
        pdb = File.ReadAllBytes(this.folder + "bank.pdb");
    }

    Made New => new Made(bank);

    void Is(string what, object got, object wanted)
    {
        asked++;
        if (Equals(got, wanted)) return;
        wrong++;
        Console.WriteLine(what + ": " + (got ?? "null") + ", not " + (wanted ?? "null"));
    }

    void Says(string wanted, Made made)
    {
        Says(wanted, made.Bytes);
    }

    void Says(string wanted, byte[] data)
    {
        string told = "nothing";
        try { EncPrepare.Prepare(data); }
        catch (EncPrepareException e) { told = e.Message; }
        Is("what an exception says", told.Contains(wanted) ? wanted : told, wanted);
    }

    static byte[] Blob(byte[] pdb, uint? stated = null, string magic = "MPDB", byte[] stream = null)
    {
        var packed = new MemoryStream();
        using (var deflate = new DeflateStream(packed, CompressionMode.Compress, true))
            deflate.Write(pdb, 0, pdb.Length);
        byte[] size = BitConverter.GetBytes(stated ?? (uint)pdb.Length);
        return magic.Select(sign => (byte)sign).Concat(size).Concat(stream ?? packed.ToArray()).ToArray();
    }

    // All rows and points of a module behind both deltas.
    string Facts(byte[] image, byte[] symbols)
    {
        using (EncModule module = EncModule.Open(image, symbols))
        {
            module.Apply(EncDelta.Load(folder + "bank1"));
            module.Apply(EncDelta.Load(folder + "bank2"));
            var rows = Enumerable.Range(0, 0x2D).SelectMany(table => module.Rows((byte)table)).Select(module.Row);
            return string.Concat(rows) + string.Join("\n", module.Rows(6).SelectMany(module.Points));
        }
    }

    // A made file is refused by a rule, and once it is prepared means what the plain files mean.
    EncPrepared Accepted(string what, Made made, string rule, bool isEmbedded = true)
    {
        bool opened = EncModule.TryOpen(made.Bytes, null, out EncModule module, out EncRefusal refusal);
        module?.Dispose();
        Is(what + ", before", opened ? "accepted" : refusal.Rule, rule);
        EncPrepared told = EncPrepare.Prepare(made.Bytes);
        Is(what + ", its PDB", told.Pdb != null && told.Pdb.SequenceEqual(pdb), isEmbedded);
        Is(what + ", its length", told.Module.Length, made.Data.Count);
        Is(what + ", rows and points", Facts(told.Module, told.Pdb ?? pdb) == Facts(bank, pdb), true);
        Is(what + ", once more", EncPrepare.Prepare(told.Module).Done.Count, 0);
        return told;
    }

    void Embedded()
    {
        EncPrepared told = Accepted("an embedded PDB", New.Debugged(Blob(pdb), 17), "F9");
        Is("no debug entry is left", BitConverter.ToUInt64(told.Module, Made.Debug), 0ul);
        Is("how often something was done", told.Done.Count, 2);
        Is("what was done", told.Done[1], "Its debug entry, 1 of 1, was taken out.");
    }

    void AmongOthers()
    {
        foreach (uint[] kinds in new[] { new uint[] { 2, 17, 16 }, new uint[] { 17, 2 }, new uint[] { 19, 17 } })
        {
            Made made = New.Debugged(Blob(pdb), kinds);
            EncPrepared told = Accepted("an embedded PDB among others", made, "F9");
            var left = kinds.Select((kind, i) => BitConverter.ToUInt32(told.Module, made.Entries + 28 * i + 12));
            string wanted = string.Join(" ", kinds.Where(kind => kind != 17).Concat(new uint[] { 0 }));
            Is("the entries that are left", string.Join(" ", left), wanted);
            Is("their size", BitConverter.ToInt32(told.Module, Made.Debug + 4), 28 * (kinds.Length - 1));
        }
    }

    void NativeCode()
    {
        foreach (uint flags in new uint[] { 0, 1, 4, 0xC })
        {
            EncPrepared told = Accepted("native code", New.Native(readyToRun, flags), "F4", false);
            Is("its flags", BitConverter.ToUInt32(told.Module, Made.Cli + 16), flags & ~4u | 1u);
            Is("ManagedNativeHeader", BitConverter.ToUInt64(told.Module, Made.Cli + 64), 0ul);
            Is("what was done", told.Done[0].StartsWith("The native code of ReadyToRun 9.2 was marked as "), true);
            Is("methods", told.Done[0].EndsWith("The IL of 4 methods is whole."), true);
        }
        Accepted("both", New.Native(readyToRun, 4).Debugged(Blob(pdb), 2, 17), "F4");
    }

    void Nothing()
    {
        byte[] other = File.ReadAllBytes(folder + "k.dll");
        foreach (byte[] data in new[] { bank, New.Debugged(Blob(pdb), 2, 16).Bytes, other })
        {
            EncPrepared told = EncPrepare.Prepare(data);
            Is("the same module", told.Module.SequenceEqual(data), true);
            Is("no PDB", told.Pdb, null);
            Is("nothing was done", told.Done.Count, 0);
        }
        byte[] bare = File.ReadAllBytes(folder + "bank1.meta");
        Is("bare metadata", EncPrepare.Prepare(bare).Module, bare);
    }

    void Given()
    {
        byte[] data = New.Native(readyToRun, 4).Debugged(Blob(pdb), 17).Bytes, before = (byte[])data.Clone();
        EncPrepared told = EncPrepare.Prepare(data);
        Is("what is given stays", data.SequenceEqual(before), true);
        told.Save(folder + "prepared");
        using (EncModule module = EncModule.Load(folder + "prepared"))
            Is("what is saved", module.Points(0x06000004).Length, 11);
        try { EncPrepare.Prepare(null); }
        catch (ArgumentNullException e) { Is("null", e.ParamName, "data"); }
    }

    void Sizes()
    {
        Says("states 455 bytes, and there are more", New.Debugged(Blob(pdb, 455), 17));
        Says("states 457 bytes, and there are 456", New.Debugged(Blob(pdb, 457), 17));
        Says("states 536870913 bytes, and 536870912 are the most", New.Debugged(Blob(pdb, (512u << 20) + 1), 17));
        Says("states 400000000 bytes, and ", New.Debugged(Blob(pdb, 400000000), 17));
        Made made = New.Debugged(Blob(pdb), 17);
        Says("the embedded PDB, 4294967295 bytes at 0x", made.Put(made.Entries + 16, 0xFFFFFFFF));
        Says("has 7 bytes, and its head alone has 8", made.Put(made.Entries + 16, 7));
    }

    void Streams()
    {
        Says("begins with 4d 50 44 58 and not with MPDB", New.Debugged(Blob(pdb, null, "MPDX"), 17));
        byte[] bad = Enumerable.Repeat((byte)0xFF, 64).ToArray();
        Says("debug entry 1 of 1 at 0x", New.Debugged(Blob(pdb, null, "MPDB", bad), 17));
        Says("456 bytes, and there are", New.Debugged(Blob(pdb).Take(60).ToArray(), 17));
        Says("begins with 4d 69 63 72 and is no Portable PDB",
             New.Debugged(Blob("Microsoft C/C++".Select(sign => (byte)sign).ToArray()), 17));
        Says("debug entries 1 and 3 of 3 at 0x", New.Debugged(Blob(pdb), 17, 2, 17));
    }

    void Mixed()
    {
        Says("mixed-mode module: the CLI header at 0x208 has flags 00000000 without", New.Put(Made.Cli + 16, 0));
        Says(", and a native entry point", New.Native(readyToRun, 0x14));
        Says(", and 16 bytes of VTableFixups", New.Native(readyToRun, 4).Put(Made.Cli + 48, 0x2000, 16));
        Says("native code of another kind: ManagedNativeHeader at RVA", New.Native(0x0045474E, 4));
        Says("its IL isn't whole: the ReadyToRun header at RVA", New.Native(readyToRun, 4, 0x200));
    }

    void Il()
    {
        Made made = New.Native(readyToRun, 4);
        int body = 0x200 + (int)Row(1) - 0x2000;
        made.Data[body] = 0;
        Says($"its IL isn't whole: the method 06000001 has no header of a body at RVA {Row(1):x8}, but 00", made);
        Says("its IL isn't whole: the method 06000001 has none", New.Native(readyToRun, 4).Put(RowAt(1), 0));
        Says("the method 06000001 begins at RVA 77777777", New.Native(readyToRun, 4).Put(RowAt(1), 0x77777777));
        Says("doesn't begin with BSJB", New.Native(readyToRun, 4).Put(Made.Cli + 8, 0x2000, 60));
    }

    // Where a row of MethodDef stands, by the RVA of the first: 0x2050 in files of mcs.
    int RowAt(int row)
    {
        byte[] first = { 0x50, 0x20, 0, 0, 0, 0, 0x86, 0x18 };
        Func<int, bool> isThere = at => bank.Skip(at).Take(8).SequenceEqual(first);
        return Enumerable.Range(0, bank.Length - 8).First(isThere) + 14 * (row - 1);
    }

    uint Row(int row)
    {
        return BitConverter.ToUInt32(bank, RowAt(row));
    }

    void Headers()
    {
        Says("the file's first bytes: 2 bytes at 0x0 pass the file's end at 0x0", new byte[0]);
        Says("begins with 7f 45 and not with MZ", new byte[] { 0x7F, 0x45, 0x4C, 0x46 });
        Says("no .NET module: its CLI header at RVA 00000000 has 0 bytes", New.Put(0xF8 + 14 * 8, 0, 0));
        Says("the debug entries: 28 bytes at RVA fffffff0 don't stand", New.Put(Made.Debug, 0xFFFFFFF0, 28));
        Made made = New.Debugged(Blob(pdb), 17);
        Says("overlap", made.Put(Made.Cli + 8, made.U32(Made.Debug), 28));
    }

    // Whatever is cut or changed, there is an answer or an EncPrepareException.
    void Anywhere()
    {
        var chance = new Random(7);
        byte[] whole = New.Native(readyToRun, 4).Debugged(Blob(pdb), 2, 17).Bytes;
        for (int i = 0; i < 3000; i++)
        {
            byte[] data = i < 1000 ? whole.Take(i * whole.Length / 1000).ToArray() : (byte[])whole.Clone();
            if (i >= 1000) data[chance.Next(i % 2 == 0 ? 0x250 : data.Length)] = (byte)chance.Next(256);
            try { Again(EncPrepare.Prepare(data)); }
            catch (EncPrepareException) { }
        }
    }

    void Again(EncPrepared told)
    {
        if (EncPrepare.Prepare(told.Module).Done.Count > 0) Is("prepared once more", "something", "nothing");
    }

    public int Run()
    {
        Action[] parts =
        {
            Embedded, AmongOthers, NativeCode, Nothing, Given, Sizes, Streams, Mixed, Il, Headers, Anywhere
        };
        foreach (Action part in parts) part();
        Console.WriteLine("{0} asked, {1} wrong, {2} tests", asked, wrong, parts.Length);
        return wrong > 0 ? 1 : 0;
    }
}

static class PrepareTests
{
    static string Told(string name)
    {
        try
        {
            EncPrepared made = EncPrepare.Prepare(File.ReadAllBytes(name));
            made.Save(name + ".made");
            return made.Done.Count > 0 ? string.Join("\n", made.Done) : "nothing to prepare";
        }
        catch (EncPrepareException e) { return "not prepared " + name + ": " + e.Message; }
    }

    static int Main(string[] words)
    {
        if (words[0] != "prepare") return new Prepares(words[1]).Run();
        foreach (string name in words.Skip(1)) Console.WriteLine(Told(name));
        return 0;
    }
}
