// Tests of Enc.cs, which ./test compiles with it and runs where mono is.
// Tests.exe list BASE DELTA ..    prints the generations as enc list does
// Tests.exe tokens BASE DELTA ..  the token of each row
// Tests.exe show BASE DELTA ..    each row as enc show does, made from what the other calls say of it
// Tests.exe program, sizes        a C program that prints the structs of enc.h, and the same as Enc.cs has them
// Tests.exe files BASE DELTA ..   writes saved, compact and merged files, and prints the tokens that moved
// Tests.exe calls FOLDER HEADER   asks calls over the examples in a folder; the last line says how many
using System;
using System.Collections.Generic;
using System.IO;
using System.Linq;
using System.Reflection;
using System.Runtime.InteropServices;
using System.Text;
using System.Text.RegularExpressions;
using System.Threading;
using System.Threading.Tasks;
using Enc;

static class Chains
{
    public static EncModule Open(IEnumerable<string> names)
    {
        EncModule module = EncModule.Load(names.First());
        foreach (string delta in names.Skip(1)) module.Apply(EncDelta.Load(delta));
        return module;
    }

    public static IEnumerable<uint> Tokens(EncModule module)
    {
        return Enumerable.Range(0, 0x2D).SelectMany(table => module.Rows((byte)table));
    }
}

// The lines of enc list.
static class Listed
{
    public static void Print(EncModule module)
    {
        for (uint generation = 0; generation < module.Generations; generation++)
        {
            EncEntry[] entries = module.Entries(generation);
            EncGeneration at = module.At(generation);
            long all = Enumerable.Range(0, 64).Sum(table => at.Count((byte)table));
            long rows = generation > 0 ? entries.Length : all;
            EncLengths own = at.Lengths;
            Console.WriteLine("generation {0}{1} rows {2} strings {3} users {4} blobs {5} guids {6}", generation,
                              generation > 0 ? " " + at.Id : "", rows, own.Strings, own.Users, own.Blobs, own.Guids);
            Entries(module, generation, entries);
        }
    }

    static void Entries(EncModule module, uint generation, EncEntry[] entries)
    {
        var position = new uint[256];
        foreach (EncEntry entry in entries)
            Console.WriteLine("  {0:x8} {1} {2}.{3} newest {4}", entry.Token, entry.IsInserted ? "insert" : "update",
                              generation, ++position[entry.Token >> 24], module.Locate(entry.Token));
    }
}

// The lines of enc show, but for the instructions, which are taken from the row that the library prints.
sealed class Shown
{
    static readonly Dictionary<string, byte> children = new Dictionary<string, byte>
    {
        { "fields", 0x04 }, { "methods", 0x06 }, { "params", 0x08 }, { "events", 0x14 }, { "properties", 0x17 }
    };
    readonly EncModule module;
    readonly uint token;
    int clauses, points;

    public Shown(EncModule module, uint token)
    {
        this.module = module;
        this.token = token;
    }

    public override string ToString()
    {
        string[] lines = module.Row(token).TrimEnd('\n').Split('\n');
        return First(lines[0]) + "\n" + string.Concat(lines.Skip(1).Select(line => Line(line) + "\n"));
    }

    string First(string line)
    {
        byte column = 0;
        string cells = Regex.Replace(line, "(?<= [A-Za-z]+=)(\"[^\"]*\"|[^ ]*)", cell => Value(cell.Value, column++));
        return Regex.Replace(cells, "@[0-9.]+$", "@" + module.Locate(token));
    }

    // The value in a column, by the look of the one that is printed.
    string Value(string printed, byte column)
    {
        if (printed == "body" || printed == "none") return module.Body(token) == null ? "none" : "body";
        if (printed[0] == '"') return Quoted(module.Text(token, column));
        if (printed.Contains("-")) return module.Guid(token, column).ToString();
        if (token >> 24 == 0x1D && column == 0) return printed;
        if (printed[0] == '[') return "[" + Hexadecimal(module.Blob(token, column)) + "]";
        try { return module.Number(token, column).ToString("x" + printed.Length); }
        catch (EncException) { return module.Token(token, column).ToString("x8"); }
    }

    static string Quoted(string text)
    {
        return "\"" + string.Concat(Encoding.UTF8.GetBytes(text).Select(Printed)) + "\"";
    }

    static string Printed(byte b)
    {
        return b >= 0x20 && b < 0x7F && b != '"' && b != '\\' ? ((char)b).ToString() : "\\x" + b.ToString("x2");
    }

    static string Hexadecimal(byte[] bytes)
    {
        return string.Concat(bytes.Select(b => b.ToString("x2")));
    }

    string Line(string line)
    {
        string word = line.Substring(2).Split(' ')[0];
        if (children.TryGetValue(word, out byte table))
            return "  " + word + string.Concat(module.Children(token, table).Select(kid => " " + kid.ToString("x8")));
        switch (word)
        {
            case "owner": return "  owner " + module.Owner(token).ToString("x8");
            case "point": return "  point " + Point(module.Points(token)[points++]);
            case "body": return Head(module.Body(token));
            case "catch": case "filter": case "finally": case "fault":
                return "  " + Clause(module.Body(token).Clauses[clauses++]);
            default: return line;
        }
    }

    static string Head(EncBody body)
    {
        return string.Format("  body stack={0} init={1} locals={2:x8}", body.Stack, body.Init ? 1 : 0, body.Locals);
    }

    static string Point(EncPoint p)
    {
        string lines = p.StartLine + ":" + p.StartColumn + "-" + p.EndLine + ":" + p.EndColumn;
        return Label(p.Offset) + (p.IsHidden ? " hidden" : " " + Quoted(p.Document) + " " + lines);
    }

    static string Clause(EncClause c)
    {
        string extra = c.Kind == EncClauseKind.Catch ? " " + c.Extra.ToString("x8")
                     : c.Kind == EncClauseKind.Filter ? " " + Label(c.Extra) : "";
        return c.Kind.ToString().ToLowerInvariant() + " " + Label(c.TryBegin) + "-" + Label(c.TryEnd) + " " +
               Label(c.HandlerBegin) + "-" + Label(c.HandlerEnd) + extra;
    }

    static string Label(uint offset)
    {
        return "IL_" + offset.ToString("x4");
    }
}

// The structs: their sizes, and the offsets of their fields.
static class Structs
{
    static readonly KeyValuePair<string, Type>[] all =
    {
        Of("refusal", typeof(Native.Refusal)), Of("place", typeof(EncPlace)), Of("code_head", typeof(Native.Head)),
        Of("point", typeof(Native.Point)), Of("clause", typeof(EncClause)), Of("entry", typeof(EncEntry)),
        Of("heap_lengths", typeof(EncLengths)), Of("move", typeof(EncPair)), Of("pair", typeof(EncPair)),
        Of("stepped", typeof(EncStepped)), Of("remapped", typeof(EncRemapped)), Of("frame", typeof(EncFrame)),
        Of("value", typeof(EncValue)), Of("event", typeof(EncEvent))
    };

    static KeyValuePair<string, Type> Of(string name, Type type)
    {
        return new KeyValuePair<string, Type>("enc_" + name, type);
    }

    static FieldInfo[] Fields(Type type)
    {
        return type.GetFields(BindingFlags.Instance | BindingFlags.Public | BindingFlags.NonPublic);
    }

    // The name of a field in C: StartLine is start_line; what a struct of Enc.cs calls otherwise is `rule`.
    static string Name(Type type, FieldInfo field)
    {
        if (type == typeof(EncRemapped) && field.Name == "Number") return "rule";
        return Regex.Replace(field.Name, "(?<=.)([A-Z])", "_$1").ToLowerInvariant();
    }

    // Those structs that a header has.
    static IEnumerable<KeyValuePair<string, Type>> In(string header)
    {
        string text = File.ReadAllText(header);
        return all.Where(one => text.Contains("} " + one.Key + ";"));
    }

    public static void Program(string header)
    {
        Console.WriteLine("#include <stdio.h>\n#include \"enc.h\"\nint main(void) {");
        foreach (var one in In(header))
        {
            Console.WriteLine("printf(\"{0} %zu\", sizeof({0}));", one.Key);
            foreach (FieldInfo field in Fields(one.Value))
                Console.WriteLine("printf(\" {1} %zu\", offsetof({0}, {1}));", one.Key, Name(one.Value, field));
            Console.WriteLine("puts(\"\");");
        }
        Console.WriteLine("return 0; }");
    }

    public static void Sizes(string header)
    {
        foreach (var one in In(header))
            Console.WriteLine(one.Key + " " + Marshal.SizeOf(one.Value) + string.Concat(Fields(one.Value).Select(
                field => " " + Name(one.Value, field) + " " + Marshal.OffsetOf(one.Value, field.Name))));
    }
}

// What calls answer over the examples.
sealed class Calls
{
    readonly string folder;
    readonly HashSet<string> declared;
    int asked, wrong;

    public Calls(string folder, string header)
    {
        this.folder = folder + "/";
        MatchCollection calls = Regex.Matches(File.ReadAllText(header), @"(?m)^(?:enc_status|uint32_t) (\w+)\(");
        declared = new HashSet<string>(calls.Cast<Match>().Select(call => call.Groups[1].Value));
    }

    void Is(string what, object got, object wanted)
    {
        asked++;
        if (Equals(got, wanted)) return;
        wrong++;
        Console.WriteLine(what + ": " + (got ?? "null") + ", not " + (wanted ?? "null"));
    }

    void AreTokens(string what, uint[] got, params uint[] wanted)
    {
        Is(what, string.Join(" ", got), string.Join(" ", wanted));
    }

    // What a call throws, by its kind and status.
    void Throws(string what, string wanted, Action ask)
    {
        try { ask(); }
        catch (EntryPointNotFoundException) { throw; }
        catch (EncException e) { Is(what, e.Status.ToString(), wanted); return; }
        catch (Exception e) { Is(what, e.GetType().Name, wanted); return; }
        Is(what, "nothing", wanted);
    }

    // Runs a part that needs a call, which a library may lack whose header doesn't declare it.
    void Where(string call, Action part)
    {
        if (declared.Contains(call)) part();
        else Console.WriteLine("not in this library: " + call);
    }

    // Each call that the header declares is one of Enc.cs.
    void Declared()
    {
        var known = typeof(Native).GetMethods(BindingFlags.Static | BindingFlags.NonPublic)
            .SelectMany(call => call.GetCustomAttributes(typeof(DllImportAttribute), false))
            .Select(import => ((DllImportAttribute)import).EntryPoint);
        Is("calls that Enc.cs lacks", string.Join(" ", declared.Except(known)), "");
        Where("enc_version", () => Is("a release before 1.0", EncModule.LibraryVersion.Major, 0));
    }

    EncDelta Delta(string name)
    {
        return EncDelta.Load(folder + name);
    }

    EncModule Bank()
    {
        return Chains.Open(new[] { folder + "bank", folder + "bank1", folder + "bank2" });
    }

    public int Run()
    {
        Declared();
        Refusals();
        Names();
        Own();
        LookUps();
        Handles();
        Values();
        Where("enc_row_at", Earlier);
        Where("enc_may_remap", MayRemap);
        Where("enc_check", Checks);
        Where("enc_save", Saves);
        Where("enc_merge", Merges);
        Where("enc_write", Writes);
        Where("enc_session_open", Sessions);
        Console.WriteLine("{0} calls asked, {1} of them answered something else", asked, wrong);
        return wrong == 0 ? 0 : 1;
    }

    void Refusals()
    {
        EncRefusal refusal;
        Is("no base", EncModule.TryOpen(new byte[3], null, out EncModule none, out refusal), false);
        Is("nothing is opened", none, null);
        byte[] image = File.ReadAllBytes(folder + "bank.dll");
        Is("a base", EncModule.TryOpen(image, null, out EncModule opened, out EncRefusal not), true);
        Is("it is opened", opened.Generations + " " + (not == null), "1 True");
        opened.Dispose();
        Is("its rule", refusal.ToString(), "F3 headers");
        Is("its kind", refusal.Kind, EncPlaceKind.Headers);
        Throws("no base", "Refused", () => EncModule.Open(new byte[0]));
        using (EncModule module = EncModule.Load(folder + "bank.dll"))
        {
            Is("the first delta", module.TryApply(Delta("bank1"), out refusal), true);
            Is("no refusal", refusal, null);
            Is("once more", module.TryApply(Delta("bank1"), out refusal), false);
            Is("its rule", refusal.Rule, "E2");
            Is("its place", refusal.Place, "00000001");
            Is("its kind", refusal.Kind, EncPlaceKind.Row);
            Is("its token", refusal.Token, 1u);
            Is("its words", refusal.Words, "its Generation isn't the next");
            try { module.Apply(Delta("bank1")); }
            catch (EncRefusedException e) { Is("told", e.Message, "E2 00000001: its Generation isn't the next"); }
            Throws("once more", "Refused", () => module.Apply(Delta("bank1")));
            Is("generations", module.Generations, 2u);
            EncDelta next = Delta("bank2");
            module.Apply(next.Metadata, next.Il, next.Pdb);
            Is("generations", module.Generations, 3u);
        }
        var owner = new Native.Refusal { Letter = 0x46, Rule = 7, Place = 11, Table = 6, Row = 1 };
        Is("words of an owner", new EncRefusal(owner, "").Words,
           "a field, method, parameter, property or event that the runs don't name exactly once");
        Is("words of a remap", EncRules.Words("Q2"), "something is on the frame's stack");
        Is("words of a trap", EncRules.Words("X4"), "a value of another kind");
        Is("words of no rule", EncRules.Words("E99"), "");
    }

    void Names()
    {
        using (EncModule module = Bank())
        {
            Is("a type", module.Find("Account"), 0x02000002u);
            Is("a method", module.Find("Account.Deposit"), 0x06000002u);
            Is("a new one", module.Find("Account.PrintDeposits"), 0x06000005u);
            Is("a constructor", module.Find("Account..ctor"), 0x06000001u);
            Is("a new field", module.Find("Account.deposits"), 0x04000002u);
            Is("none", module.Find("Account.Withdraw"), 0u);
            Is("none", module.Find("Nothing.Deposit"), 0u);
            Is("none", module.Find(""), 0u);
            AreTokens("all of a name", module.FindAll("Bank.Main"), 0x06000004);
            AreTokens("members", module.FindMembers(0x02000002, 6, "Print"), 0x06000003);
            Is("the name of a method", module.Name(0x06000005), "Account.PrintDeposits");
            Is("of a type", module.Name(0x02000003), "Bank");
            Is("of a reference", module.Name(module.Token(0x02000002, 3)), "System.Object");
            Is("of a member of another module", module.Name(0x0A000006), "System.String.Concat");
            Is("of an assembly", module.Name(0x20000001), "bank");
            Is("of no row", module.Name(0x06000063), null);
        }
        using (EncModule module = Chains.Open(new[] { folder + "k", folder + "k1", folder + "s2" }))
        {
            Is("a property", module.Find("Counter.Count"), 0x17000001u);
            Is("an event", module.Name(0x14000001), "Counter.Changed");
            AreTokens("a method's parameter", module.FindMembers(0x06000005, 8, "value"), 0x08000001);
        }
    }

    // A module that the compiler has just made: Enc.cs itself. Its rows are made from what other calls say, and what
    // has a name is found by it.
    void Own()
    {
        using (EncModule module = EncModule.Load(folder + "Enc"))
        {
            Is("nested", module.Name(module.Find("Enc.Native/Refusal")), "Enc.Native/Refusal");
            Is("and by +", module.Find("Enc.Native+Refusal"), module.Find("Enc.Native/Refusal"));
            Is("a member of one", module.Name(module.Find("Enc.Native/Refusal.Letter")), "Enc.Native/Refusal.Letter");
            foreach (uint token in Chains.Tokens(module))
                Is("row " + token.ToString("x8"), new Shown(module, token).ToString(), module.Row(token));
            foreach (uint token in Chains.Tokens(module).Where(IsFound))
                Is("found by its name", module.FindAll(module.Name(token)).Contains(token), true);
        }
    }

    static bool IsFound(uint token)
    {
        return new uint[] { 0x02, 0x04, 0x06, 0x14, 0x17 }.Contains(token >> 24);
    }

    void LookUps()
    {
        using (EncModule module = Bank())
        {
            Is("the second entry", module.LocateHeap(EncStream.Guids, 2)?.Generation, 1u);
            Is("past a heap", module.LocateHeap(EncStream.Users, 1 << 20), null);
            Is("a user text", module.UserText(0x70000001), "balance:");
            Is("none", module.UserText(0x7000FFFF), null);
            Is("its EncId", module.Id(1), new Guid("6ee46faf-d977-00c3-7d5f-707c7a6d5dfd"));
            Is("of the base", module.Id(0), Guid.Empty);
            Is("no row", module.Row(0x06000063), null);
            Is("no body", module.Body(0x06000063), null);
            Is("points of an old method", module.Points(0x06000004).Length, 11);
            Is("hidden ones", module.Points(0x06000004).Count(p => p.IsHidden), 2);
            Is("a document", module.Points(0x06000002)[0].Document, "/src/Bank.cs");
            Throws("a row that isn't there", "Absent", () => module.Number(0x06000063, 1));
            Throws("its place", "Absent", () => module.Locate(0x06000063));
            Throws("a text as a number", "Unlike", () => module.Number(0x06000002, 3));
            Throws("points of a type", "Unlike", () => module.Points(0x02000002));
            Throws("a generation that isn't there", "Later", () => module.Entries(3));
            Throws("a view of it", "Later", () => module.At(3));
            Is("rows then", module.At(1).Count(6), 4u);
            Is("rows now", module.Count(6), 5u);
        }
    }

    void Handles()
    {
        EncModule module = Bank();
        uint elsewhere = 0;
        OnThread(() => elsewhere = module.Count(6));
        Is("another thread", elsewhere, 5u);
        var counts = new uint[4];
        var threads = counts.Select((c, i) => new Thread(() => counts[i] = Often(module))).ToArray();
        foreach (Thread thread in threads) thread.Start();
        foreach (Thread thread in threads) thread.Join();
        Is("threads at once", counts.All(count => count == 1000), true);
        Is("tasks", Task.WhenAll(Enumerable.Range(0, 20).Select(i => Awaited(module))).Result.Sum(n => n), 100L);
        Is("its text", module.ToString(), "EncModule with 2 deltas");
        OnThread(module.Dispose);
        OnThread(module.Dispose);
        Throws("a closed one", "ObjectDisposedException", () => module.Count(6));
        Is("its text", module.ToString(), "EncModule, closed");
        Closing();
        for (int i = 0; i < 200; i++) EncModule.Load(folder + "bank").Dispose();
        Forgotten();
        OneGeneration();
    }

    static void OnThread(ThreadStart act)
    {
        var thread = new Thread(act);
        thread.Start();
        thread.Join();
    }

    static uint Often(EncModule module)
    {
        uint right = 0;
        for (int i = 0; i < 1000; i++) right += module.Name(0x06000005) == "Account.PrintDeposits" ? 1u : 0;
        return right;
    }

    // What goes on behind an await may be on another thread.
    static async Task<long> Awaited(EncModule module)
    {
        long all = 0;
        for (uint row = 1; row <= 5; row++)
        {
            await Task.Delay(1);
            all += module.Has(0x06000000 | row) ? 1 : 0;
        }
        return all;
    }

    // One thread closes while others ask: each ends with that.
    void Closing()
    {
        EncModule module = Bank();
        var ended = new string[4];
        var threads = ended.Select((e, i) => new Thread(() => ended[i] = Asked(module))).ToArray();
        foreach (Thread thread in threads) thread.Start();
        Thread.Sleep(20);
        module.Dispose();
        foreach (Thread thread in threads) thread.Join();
        Is("closing while others ask", string.Join(" ", ended.Distinct()), "ObjectDisposedException");
    }

    static string Asked(EncModule module)
    {
        try
        {
            while (true)
                if (module.Points(0x06000002).Length == 0) return "no points";
        }
        catch (Exception e) { return e.GetType().Name; }
    }

    static long Memory()
    {
        return long.Parse(File.ReadAllText("/proc/self/statm").Split(' ')[1]) * 4096;
    }

    // What nobody disposed is closed by the finalizer, also that of threads that ended.
    void Forgotten()
    {
        OnThread(() => Forget(100));
        Collect();
        long before = Memory();
        for (int i = 0; i < 20; i++)
        {
            OnThread(() => Forget(100));
            Collect();
        }
        Is("the memory of 2,000 that were forgotten", Memory() - before < 16 << 20, true);
    }

    static void Collect()
    {
        GC.Collect();
        GC.WaitForPendingFinalizers();
    }

    void Forget(int count)
    {
        for (int i = 0; i < count; i++) EncModule.Load(folder + "bank");
    }

    // While another thread applies deltas, a body and its points are of one generation.
    void OneGeneration()
    {
        var known = new HashSet<string>();
        string[] names = { "bank", "bank1", "bank2" };
        for (int count = 0; count < 3; count++)
            using (EncModule module = Chains.Open(names.Take(count + 1).Select(name => folder + name)))
                known.Add(Lines(module));
        var seen = new HashSet<string>();
        for (int i = 0; i < 20; i++)
            using (EncModule module = EncModule.Load(folder + "bank"))
            {
                bool going = true;
                var thread = new Thread(() => { while (Volatile.Read(ref going)) seen.Add(Lines(module)); });
                thread.Start();
                module.Apply(Delta("bank1"));
                module.Apply(Delta("bank2"));
                Volatile.Write(ref going, false);
                thread.Join();
            }
        Is("lines of no generation", seen.Except(known).Count(), 0);
    }

    static string Lines(EncModule module)
    {
        return string.Join(" ", module.Points(0x06000003));
    }

    // Texts and equality of what calls answer, and messages that say of what.
    void Values()
    {
        using (EncModule module = Bank())
        {
            var point = module.Points(0x06000003)[0];
            Is("a point", point.ToString(), "IL_0000 \"/src/Bank.cs\" 15:5-15:6");
            Is("an entry", module.Entries(2)[2].ToString(), "04000002 insert");
            Is("lengths", module.Lengths(0).ToString(), "strings 234 users 20 blobs 88 guids 1");
            Is("a pair", new EncPair(1, 0x06000003).ToString(), "00000001 06000003");
            Is("equal points", point, module.Points(0x06000003)[0]);
            Is("other points", point.Equals(module.Points(0x06000003)[1]), false);
            EncPoint[] points = module.Points(0x06000003);
            Is("points in a set", new HashSet<EncPoint>(points.Concat(module.Points(0x06000003))).Count, points.Length);
            Is("another type", module.Locate(0x06000003).Equals(module.Lengths(0)), false);
            Is("equal places", module.Locate(0x06000003), new EncPlace { Generation = 2, Position = 2 });
            Says("column 1 of 06000063: there is no such row", () => module.Number(0x06000063, 1));
            Says("column 3 of 06000002: what is asked for is of another kind", () => module.Number(0x06000002, 3));
            Says("column 9 of 06000002: ", () => module.Text(0x06000002, 9));
            Says("06000063: there is no such row", () => module.Locate(0x06000063));
            Says("02000002: what is asked for is of another kind", () => module.Points(0x02000002));
            Says("generation 3: there is no such generation", () => module.Entries(3));
            Says("generation 7: there is no such generation", () => module.At(7));
        }
    }

    void Says(string wanted, Action ask)
    {
        string told = "nothing";
        try { ask(); }
        catch (EncException e) { told = e.Message; }
        Is("what an exception says", told.StartsWith(wanted) ? wanted : told, wanted);
    }

    void Earlier()
    {
        using (EncModule module = Bank())
        using (EncModule first = Chains.Open(new[] { folder + "bank", folder + "bank1" }))
        {
            EncGeneration at = module.At(1);
            foreach (uint token in Chains.Tokens(module)) Is("a row then", at.Row(token), first.Row(token));
            foreach (uint method in module.Rows(6)) IsSameMethod(at, first, method);
        }
    }

    void IsSameMethod(EncGeneration at, EncModule then, uint method)
    {
        if (!then.Has(method))
        {
            Is("no body then", at.Body(method), null);
            Throws("no points then", "Absent", () => at.Points(method));
            return;
        }
        Is("a body then", Convert.ToBase64String(at.Body(method).Code), Convert.ToBase64String(then.Body(method).Code));
        Is("points then", at.Points(method).SequenceEqual(then.Points(method)), true);
    }

    void MayRemap()
    {
        using (EncModule module = Bank())
        {
            Is("a frame may go on", module.At(0).MayRemap(0x06000002, 0xF, new EncPair(0xF, 0xF)), null);
            Is("without a pair", module.At(0).MayRemap(0x06000002, 0xF), "Q4");
        }
    }

    void Checks()
    {
        using (EncModule module = EncModule.Load(folder + "bank"))
        {
            Is("checked", module.Check(Delta("bank1"), out EncRefusal refusal), true);
            Is("nothing is added", module.Generations, 1u);
            Is("refused", module.Check(Delta("bank2"), out refusal), false);
            Is("by", refusal.Rule, "E2");
        }
    }

    void Saves()
    {
        using (EncModule module = Bank())
        {
            EncSaved saved = module.Save(), compact = module.Compact();
            using (EncModule again = EncModule.Open(saved.Image, saved.Pdb))
                Is("saved", again.Row(0x06000005)?.Split('@')[0], module.Row(0x06000005).Split('@')[0]);
            using (EncModule again = EncModule.Open(compact.Image, compact.Pdb))
                Is("compacted", again.Find("Account.PrintDeposits"), To(compact.Moves, 0x06000005));
        }
    }

    static uint To(EncPair[] moves, uint token)
    {
        return moves.Where(move => move.From == token).Select(move => move.To).DefaultIfEmpty(token).First();
    }

    void Merges()
    {
        using (EncModule module = Bank())
        using (EncModule merged = EncModule.Load(folder + "bank"))
        {
            Throws("nothing to merge", "Few", () => merged.Merge());
            merged.Apply(module.Merge());
            Is("merged", merged.Generations, 2u);
            foreach (uint token in Chains.Tokens(module))
                Is("a merged row", merged.Row(token).Split('@')[0], module.Row(token).Split('@')[0]);
        }
    }

    void Writes()
    {
        using (EncModule module = EncModule.Load(folder + "k"))
        {
            EncDelta written = module.Write(File.ReadAllText(folder + "body.json"));
            module.Apply(written);
            Is("written", module.Generations, 2u);
            Is("the text that it says", module.Row(0x06000001).Contains("\"new\""), true);
            Throws("no JSON", "Refused", () => module.Write("["));
            try { module.Write(File.ReadAllText(folder + "body.json")); }
            catch (EncRefusedException e) { Is("told", e.Message, "E4 0: the EncId is nil, or was used before"); }
        }
    }

    void Sessions()
    {
        byte[] image = File.ReadAllBytes(folder + "bank.dll"), pdb = File.ReadAllBytes(folder + "bank.pdb");
        using (EncSession session = EncSession.Open(image, pdb, 8))
        {
            uint task = session.Spawn(0x06000004);
            EncStepped now = session.Step(task, 30);
            Is("steps", now.Ran, 30u);
            Is("it runs", now.ToString(), "running");
            Is("written", session.Output(), "task 1 writes \"balance:\\x0a\"\ntask 1 writes \"40\\x0a\"\n");
            EncFrame[] frames = session.Frames(task);
            Is("the outermost", frames[0].Method, 0x06000004u);
            Is("its generation", frames[0].Generation, 0u);
            Is("a frame's values", session.Values(task, 0, EncPart.Locals).Length, (int)frames[0].Locals);
            session.Apply(Delta("bank1"));
            session.Apply(Delta("bank2"));
            Is("once more", session.TryApply(Delta("bank2"), out EncRefusal refusal), false);
            Is("by", refusal.ToString(), "E2 00000001");
            Is("the state", session.State().Split('\n')[1], "task 1 running");
            Is("no pair", session.Remap(task).IsMoved, false);
            Is("to the end", session.Step(task, 1000).State, EncTaskState.Ended);
            Is("written", session.Output(), "task 1 writes \"balance in euro:\\x0a\"\ntask 1 writes \"42\\x0a\"\n" +
               "task 1 writes \"deposits:\\x0a\"\ntask 1 writes \"0\\x0a\"\ntask 1 ended\n");
            EncEvent[] events = session.Events();
            Is("none is lost", events.Length > 20, true);
            Is("taken", session.Events().Length, 0);
            Is("the first event", events[0].ToString(), "spawned 1 06000004");
            Is("a line", events.First(one => one.Kind == EncEventKind.Line).ToString(), "line 1 06000004 22");
            Is("the last", events.Last().ToString(), "ended 1");
            Is("an applied one", events.First(one => one.Kind == EncEventKind.Applied).ToString(), "applied 1");
            var none = new EncEvent { Kind = EncEventKind.DeltaRefused, Detail = 0x4502 };
            Is("a refused one", none.ToString(), "refused E2");
            Is("equal frames", frames[0], frames.ToArray()[0]);
            Is("a frame", frames[0].ToString().StartsWith("06000004 IL_"), true);
            Throws("no task", "Absent", () => session.Frames(9));
            Throws("not to be spawned", "Unlike", () => session.Spawn(0x06000002));
        }
    }
}

static class Tests
{
    static void Written(EncModule module)
    {
        module.Save().Save("saved");
        EncSaved compact = module.Compact();
        compact.Save("compact");
        foreach (EncPair move in compact.Moves) Console.WriteLine("moved {0:x8} {1:x8}", move.From, move.To);
        module.Merge().Save("merged");
    }

    static int Main(string[] words)
    {
        switch (words[0])
        {
            case "list":
                using (EncModule module = Chains.Open(words.Skip(1))) Listed.Print(module);
                return 0;
            case "tokens":
                using (EncModule module = Chains.Open(words.Skip(1)))
                    foreach (uint token in Chains.Tokens(module)) Console.WriteLine("{0:x8}", token);
                return 0;
            case "show":
                using (EncModule module = Chains.Open(words.Skip(1)))
                    foreach (uint token in Chains.Tokens(module)) Console.Write(new Shown(module, token));
                return 0;
            case "program": Structs.Program(words[1]); return 0;
            case "sizes": Structs.Sizes(words[1]); return 0;
            case "files":
                using (EncModule module = Chains.Open(words.Skip(1))) Written(module);
                return 0;
            default: return new Calls(words[1], words[2]).Run();
        }
    }
}
