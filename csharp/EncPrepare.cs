// What a compiler wrote and the library refuses, made into what it accepts. docs/csharp.md says how it is used. It
// needs neither Enc.cs nor the library, so it may be compiled alone; DeflateStream is that of System.dll.
//
// Nothing of this is proved: the library judges what comes out as it does any other file. python/enc/prepare.py is the
// same in Python, with the same words.
#pragma warning disable 8600, 8601, 8602, 8603, 8604, 8618, 8625 // C# 7 has no references that can't be null
using System;
using System.Collections.Generic;
using System.IO;
using System.IO.Compression;
using System.Linq;
using System.Text;

namespace Enc
{
    /// <summary>A file can't be prepared. The message says what was found, and where.</summary>
    public sealed class EncPrepareException : Exception
    {
        internal EncPrepareException(string words) : base(words) { }
    }

    /// <summary>A module that was prepared, and what was done.</summary>
    public sealed class EncPrepared
    {
        /// <summary>The module, which EncModule.Open takes. Where nothing had to be done it is that which was given.
        /// </summary>
        public byte[] Module { get; }
        /// <summary>The PDB that was in it; null where none was.</summary>
        public byte[] Pdb { get; }
        /// <summary>What was done, in sentences; none where nothing had to be.</summary>
        public IReadOnlyList<string> Done { get; }

        internal EncPrepared(byte[] module, byte[] pdb, IReadOnlyList<string> done)
        {
            Module = module;
            Pdb = pdb;
            Done = done;
        }

        /// <summary>Writes NAME.dll and, where a PDB was in it, NAME.pdb.</summary>
        public void Save(string name)
        {
            File.WriteAllBytes(name + ".dll", Module);
            if (Pdb != null) File.WriteAllBytes(name + ".pdb", Pdb);
        }
    }

    /// <summary>Makes what the library accepts of what a compiler wrote: an embedded PDB is unpacked and its debug
    /// entry taken out, and the native code of a ReadyToRun image is marked as not there.</summary>
    public static class EncPrepare
    {
        /// <summary>The most bytes that an embedded PDB may say that it has.</summary>
        public const int Largest = 512 << 20;

        // The most bytes that one byte of deflate stands for: two bits for 258.
        const long most = 1032;
        const int embedded = 17;

        /// <summary>The module without an embedded PDB, which comes beside it, and without the native code of
        /// ReadyToRun. What is given isn't changed.</summary>
        /// <exception cref="EncPrepareException">It can't be prepared.</exception>
        public static EncPrepared Prepare(byte[] data)
        {
            if (data == null) throw new ArgumentNullException(nameof(data));
            if (Part.Begins(data, "BSJB")) return new EncPrepared(data, null, new string[0]);
            var image = new Image(data);
            List<string> done = Native.Judged(image);
            Entry entry = Found(image);
            if (done.Count == 0 && entry == null) return new EncPrepared(data, null, done);
            Apart(image);
            var made = (byte[])data.Clone();
            if (done.Count > 0) Native.Clear(image, made);
            if (entry == null) return new EncPrepared(made, null, done);
            byte[] pdb = Unpacked(image, entry, done);
            TakeOut(image, entry, made);
            return new EncPrepared(made, pdb, done);
        }

        static Exception Wrong(string words)
        {
            return new EncPrepareException(words);
        }

        // Judges that what is changed is nothing else too.
        static void Apart(Image image)
        {
            var parts = new List<Part> { image.Headers, image.Cli, image.Metadata() };
            Part debug = image.Debug();
            if (debug != null) parts.Add(debug);
            for (int i = 0; i < parts.Count; i++)
                foreach (Part other in parts.Take(i).Where(parts[i].Meets))
                    throw Wrong($"{other} and {parts[i]} overlap");
        }

        // A debug entry: its number from 0, how many there are, and where the first stands.
        sealed class Entry
        {
            public int Number;
            public int All;
            public long First;

            public long At => First + 28L * Number;

            public override string ToString() => $"debug entry {Number + 1} of {All} at 0x{At:x}";
        }

        // The debug entry of an embedded PDB. What is left behind the last whole entry is ignored.
        static Entry Found(Image image)
        {
            Part debug = image.Debug();
            if (debug == null) return null;
            var count = (int)(debug.Size / 28);
            Func<int, bool> isEmbedded = i => image.U32(debug.Start + 28L * i + 12) == embedded;
            int[] found = Enumerable.Range(0, count).Where(isEmbedded).Take(2).ToArray();
            if (found.Length > 1)
                throw Wrong($"debug entries {found[0] + 1} and {found[1] + 1} of {count} at 0x{debug.Start:x} are " +
                            "both an embedded PDB");
            return found.Length == 0 ? null : new Entry { Number = found[0], All = count, First = debug.Start };
        }

        // The PDB of an entry.
        static byte[] Unpacked(Image image, Entry entry, List<string> done)
        {
            long size = image.U32(entry.At + 16), start = image.U32(entry.At + 24);
            if (size < 8)
                throw Wrong($"{entry}: the embedded PDB has {size} bytes, and its head alone has 8");
            if (start + size > image.Data.Length)
                throw Wrong($"{entry}: the embedded PDB, {size} bytes at 0x{start:x}, passes the file's end at " +
                            $"0x{image.Data.Length:x}");
            string what = $"{entry}: the embedded PDB at 0x{start:x}", head = Part.Hexadecimal(image.Data, start, 4);
            if (head != "4d 50 44 42") throw Wrong($"{what} begins with {head} and not with MPDB");
            long stated = image.U32(start + 4);
            if (stated > Largest)
                throw Wrong($"{what} states {stated} bytes, and {Largest} are the most");
            if (stated > most * (size - 8))
                throw Wrong($"{what} states {stated} bytes, and {size - 8} can't be so many unpacked");
            byte[] pdb = Inflated(image.Data, (int)start + 8, (int)size - 8, (int)stated, what);
            if (!Part.Begins(pdb, "BSJB"))
                throw Wrong($"{entry}: what was unpacked from 0x{start:x} begins with {Part.Hexadecimal(pdb, 0, 4)} " +
                            "and is no Portable PDB (BSJB)");
            done.Add($"The embedded PDB was unpacked: {size - 8} bytes became {stated}.");
            done.Add($"Its debug entry, {entry.Number + 1} of {entry.All}, was taken out.");
            return pdb;
        }

        // What a deflate stream of a stated length stands for. A stream whose last bytes say nothing may lack them.
        static byte[] Inflated(byte[] data, int start, int size, int stated, string what)
        {
            var part = new byte[stated];
            int taken = 0, more = 0;
            try
            {
                using (var packed = new MemoryStream(data, start, size, false))
                using (var stream = new DeflateStream(packed, CompressionMode.Decompress))
                {
                    for (int got = 1; got > 0 && taken < stated; taken += got)
                        got = stream.Read(part, taken, stated - taken);
                    if (taken == stated) more = stream.Read(new byte[1], 0, 1);
                }
            }
            catch (Exception e) when (e is InvalidDataException || e is IOException)
            {
                throw Wrong($"{what} isn't a deflate stream: {e.Message}");
            }
            if (more > 0) throw Wrong($"{what} states {stated} bytes, and there are more");
            if (taken < stated) throw Wrong($"{what} states {stated} bytes, and there are {taken}");
            return part;
        }

        // Takes an entry out: those behind it move up, and the debug directory has one less.
        static void TakeOut(Image image, Entry entry, byte[] made)
        {
            long end = entry.First + 28L * entry.All;
            Array.Copy(image.Data, entry.At + 28, made, entry.At, end - entry.At - 28);
            Array.Clear(made, (int)end - 28, 28);
            uint left = entry.All > 1 ? image.U32(image.Directories + 52) - 28 : 0;
            if (left == 0) Part.Put(made, image.Directories + 48, 0);
            Part.Put(made, image.Directories + 52, left);
        }

        // The native code of an image.
        static class Native
        {
            const uint ilOnly = 1, ilLibrary = 4, nativeEntry = 0x10, readyToRun = 0x00525452, stripped = 0x200;
            // The most sections that a loader takes.
            const int sections = 96;

            // What is said of its being left out; nothing where there is none.
            public static List<string> Judged(Image image)
            {
                uint flags = image.Flags, rva = image.U32(image.Cli.Start + 64), size = image.U32(image.Cli.Start + 68);
                string mixed = $"a mixed-mode module: the CLI header at 0x{image.Cli.Start:x} has flags {flags:x8}";
                if (rva == 0 && size == 0)
                {
                    if ((flags & ilOnly) != 0) return new List<string>();
                    throw Wrong(mixed + " without ILONLY (1), and no ReadyToRun header");
                }
                uint fixups = image.U32(image.Cli.Start + 52);
                if (fixups != 0) throw Wrong($"{mixed}, and {fixups} bytes of VTableFixups");
                if ((flags & nativeEntry) != 0) throw Wrong($"{mixed}, and a native entry point");
                string version = Version(image, rva, size);
                int count = WholeIl(image);
                var told = new List<string>
                {
                    $"The native code of ReadyToRun {version} was marked as not there: ManagedNativeHeader, " +
                    $"{size} bytes at RVA {rva:x8}, is zero. The IL of {count} methods is whole."
                };
                if (Made(flags) != flags)
                    told.Add($"The flags of the CLI header were {flags:x8} and are {Made(flags):x8}.");
                return told;
            }

            static uint Made(uint flags)
            {
                return flags & ~ilLibrary | ilOnly;
            }

            public static void Clear(Image image, byte[] made)
            {
                Part.Put(made, image.Cli.Start + 16, Made(image.Flags));
                Array.Clear(made, (int)image.Cli.Start + 64, 8);
            }

            // Judges that ManagedNativeHeader is one of ReadyToRun, and tells its version.
            static string Version(Image image, uint rva, uint size)
            {
                if (size < 16)
                    throw Wrong($"ManagedNativeHeader: {size} bytes at RVA {rva:x8}, and a ReadyToRun header has 16");
                long start = image.Range("ManagedNativeHeader", rva, 16).Start;
                if (image.U32(start) != readyToRun)
                    throw Wrong($"native code of another kind: ManagedNativeHeader at RVA {rva:x8} begins with " +
                                $"{Part.Hexadecimal(image.Data, start, 4)} and not with RTR (52 54 52 00)");
                if ((image.U32(start + 8) & stripped) != 0)
                    throw Wrong($"its IL isn't whole: the ReadyToRun header at RVA {rva:x8} says so by flag " +
                                $"0x{stripped:x}");
                return $"{image.U16(start + 4)}.{image.U16(start + 6)}";
            }

            // Judges that each method that should have IL has it whole, and tells how many have.
            static int WholeIl(Image image)
            {
                if (image.Sections.Length > sections)
                    throw Wrong($"{image.Sections.Length} sections, and a loader takes {sections} at most");
                Part metadata = image.Metadata();
                int count = 0, row = 0;
                foreach (Method method in Method.All(image.Data, metadata))
                    if (HasIl(image, $"the method 06{++row:x6}", method)) count++;
                return count;
            }

            // Whether a method has IL, which stands whole; false of one that needs none.
            static bool HasIl(Image image, string what, Method method)
            {
                if ((method.Kind & 7) != 0 && method.Rva != 0)
                    throw Wrong($"a mixed-mode module: {what} isn't IL, its ImplFlags are {method.Kind:x4}");
                if (method.Rva != 0)
                {
                    long size = Body(image, what, method.Rva);
                    if (image.Place(method.Rva, size) == null)
                        throw Wrong($"its IL isn't whole: {what} has {size} bytes at RVA {method.Rva:x8}, not all " +
                                    "in a section");
                    return true;
                }
                // Without IL are abstract ones, those of the system (PInvoke, InternalCall, ForwardRef, Runtime), and
                // static ones such as an UnsafeAccessor.
                if ((method.Flags & (0x400 | 0x2000 | 0x10)) == 0 && (method.Kind & (0x1000 | 0x10 | 7)) == 0)
                    throw Wrong($"its IL isn't whole: {what} has none, and its flags {method.Flags:x4} don't say why");
                return false;
            }

            // How many bytes the header of a body and its code have (ECMA-335 II.25.4).
            static long Body(Image image, string what, uint rva)
            {
                Part found = image.Place(rva, 1);
                if (found == null)
                    throw Wrong($"its IL isn't whole: {what} begins at RVA {rva:x8}, in no section");
                byte first = image.Data[found.Start];
                if ((first & 3) == 2) return 1 + (first >> 2);
                if ((first & 3) != 3 || found.Size < 12)
                    throw Wrong($"its IL isn't whole: {what} has no header of a body at RVA {rva:x8}, but {first:x2}");
                int words = image.Data[found.Start + 1] >> 4;
                if (words != 3)
                    throw Wrong($"its IL isn't whole: {what} has a header of {words} words at RVA {rva:x8}, and not 3");
                return 12 + (long)image.U32(found.Start + 4);
            }
        }

        // Bytes of the file, and what they are.
        sealed class Part
        {
            public readonly string What;
            public readonly long Start, Size;

            public Part(string what, long start, long size)
            {
                What = what;
                Start = start;
                Size = size;
            }

            public override string ToString() => $"{What} at 0x{Start:x}";

            public bool Meets(Part other)
            {
                return Start < other.Start + other.Size && other.Start < Start + Size;
            }

            public static bool Begins(byte[] data, string word)
            {
                return data.Length >= word.Length && word.Select((sign, i) => data[i] == sign).All(same => same);
            }

            // So many bytes, or as many as there are: 4d 5a.
            public static string Hexadecimal(byte[] data, long start, int count)
            {
                return string.Join(" ", data.Skip((int)start).Take(count).Select(b => b.ToString("x2")));
            }

            public static void Put(byte[] data, long at, uint number)
            {
                for (int i = 0; i < 4; i++) data[at + i] = (byte)(number >> 8 * i);
            }
        }

        // An image: its headers, as rule F3 of docs/rules.md asks for them, and what they lead to.
        sealed class Image
        {
            public readonly byte[] Data;
            // Where the data directories begin.
            public readonly long Directories;
            public readonly Part Headers, Cli;
            // The RVA of each section in Rva, and what of its raw part stands in the file.
            public readonly Part[] Sections;
            readonly uint[] rvas;

            public Image(byte[] data)
            {
                Data = data;
                if (U16(0, "the file's first bytes") != 0x5A4D)
                    throw Wrong($"the file begins with {Part.Hexadecimal(data, 0, 2)} and not with MZ (4d 5a)");
                long pe = U32(0x3C, "where the PE header begins");
                if (U32(pe, "the PE header") != 0x4550)
                    throw Wrong($"at 0x{pe:x}: {Part.Hexadecimal(data, pe, 4)} and not PE (50 45 00 00)");
                int count = U16(pe + 6, "the number of sections");
                int size = U16(pe + 20, "the size of the optional header");
                Part optional = Whole("the optional header", pe + 24, size);
                Directories = First(optional);
                long headers = optional.Start + size;
                Headers = Whole("the headers", 0, headers + 40 * count);
                rvas = Enumerable.Range(0, count).Select(i => U32(headers + 40 * i + 12)).ToArray();
                Sections = Enumerable.Range(0, count).Select(i => Section(headers + 40 * i)).ToArray();
                Cli = CliHeader();
            }

            public uint U32(long at, string what = "a number")
            {
                Whole(what, at, 4);
                return (uint)(Data[at] | Data[at + 1] << 8 | Data[at + 2] << 16 | Data[at + 3] << 24);
            }

            public ushort U16(long at, string what = "a number")
            {
                Whole(what, at, 2);
                return (ushort)(Data[at] | Data[at + 1] << 8);
            }

            // A range that stands whole in the file.
            Part Whole(string what, long at, long size)
            {
                if (at + size > Data.Length)
                    throw Wrong($"{what}: {size} bytes at 0x{at:x} pass the file's end at 0x{Data.Length:x}");
                return new Part(what, at, size);
            }

            // Where the data directories begin.
            long First(Part optional)
            {
                string where = $"the optional header at 0x{optional.Start:x} has {optional.Size} bytes";
                if (optional.Size < 2) throw Wrong(where);
                ushort magic = U16(optional.Start, "the optional header's magic");
                if (magic != 0x10B && magic != 0x20B)
                    throw Wrong($"the magic 0x{magic:x} at 0x{optional.Start:x} is neither PE32 (0x10b) nor PE32+ " +
                                "(0x20b)");
                long first = magic == 0x10B ? 96 : 112;
                if (optional.Size < first + 15 * 8) throw Wrong(where + " and no CLI entry");
                uint count = U32(optional.Start + first - 4, "the number of directories");
                if (count < 15)
                    throw Wrong($"{count} directories at 0x{optional.Start + first - 4:x}, and a .NET module has 15");
                return optional.Start + first;
            }

            Part Section(long at)
            {
                long start = Math.Min(U32(at + 20), Data.Length);
                return new Part("a section", start, Math.Min(U32(at + 16), Data.Length - start));
            }

            // Where a range of RVAs stands in the file, and how many bytes its section has from there on; null where
            // no section holds it. It is the first section that does.
            public Part Place(uint rva, long size)
            {
                for (int i = 0; i < Sections.Length; i++)
                {
                    long before = (long)rva - rvas[i];
                    if (before >= 0 && before + size <= Sections[i].Size)
                        return new Part("", Sections[i].Start + before, Sections[i].Size - before);
                }
                return null;
            }

            // The bytes at a range of RVAs.
            public Part Range(string what, uint rva, long size)
            {
                Part found = Place(rva, size);
                if (found == null)
                    throw Wrong($"{what}: {size} bytes at RVA {rva:x8} don't stand in a section");
                return new Part(what, found.Start, size);
            }

            Part CliHeader()
            {
                uint rva = U32(Directories + 112), size = U32(Directories + 116);
                if (size < 72)
                    throw Wrong($"no .NET module: its CLI header at RVA {rva:x8} has {size} bytes and not 72");
                return Range("the CLI header", rva, 72);
            }

            public uint Flags => U32(Cli.Start + 16);

            public Part Metadata()
            {
                return Range("the metadata", U32(Cli.Start + 8), U32(Cli.Start + 12));
            }

            // The debug entries; null where there are none.
            public Part Debug()
            {
                uint rva = U32(Directories + 48), size = U32(Directories + 52);
                return size == 0 ? null : Range("the debug entries", rva, size);
            }
        }

        // What MethodDef says of a method.
        struct Method
        {
            public uint Rva;
            public ushort Kind, Flags;

            public static IEnumerable<Method> All(byte[] data, Part metadata)
            {
                var tables = new Tables(data, metadata);
                long size = tables.Width(6), at = tables.Begin(6);
                tables.Whole(at, size * tables.Count(6));
                for (long i = 0; i < tables.Count(6); i++, at += size)
                    yield return new Method
                    {
                        Rva = tables.U32(at),
                        Kind = (ushort)tables.U32(at + 4, 2),
                        Flags = (ushort)tables.U32(at + 6, 2)
                    };
            }
        }

        // The table stream, as far as MethodDef (ECMA-335 II.24.2.6).
        sealed class Tables
        {
            readonly byte[] data;
            readonly Part metadata;
            readonly bool wide;
            readonly long first;
            readonly uint[] counts = new uint[64];
            readonly int flags;
            // The table stream.
            long start, end;

            public Tables(byte[] data, Part metadata)
            {
                this.data = data;
                this.metadata = metadata;
                start = metadata.Start;
                end = metadata.Start + metadata.Size;
                Dictionary<string, long[]> streams = Streams();
                wide = streams.ContainsKey("#JTD");
                long[] place = { 0, 0 };
                if (!streams.TryGetValue("#-", out place) && !streams.TryGetValue("#~", out place)) place = new long[2];
                start = Math.Min(metadata.Start + place[0], end);
                end = Math.Min(start + place[1], end);
                ulong valid = U32(8) | (ulong)U32(12) << 32;
                flags = (int)U32(6, 1);
                first = 24;
                for (int i = 0; i < 64; i++)
                    if ((valid >> i & 1) != 0)
                    {
                        counts[i] = U32(first);
                        first += 4;
                    }
                if ((flags & 0x40) != 0) first += 4;
            }

            Exception Bad(string words)
            {
                return Wrong($"the metadata at 0x{metadata.Start:x}: {words}");
            }

            // A number in the table stream, or in the metadata before that is known.
            public uint U32(long at, int size = 4)
            {
                if (start + at + size > end) throw Bad("its headers don't stand whole in it");
                uint number = 0;
                for (int i = 0; i < size; i++) number |= (uint)data[start + at + i] << 8 * i;
                return number;
            }

            public void Whole(long at, long size)
            {
                if (start + at + size > end) throw Bad("the rows of MethodDef pass the end of its stream");
            }

            // Where the streams begin, and their sizes. Of two with one name the first counts.
            Dictionary<string, long[]> Streams()
            {
                var streams = new Dictionary<string, long[]>();
                if (metadata.Size < 4 || U32(0) != 0x424A5342) throw Bad("it doesn't begin with BSJB");
                long at = 16 + (long)U32(12);
                uint count = U32(at + 2, 2);
                at += 4;
                for (uint i = 0; i < count; i++)
                {
                    long[] place = { U32(at), U32(at + 4) };
                    var behind = (int)(end - start - at - 8);
                    int length = Array.IndexOf(data, (byte)0, (int)(start + at + 8), behind) - (int)(start + at + 8);
                    if (length < 0) throw Bad("the name of a stream has no end");
                    // Only short names are asked for.
                    string name = Encoding.ASCII.GetString(data, (int)(start + at + 8), Math.Min(length, 8));
                    if (!streams.ContainsKey(name)) streams.Add(name, place);
                    at += 8 + (length / 4 + 1) * 4L;
                }
                return streams;
            }

            public long Count(int table)
            {
                return counts[table];
            }

            // Where the rows of a table begin.
            public long Begin(int table)
            {
                return first + Enumerable.Range(0, table).Sum(i => counts[i] == 0 ? 0 : counts[i] * Width(i));
            }

            long Heap(int flag)
            {
                return (flags & flag) != 0 ? 4 : 2;
            }

            // The bytes of an index into one of these tables, with so many bits of a tag.
            long Index(int bits, params int[] tables)
            {
                return wide || tables.Max(table => counts[table]) >= 1L << 16 - bits ? 4 : 2;
            }

            // The bytes of a row of the first tables.
            public long Width(int table)
            {
                switch (table)
                {
                    case 0x00: return 2 + Heap(1) + 3 * Heap(2);
                    case 0x01: return Index(2, 0x00, 0x1A, 0x23, 0x01) + 2 * Heap(1);
                    case 0x02: return 4 + 2 * Heap(1) + Index(2, 0x02, 0x01, 0x1B) + Index(0, 0x04) + Index(0, 0x06);
                    case 0x03: return Index(0, 0x04);
                    case 0x04: return 2 + Heap(1) + Heap(4);
                    case 0x05: return Index(0, 0x06);
                    default: return 8 + Heap(1) + Heap(4) + Index(0, 0x08);
                }
            }
        }
    }
}
