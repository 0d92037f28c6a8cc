// The C library libenc for C#, in one file: modules with their Edit and Continue deltas, and sessions that run them.
// docs/csharp.md begins with ten lines that work. It needs libenc.so and nothing else.
//
// The library answers what it is proved to answer (docs/library.md). This file isn't proved: it passes numbers and
// bytes on, and makes exceptions of statuses. Its structs are those of library/enc.h, which a test compares.
//
// Who may call when. The library asks for one call at a time on a handle: each member takes the handle's lock, so any
// thread may call, and what one member tells is of one generation. It isn't proved that a handle may go from thread to
// thread; docs/csharp.md says what speaks for it. The finalizer, on its own thread, closes what nobody disposed.
#pragma warning disable 0649 // fields that only the library assigns
#pragma warning disable 8600, 8601, 8602, 8603, 8604, 8618, 8625 // C# 7 has no references that can't be null
using System;
using System.Collections.Generic;
using System.Diagnostics;
using System.IO;
using System.Runtime.InteropServices;
using System.Text;

namespace Enc
{
    /// <summary>What a call of the library comes to.</summary>
    public enum EncStatus : uint
    {
        /// <summary>All is done.</summary>
        Done = 0,
        /// <summary>The files break a rule.</summary>
        Refused = 1,
        /// <summary>There is no memory.</summary>
        Memory = 3,
        /// <summary>The handle is closed.</summary>
        Closed = 7,
        /// <summary>The handle is open already.</summary>
        Open = 8,
        /// <summary>A buffer is too short. This file asks again then, so nobody gets this one.</summary>
        Short = 9,
        /// <summary>There is no such row, entry of a heap, body, document, task or frame.</summary>
        Absent = 10,
        /// <summary>The column, the table, the row or the method isn't of the kind that is asked for.</summary>
        Unlike = 11,
        /// <summary>There is no such generation.</summary>
        Later = 12,
        /// <summary>A task, a session or what would be read passes a stated limit.</summary>
        Limit = 13,
        /// <summary>Fewer than two deltas were to be merged.</summary>
        Few = 14
    }

    /// <summary>What kind of place a refusal names.</summary>
    public enum EncPlaceKind
    {
        /// <summary>The metadata root.</summary>
        Root,
        /// <summary>A stream.</summary>
        Stream,
        /// <summary>The headers of a file.</summary>
        Headers,
        /// <summary>The CLI header.</summary>
        Cli,
        /// <summary>The range of the metadata.</summary>
        Metadata,
        /// <summary>The range of the resources.</summary>
        Resources,
        /// <summary>The debug entries.</summary>
        Debug,
        /// <summary>The table stream.</summary>
        Tables,
        /// <summary>A PDB.</summary>
        Pdb,
        /// <summary>A row, or a table where the row is 0.</summary>
        Row,
        /// <summary>A column of a row.</summary>
        Cell,
        /// <summary>The owner of a row.</summary>
        Owner,
        /// <summary>An entry of EncLog.</summary>
        Log,
        /// <summary>The text of an edit list.</summary>
        Json,
        /// <summary>An edit of an edit list, or the list as a whole where that is 0.</summary>
        Edit,
        /// <summary>An image that would be saved.</summary>
        Image
    }

    /// <summary>A stream of metadata. The first four are heaps.</summary>
    public enum EncStream
    {
        /// <summary>#Strings</summary>
        Strings,
        /// <summary>#US</summary>
        Users,
        /// <summary>#Blob</summary>
        Blobs,
        /// <summary>#GUID</summary>
        Guids,
        /// <summary>#~</summary>
        Compressed,
        /// <summary>#-</summary>
        Uncompressed,
        /// <summary>#Pdb</summary>
        Pdb,
        /// <summary>#JTD</summary>
        Jtd
    }

    /// <summary>A call that wasn't done, by its status.</summary>
    public class EncException : Exception
    {
        /// <summary>The status of the call.</summary>
        public EncStatus Status { get; }

        internal EncException(EncStatus status, string words) : base(words)
        {
            Status = status;
        }

        // The exception of a status that isn't Done and isn't Refused, of what was asked for.
        internal static Exception Of(uint status, About about = default(About))
        {
            switch ((EncStatus)status)
            {
                case EncStatus.Memory: return new OutOfMemoryException();
                case EncStatus.Closed: return new ObjectDisposedException("Enc");
                default: return new EncException((EncStatus)status, about + Said((EncStatus)status));
            }
        }

        static string Said(EncStatus status)
        {
            switch (status)
            {
                case EncStatus.Open: return "the handle is open already";
                case EncStatus.Absent: return "there is no such row, entry, body, document, task or frame";
                case EncStatus.Unlike: return "what is asked for is of another kind";
                case EncStatus.Later: return "there is no such generation";
                case EncStatus.Limit: return "a stated limit is passed";
                case EncStatus.Few: return "there are fewer than two deltas";
                default: return "the library answers " + (uint)status;
            }
        }
    }

    // What was asked for: a row, a column of one, a generation, a task; in front of what is said of it.
    struct About
    {
        readonly string form;
        readonly uint number;
        readonly int column;

        About(string form, uint number, int column = 0)
        {
            this.form = form;
            this.number = number;
            this.column = column;
        }

        internal static About Row(uint token) => new About("{0:x8}: ", token);
        internal static About Cell(uint token, int column) => new About("column {1} of {0:x8}: ", token, column);
        internal static About Generation(uint number) => new About("generation {0}: ", number);
        internal static About Task(uint number) => new About("task {0}: ", number);

        public override string ToString() => form == null ? "" : string.Format(form, number, column);
    }

    /// <summary>Files that break a rule: which, where, and what the rule says.</summary>
    public sealed class EncRefusedException : EncException
    {
        /// <summary>The whole refusal.</summary>
        public EncRefusal Refusal { get; }

        /// <summary>The rule, as E16.</summary>
        public string Rule => Refusal.Rule;

        /// <summary>The place, as 06000001.</summary>
        public string Place => Refusal.Place;

        /// <summary>What is refused by the rule, in the words of docs/rules.md.</summary>
        public string Words => Refusal.Words;

        internal EncRefusedException(EncRefusal refusal)
            : base(EncStatus.Refused, refusal + ": " + refusal.Words)
        {
            Refusal = refusal;
        }
    }

    /// <summary>The first rule that files break, and the first place where they do.</summary>
    [DebuggerDisplay("{ToString(),nq}: {Words,nq}")]
    public sealed class EncRefusal
    {
        readonly Native.Refusal numbers;

        /// <summary>The rule, as E16.</summary>
        public string Rule { get; }

        /// <summary>The place, as 06000001, #Strings or log 21.</summary>
        public string Place { get; }

        /// <summary>What is refused by the rule, in the words of docs/rules.md.</summary>
        public string Words { get; }

        /// <summary>What kind of place it is.</summary>
        public EncPlaceKind Kind => (EncPlaceKind)numbers.Place;

        /// <summary>The token of a row, of the row of a cell, or of the row whose owner it is; else 0.</summary>
        public uint Token => (uint)numbers.Table << 24 | numbers.Row;

        /// <summary>The column of a cell, from 0 in the order of ECMA-335 II.22.</summary>
        public int Column => numbers.Column;

        /// <summary>The stream of a place that is one.</summary>
        public EncStream Stream => (EncStream)numbers.Stream;

        /// <summary>The entry of EncLog or the edit, from 1.</summary>
        public uint Entry => numbers.Entry;

        /// <summary>The rule and its place, as the program enc prints them: E16 06000001.</summary>
        public override string ToString()
        {
            return Rule + " " + Place;
        }

        // A refusal by its numbers, of what was asked for: "merge " or nothing.
        internal EncRefusal(Native.Refusal numbers, string asked)
        {
            this.numbers = numbers;
            var words = new byte[64];
            UIntPtr size = UIntPtr.Zero;
            uint status = Native.Words(ref numbers, words, (UIntPtr)words.Length, ref size);
            if (status != 0) throw EncException.Of(status);
            string[] said = Encoding.UTF8.GetString(words, 0, (int)size).TrimEnd('\n').Split(new[] { ' ' }, 2);
            Rule = said[0];
            Place = said.Length > 1 ? said[1] : "";
            Words = EncRules.Of(Kind == EncPlaceKind.Edit ? "edit " : asked, Rule, Place, Kind);
        }
    }

    /// <summary>Where a row or an entry of a heap stands.</summary>
    [DebuggerDisplay("{ToString(),nq}")]
    public struct EncPlace : IEquatable<EncPlace>
    {
        /// <summary>The generation, 0 for the base.</summary>
        public uint Generation;
        /// <summary>The position there: from 1 of a row and of an entry of #GUID, and else the offset.</summary>
        public uint Position;

        /// <summary>As the program enc prints it: 2.1</summary>
        public override string ToString()
        {
            return Generation + "." + Position;
        }

        (uint, uint) Key => (Generation, Position);

        /// <summary>Whether all of it is equal.</summary>
        public bool Equals(EncPlace other) => Key.Equals(other.Key);

        /// <summary>Whether the other is one too, and all of it is equal.</summary>
        public override bool Equals(object other) => other is EncPlace && Equals((EncPlace)other);

        /// <summary>Equal where all of it is equal.</summary>
        public override int GetHashCode() => Key.GetHashCode();
    }

    /// <summary>A sequence point of a method.</summary>
    [DebuggerDisplay("{ToString(),nq}")]
    public struct EncPoint : IEquatable<EncPoint>
    {
        /// <summary>The offset in the code.</summary>
        public uint Offset;
        /// <summary>The name of the document.</summary>
        public string Document;
        /// <summary>Whether it is hidden; its lines and columns are 0 then.</summary>
        public bool IsHidden;
        /// <summary>The line where it begins, from 1.</summary>
        public uint StartLine;
        /// <summary>The column where it begins.</summary>
        public uint StartColumn;
        /// <summary>The line where it ends.</summary>
        public uint EndLine;
        /// <summary>The column behind its end.</summary>
        public uint EndColumn;

        (uint, string, bool, (uint, uint, uint, uint)) Key =>
            (Offset, Document, IsHidden, (StartLine, StartColumn, EndLine, EndColumn));

        /// <summary>Whether all of it is equal.</summary>
        public bool Equals(EncPoint other) => Key.Equals(other.Key);

        /// <summary>Whether the other is one too, and all of it is equal.</summary>
        public override bool Equals(object other) => other is EncPoint && Equals((EncPoint)other);

        /// <summary>Equal where all of it is equal.</summary>
        public override int GetHashCode() => Key.GetHashCode();

        /// <summary>As the program enc prints it: IL_0001 hidden, or IL_0001 "Bank.cs" 9:5-9:20.</summary>
        public override string ToString() => IsHidden ? $"IL_{Offset:x4} hidden"
            : $"IL_{Offset:x4} \"{Document}\" {StartLine}:{StartColumn}-{EndLine}:{EndColumn}";
    }

    /// <summary>What an exception clause takes.</summary>
    public enum EncClauseKind : uint
    {
        /// <summary>Exceptions of a class.</summary>
        Catch = 0,
        /// <summary>Exceptions that a filter takes.</summary>
        Filter = 1,
        /// <summary>A finally clause.</summary>
        Finally = 2,
        /// <summary>A fault clause.</summary>
        Fault = 4
    }

    /// <summary>An exception clause. Its ranges go from the first offset to one past the last byte.</summary>
    [DebuggerDisplay("{ToString(),nq}")]
    public struct EncClause : IEquatable<EncClause>
    {
        /// <summary>What it takes.</summary>
        public EncClauseKind Kind;
        /// <summary>Where the code begins that it is about.</summary>
        public uint TryBegin;
        /// <summary>Where that code ends.</summary>
        public uint TryEnd;
        /// <summary>Where its handler begins.</summary>
        public uint HandlerBegin;
        /// <summary>Where its handler ends.</summary>
        public uint HandlerEnd;
        /// <summary>The token of the class, or the offset of the filter; 0 of the others.</summary>
        public uint Extra;

        (EncClauseKind, uint, uint, uint, uint, uint) Key => (Kind, TryBegin, TryEnd, HandlerBegin, HandlerEnd, Extra);

        /// <summary>Whether all of it is equal.</summary>
        public bool Equals(EncClause other) => Key.Equals(other.Key);

        /// <summary>Whether the other is one too, and all of it is equal.</summary>
        public override bool Equals(object other) => other is EncClause && Equals((EncClause)other);

        /// <summary>Equal where all of it is equal.</summary>
        public override int GetHashCode() => Key.GetHashCode();

        /// <summary>Its kind, its ranges, and what it catches: catch IL_0001-IL_000c
        /// IL_000c-IL_0014 01000005.</summary>
        public override string ToString() => $"{Kind.ToString().ToLowerInvariant()} IL_{TryBegin:x4}-IL_{TryEnd:x4} "
            + $"IL_{HandlerBegin:x4}-IL_{HandlerEnd:x4}"
            + (Kind == EncClauseKind.Catch ? $" {Extra:x8}" : Kind == EncClauseKind.Filter ? $" IL_{Extra:x4}" : "");
    }

    /// <summary>The body of a method.</summary>
    public sealed class EncBody
    {
        /// <summary>The code, without header and clauses.</summary>
        public byte[] Code { get; internal set; }
        /// <summary>The most values on the stack.</summary>
        public uint Stack { get; internal set; }
        /// <summary>The token of the local signature; 0 where there are no locals.</summary>
        public uint Locals { get; internal set; }
        /// <summary>Whether locals begin as zeros.</summary>
        public bool Init { get; internal set; }
        /// <summary>The exception clauses; null in a body of EncGeneration, of which the library tells none.</summary>
        public EncClause[] Clauses { get; internal set; }
    }

    /// <summary>A token of a generation's EncMap.</summary>
    [DebuggerDisplay("{ToString(),nq}")]
    public struct EncEntry : IEquatable<EncEntry>
    {
        /// <summary>The token.</summary>
        public uint Token;
        internal uint inserted;

        /// <summary>Whether the generation inserts the row; else it updates it.</summary>
        public bool IsInserted => inserted != 0;

        (uint, uint) Key => (Token, inserted);

        /// <summary>Whether all of it is equal.</summary>
        public bool Equals(EncEntry other) => Key.Equals(other.Key);

        /// <summary>Whether the other is one too, and all of it is equal.</summary>
        public override bool Equals(object other) => other is EncEntry && Equals((EncEntry)other);

        /// <summary>Equal where all of it is equal.</summary>
        public override int GetHashCode() => Key.GetHashCode();

        /// <summary>As enc list prints it: 06000003 update.</summary>
        public override string ToString() => $"{Token:x8} {(IsInserted ? "insert" : "update")}";
    }

    /// <summary>How long a generation's own heaps are.</summary>
    [DebuggerDisplay("{ToString(),nq}")]
    public struct EncLengths : IEquatable<EncLengths>
    {
        /// <summary>Bytes of #Strings.</summary>
        public uint Strings;
        /// <summary>Bytes of #US.</summary>
        public uint Users;
        /// <summary>Bytes of #Blob.</summary>
        public uint Blobs;
        /// <summary>Whole entries of #GUID.</summary>
        public uint Guids;

        (uint, uint, uint, uint) Key => (Strings, Users, Blobs, Guids);

        /// <summary>Whether all of it is equal.</summary>
        public bool Equals(EncLengths other) => Key.Equals(other.Key);

        /// <summary>Whether the other is one too, and all of it is equal.</summary>
        public override bool Equals(object other) => other is EncLengths && Equals((EncLengths)other);

        /// <summary>Equal where all of it is equal.</summary>
        public override int GetHashCode() => Key.GetHashCode();

        /// <summary>As enc list prints it: strings 64 users 40 blobs 32 guids 3.</summary>
        public override string ToString() => $"strings {Strings} users {Users} blobs {Blobs} guids {Guids}";
    }

    /// <summary>A pair of offsets of a remap, or of tokens that Compact moved.</summary>
    [DebuggerDisplay("{ToString(),nq}")]
    public struct EncPair : IEquatable<EncPair>
    {
        /// <summary>Where it was.</summary>
        public uint From;
        /// <summary>Where it is now.</summary>
        public uint To;

        /// <summary>A pair.</summary>
        public EncPair(uint from, uint to)
        {
            From = from;
            To = to;
        }

        (uint, uint) Key => (From, To);

        /// <summary>Whether all of it is equal.</summary>
        public bool Equals(EncPair other) => Key.Equals(other.Key);

        /// <summary>Whether the other is one too, and all of it is equal.</summary>
        public override bool Equals(object other) => other is EncPair && Equals((EncPair)other);

        /// <summary>Equal where all of it is equal.</summary>
        public override int GetHashCode() => Key.GetHashCode();

        /// <summary>Both, as eight digits: 06000003 06000005.</summary>
        public override string ToString() => $"{From:x8} {To:x8}";
    }

    /// <summary>The three files of a delta.</summary>
    public sealed class EncDelta
    {
        static readonly string[][] endings = { new[] { ".meta", ".il", ".pdb" }, new[] { ".dmeta", ".dil", ".dpdb" } };

        /// <summary>The metadata.</summary>
        public byte[] Metadata { get; }
        /// <summary>The code.</summary>
        public byte[] Il { get; }
        /// <summary>The Portable PDB; null where there is none.</summary>
        public byte[] Pdb { get; }

        /// <summary>A delta of these bytes.</summary>
        public EncDelta(byte[] metadata, byte[] il, byte[] pdb = null)
        {
            Metadata = metadata ?? throw new ArgumentNullException(nameof(metadata));
            Il = il ?? throw new ArgumentNullException(nameof(il));
            Pdb = pdb;
        }

        /// <summary>Reads NAME.meta, NAME.il and, where it is there, NAME.pdb. Where there is no NAME.meta it reads
        /// NAME.dmeta, NAME.dil and NAME.dpdb, as hotreload-delta-gen calls them.</summary>
        public static EncDelta Load(string name)
        {
            string[] ends = File.Exists(name + ".meta") || !File.Exists(name + ".dmeta") ? endings[0] : endings[1];
            byte[] metadata = File.ReadAllBytes(name + ends[0]), il = File.ReadAllBytes(name + ends[1]);
            return new EncDelta(metadata, il, File.Exists(name + ends[2]) ? File.ReadAllBytes(name + ends[2]) : null);
        }

        /// <summary>Writes NAME.meta, NAME.il and, where it has one, NAME.pdb.</summary>
        public void Save(string name)
        {
            File.WriteAllBytes(name + ".meta", Metadata);
            File.WriteAllBytes(name + ".il", Il);
            if (Pdb != null) File.WriteAllBytes(name + ".pdb", Pdb);
        }
    }

    /// <summary>The one module with all edits, and its PDB.</summary>
    public sealed class EncSaved
    {
        /// <summary>The module.</summary>
        public byte[] Image { get; internal set; }
        /// <summary>Its Portable PDB.</summary>
        public byte[] Pdb { get; internal set; }
        /// <summary>The tokens that Compact moved, by rising From; none after Save.</summary>
        public EncPair[] Moves { get; internal set; }

        /// <summary>Writes NAME.dll and NAME.pdb.</summary>
        public void Save(string name)
        {
            File.WriteAllBytes(name + ".dll", Image);
            File.WriteAllBytes(name + ".pdb", Pdb);
        }
    }

    /// <summary>Something that is open in the library until it is disposed.</summary>
    public abstract class EncHandle : IDisposable
    {
        internal readonly Keeper keeper;

        internal EncHandle(Keeper keeper)
        {
            this.keeper = keeper;
        }

        // Where the library keeps its pointer.
        internal ref IntPtr Ptr => ref keeper.Ptr;

        /// <summary>Frees what it held, behind a call that runs; every later call throws ObjectDisposedException.
        /// </summary>
        public void Dispose()
        {
            keeper.Dispose();
        }

        // Asks, and throws unless it is done.
        internal void Must(Func<uint> ask, About about = default(About))
        {
            uint status = keeper.Call(ask);
            if (status != 0) throw EncException.Of(status, about);
        }

        // Asks: false where there is no such thing.
        internal bool Told(Func<uint> ask, About about = default(About))
        {
            uint status = keeper.Call(ask);
            if (status != 0 && status != (uint)EncStatus.Absent) throw EncException.Of(status, about);
            return status == 0;
        }

        // The items that a call copies; null where there is no such thing.
        internal T[] Copied<T>(Func<Room<T>, uint> copy, About about = default(About))
        {
            var room = new Room<T>(64);
            return Told(() => room.Asked(() => copy(room)), about) ? room.Taken() : null;
        }

        // The same of what has to be there.
        internal T[] CopiedAll<T>(Func<Room<T>, uint> copy, About about = default(About))
        {
            return Copied(copy, about) ?? throw EncException.Of((uint)EncStatus.Absent, about);
        }

        // Several calls while no other thread makes one.
        internal T Together<T>(Func<T> asks)
        {
            lock (keeper.Gate) return asks();
        }

        // Asks what may be refused, with rooms that are made larger where they are too short; null where it is done.
        internal EncRefusal Judged(string asked, Func<Why, uint> ask, params Room[] rooms)
        {
            var why = new Why();
            uint status = keeper.Call(() => Room.Asked(() => ask(why), rooms));
            if (status == (uint)EncStatus.Refused) return new EncRefusal(why.Numbers, asked);
            if (status != 0) throw EncException.Of(status);
            return null;
        }

        // What was opened; nothing of what was refused.
        internal static T Opened<T>(T made, EncRefusal refusal) where T : EncHandle
        {
            if (refusal == null) return made;
            made.Dispose();
            return null;
        }

        // Throws what is refused.
        internal static void Accept(EncRefusal refusal)
        {
            if (refusal != null) throw new EncRefusedException(refusal);
        }
    }

    /// <summary>A module: a base with the deltas that follow it and their PDBs. Tokens are numbers as in IL, 0 is
    /// nil, and columns count from 0 in the order of ECMA-335 II.22. What isn't there is null or throws an
    /// EncException with status Absent, as each member says; what is of another kind throws one with Unlike.</summary>
    [DebuggerDisplay("{ToString(),nq}")]
    public sealed class EncModule : EncHandle
    {
        const uint types = 0x02, fields = 0x04, methods = 0x06, events = 0x14, properties = 0x17, nested = 0x29;
        Dictionary<uint, uint> enclosing;

        EncModule() : base(new Keeper(Native.Close)) { }

        /// <summary>The release of the native library that is loaded, such as 0.9.0.</summary>
        public static Version LibraryVersion
        {
            get
            {
                uint release = Native.Release();
                return new Version((int)(release >> 16), (int)(release >> 8 & 0xff), (int)(release & 0xff));
            }
        }

        /// <summary>Judges a base, with its Portable PDB where that has bytes, and opens it.</summary>
        /// <exception cref="EncRefusedException">It breaks a rule.</exception>
        public static EncModule Open(byte[] image, byte[] pdb = null)
        {
            TryOpen(image, pdb, out EncModule module, out EncRefusal refusal);
            Accept(refusal);
            return module;
        }

        /// <summary>The same: false, no module and the refusal, where it breaks a rule.</summary>
        public static bool TryOpen(byte[] image, byte[] pdb, out EncModule module, out EncRefusal refusal)
        {
            if (image == null) throw new ArgumentNullException(nameof(image));
            var made = new EncModule();
            refusal = made.Judged("", why => Native.Open(ref made.Ptr, image, Size.Of(image), pdb, Size.Of(pdb),
                                                         ref why.Numbers));
            module = Opened(made, refusal);
            return refusal == null;
        }

        /// <summary>Reads NAME, or NAME.dll where NAME doesn't end in .dll or .exe, and the .pdb beside it where there
        /// is one.</summary>
        public static EncModule Load(string name)
        {
            return Open(Files.Image(name), Files.Pdb(name));
        }

        /// <summary>Judges a delta after those before it, with its PDB where that has bytes, and adds it.</summary>
        /// <exception cref="EncRefusedException">It breaks a rule; the module stays as it was.</exception>
        public void Apply(byte[] metadata, byte[] il, byte[] pdb = null)
        {
            Apply(new EncDelta(metadata, il, pdb));
        }

        /// <summary>The same of the files of a delta.</summary>
        public void Apply(EncDelta delta)
        {
            TryApply(delta, out EncRefusal refusal);
            Accept(refusal);
        }

        /// <summary>The same: false, and the refusal, where the delta breaks a rule.</summary>
        public bool TryApply(byte[] metadata, byte[] il, byte[] pdb, out EncRefusal refusal)
        {
            return TryApply(new EncDelta(metadata, il, pdb), out refusal);
        }

        /// <summary>The same of the files of a delta.</summary>
        public bool TryApply(EncDelta delta, out EncRefusal refusal)
        {
            if (delta == null) throw new ArgumentNullException(nameof(delta));
            byte[] meta = delta.Metadata, il = delta.Il, pdb = delta.Pdb;
            refusal = Together(() =>
            {
                enclosing = null;
                return Judged("", why => Native.Apply(ref Ptr, meta, Size.Of(meta), il, Size.Of(il), pdb,
                                                      Size.Of(pdb), ref why.Numbers));
            });
            return refusal == null;
        }

        /// <summary>Whether Apply would add a delta: true, or false and the refusal. Nothing is added.</summary>
        public bool Check(EncDelta delta, out EncRefusal refusal)
        {
            if (delta == null) throw new ArgumentNullException(nameof(delta));
            byte[] meta = delta.Metadata, il = delta.Il, pdb = delta.Pdb;
            refusal = Judged("", why => Native.Check(ref Ptr, meta, Size.Of(meta), il, Size.Of(il), pdb, Size.Of(pdb),
                                                     ref why.Numbers));
            return refusal == null;
        }

        /// <summary>The one module with all edits, its tokens unchanged, and its PDB.</summary>
        /// <exception cref="EncRefusedException">What would be saved is too large (L4).</exception>
        public EncSaved Save()
        {
            Room<byte> image = new Room<byte>(Files.Guess), pdb = new Room<byte>(Files.Guess);
            Accept(Judged("", why => Native.Save(ref Ptr, image.Items, image.Length, ref image.Size,
                                                 pdb.Items, pdb.Length, ref pdb.Size, ref why.Numbers), image, pdb));
            return new EncSaved { Image = image.Taken(), Pdb = pdb.Taken(), Moves = new EncPair[0] };
        }

        /// <summary>The same as an ordinary module, and the tokens that moved.</summary>
        /// <exception cref="EncRefusedException">What would be saved is too large (L4).</exception>
        public EncSaved Compact()
        {
            Room<byte> image = new Room<byte>(Files.Guess), pdb = new Room<byte>(Files.Guess);
            var moves = new Room<EncPair>(64);
            Accept(Judged("", why => Native.Compact(ref Ptr, image.Items, image.Length, ref image.Size,
                                                    pdb.Items, pdb.Length, ref pdb.Size,
                                                    moves.Items, moves.Length, ref moves.Size, ref why.Numbers),
                          image, pdb, moves));
            return new EncSaved { Image = image.Taken(), Pdb = pdb.Taken(), Moves = moves.Taken() };
        }

        /// <summary>One delta that stands for the last two. With fewer than two it throws an EncException with
        /// status Few, and with Limit where one of them is longer than 2^26 bytes.</summary>
        /// <exception cref="EncRefusedException">It would be too large (L4), or references lie too deep (G1).
        /// </exception>
        public EncDelta Merge()
        {
            return Written("merge ", (meta, il, pdb, why) =>
                Native.Merge(ref Ptr, meta.Items, meta.Length, ref meta.Size, il.Items, il.Length, ref il.Size,
                             pdb.Items, pdb.Length, ref pdb.Size, ref why.Numbers));
        }

        /// <summary>The delta that makes the edits of an edit list (docs/edits.md) after those before it.</summary>
        /// <exception cref="EncRefusedException">The list isn't of the form (J1, J2), or an edit breaks a rule.
        /// </exception>
        public EncDelta Write(string json)
        {
            byte[] list = Encoding.UTF8.GetBytes(json);
            return Written("", (meta, il, pdb, why) =>
                Native.Write(ref Ptr, list, Size.Of(list), meta.Items, meta.Length, ref meta.Size, il.Items, il.Length,
                             ref il.Size, pdb.Items, pdb.Length, ref pdb.Size, ref why.Numbers));
        }

        EncDelta Written(string asked, Func<Room<byte>, Room<byte>, Room<byte>, Why, uint> ask)
        {
            Room<byte> meta = new Room<byte>(Files.Guess), il = new Room<byte>(Files.Guess);
            var pdb = new Room<byte>(Files.Guess);
            Accept(Judged(asked, why => ask(meta, il, pdb, why), meta, il, pdb));
            return new EncDelta(meta.Taken(), il.Taken(), pdb.Taken());
        }

        /// <summary>How many generations there are, the base among them.</summary>
        public uint Generations
        {
            get
            {
                uint count = 0;
                Must(() => Native.Generations(ref Ptr, ref count));
                return count;
            }
        }

        /// <summary>How many deltas it has, or that it is closed.</summary>
        public override string ToString()
        {
            return keeper.IsClosed ? "EncModule, closed" : "EncModule with " + (Generations - 1) + " deltas";
        }

        /// <summary>How many rows a table has.</summary>
        public uint Count(byte table)
        {
            uint count = 0;
            Must(() => Native.Count(ref Ptr, table, ref count));
            return count;
        }

        /// <summary>The tokens of all rows of a table, in their order.</summary>
        public IEnumerable<uint> Rows(byte table)
        {
            uint count = Count(table);
            for (uint row = 1; row <= count; row++) yield return (uint)table << 24 | row;
        }

        /// <summary>Whether there is a row with this token.</summary>
        public bool Has(uint token)
        {
            var place = new EncPlace();
            return Told(() => Native.Locate(ref Ptr, token, ref place));
        }

        /// <summary>Where the newest place of a row is.</summary>
        public EncPlace Locate(uint token)
        {
            var place = new EncPlace();
            Must(() => Native.Locate(ref Ptr, token, ref place), About.Row(token));
            return place;
        }

        /// <summary>In which generation's heap an offset of a joined heap is, and where; null where it isn't in it.
        /// For #GUID the offset is the number of an entry.</summary>
        public EncPlace? LocateHeap(EncStream heap, uint offset)
        {
            var place = new EncPlace();
            return Told(() => Native.LocateHeap(ref Ptr, (uint)heap, offset, ref place)) ? place : (EncPlace?)null;
        }

        /// <summary>The number in a column.</summary>
        public uint Number(uint token, byte column)
        {
            uint number = 0;
            Must(() => Native.Number(ref Ptr, token, column, ref number), About.Cell(token, column));
            return number;
        }

        /// <summary>The token in a column of an index; 0 where it is nil.</summary>
        public uint Token(uint token, byte column)
        {
            uint found = 0;
            Must(() => Native.Token(ref Ptr, token, column, ref found), About.Cell(token, column));
            return found;
        }

        /// <summary>The text in a column.</summary>
        public string Text(uint token, byte column)
        {
            return Size.Utf8(CopiedAll<byte>(b => Native.Text(ref Ptr, token, column, b.Items, b.Length, ref b.Size),
                                             About.Cell(token, column)));
        }

        /// <summary>The bytes of the blob in a column.</summary>
        public byte[] Blob(uint token, byte column)
        {
            return CopiedAll<byte>(b => Native.Blob(ref Ptr, token, column, b.Items, b.Length, ref b.Size),
                                   About.Cell(token, column));
        }

        /// <summary>The GUID in a column; all zeros where it is nil.</summary>
        public Guid Guid(uint token, byte column)
        {
            byte[] bytes = CopiedAll<byte>(b => Native.Guid(ref Ptr, token, column, b.Items, b.Length, ref b.Size),
                                           About.Cell(token, column));
            return bytes.Length == 16 ? new Guid(bytes) : System.Guid.Empty;
        }

        /// <summary>The row that owns a row of Field, MethodDef, Param, Event or Property.</summary>
        public uint Owner(uint token)
        {
            uint owner = 0;
            Must(() => Native.Owner(ref Ptr, token, ref owner), About.Row(token));
            return owner;
        }

        /// <summary>The tokens that a row owns in such a table, in order of attachment.</summary>
        public uint[] Children(uint token, byte table)
        {
            uint[] rows = CopiedAll<uint>(b => Native.Kids(ref Ptr, token, table, b.Items, b.Length, ref b.Size),
                                          About.Row(token));
            return Tokens(table, rows);
        }

        /// <summary>The row as enc show prints it; null where there is none.</summary>
        public string Row(uint token)
        {
            return Size.Utf8(Copied<byte>(b => Native.Row(ref Ptr, token, b.Items, b.Length, ref b.Size)));
        }

        /// <summary>The newest body of a method; null where it has none.</summary>
        public EncBody Body(uint method)
        {
            return Together(() => BodyOf(method));
        }

        EncBody BodyOf(uint method)
        {
            var head = new Native.Head();
            byte[] code = Copied<byte>(b => Native.Code(ref Ptr, method, b.Items, b.Length, ref b.Size, ref head),
                                       About.Row(method));
            if (code == null) return null;
            var clauses = Copied<EncClause>(b => Native.Clauses(ref Ptr, method, b.Items, b.Length, ref b.Size));
            return head.Body(code, clauses);
        }

        /// <summary>The sequence points of a method, from the newest file that has them; none where none has.
        /// </summary>
        public EncPoint[] Points(uint method)
        {
            return Together(() => PointsOf(method));
        }

        EncPoint[] PointsOf(uint method)
        {
            var points = CopiedAll<Native.Point>(b => Native.Points(ref Ptr, method, b.Items, b.Length, ref b.Size),
                                                 About.Row(method));
            return Native.Point.Named(points, number =>
                Copied<byte>(b => Native.Document(ref Ptr, method, number, b.Items, b.Length, ref b.Size)));
        }

        /// <summary>The user text at an offset, as ldstr names it with 70 in the top byte or without; null where
        /// there is none.</summary>
        public string UserText(uint offset)
        {
            uint at = offset & 0xFFFFFF;
            byte[] units = Copied<byte>(b => Native.UserText(ref Ptr, at, b.Items, b.Length, ref b.Size));
            return units == null ? null : Encoding.Unicode.GetString(units);
        }

        /// <summary>The EncId of a generation, all zeros for the base.</summary>
        public Guid Id(uint generation)
        {
            return new Guid(CopiedAll<byte>(b => Native.Id(ref Ptr, generation, b.Items, b.Length, ref b.Size),
                                            About.Generation(generation)));
        }

        /// <summary>The tokens of a generation's EncMap in its order; the base has none.</summary>
        public EncEntry[] Entries(uint generation)
        {
            return CopiedAll<EncEntry>(b => Native.Entries(ref Ptr, generation, b.Items, b.Length, ref b.Size),
                                       About.Generation(generation));
        }

        /// <summary>How long a generation's own heaps are.</summary>
        public EncLengths Lengths(uint generation)
        {
            var lengths = new EncLengths();
            Must(() => Native.Lengths(ref Ptr, generation, ref lengths), About.Generation(generation));
            return lengths;
        }

        /// <summary>What the module said after the first so many deltas.</summary>
        public EncGeneration At(uint generation)
        {
            return new EncGeneration(this, generation);
        }

        /// <summary>The token of a type, or of a member of one, by its name; 0 where there is none. See FindAll.
        /// </summary>
        public uint Find(string name)
        {
            uint[] found = FindAll(name);
            return found.Length > 0 ? found[0] : 0;
        }

        /// <summary>The tokens with a name: that of a type, as Space.Type or Space.Type/Nested (or with +), or else
        /// those of the fields, methods, properties and events Space.Type.Member, in this order.</summary>
        public uint[] FindAll(string name)
        {
            return Together(() => AllNamed(name));
        }

        uint[] AllNamed(string name)
        {
            uint type = FindType(name);
            if (type != 0) return new[] { type };
            for (int dot = name.LastIndexOf('.'); dot > 0; dot = name.LastIndexOf('.', dot - 1))
            {
                type = FindType(name.Substring(0, dot));
                uint[] found = type == 0 ? new uint[0] : Members(type, name.Substring(dot + 1));
                if (found.Length > 0) return found;
            }
            return new uint[0];
        }

        /// <summary>The token of a type by its name, as Space.Type/Nested (or with +); 0 where there is none. The
        /// space ends at the last dot of the outermost name.</summary>
        public uint FindType(string name)
        {
            string[] names = name.Split('/', '+');
            int dot = names[0].LastIndexOf('.');
            uint type = dot < 0 ? FindType(0, "", names[0])
                                : FindType(0, names[0].Substring(0, dot), names[0].Substring(dot + 1));
            for (int i = 1; i < names.Length && type != 0; i++) type = FindType(type, "", names[i]);
            return type;
        }

        /// <summary>The first type with these names, nested in another, or in none where that is 0; 0 where there is
        /// none.</summary>
        public uint FindType(uint outer, string space, string name)
        {
            byte[] first = Encoding.UTF8.GetBytes(space), second = Encoding.UTF8.GetBytes(name);
            uint token = 0;
            Told(() => Native.FindType(ref Ptr, outer, first, Size.Of(first), second, Size.Of(second), ref token));
            return token;
        }

        /// <summary>The tokens of a child table (Field 04, MethodDef 06, Param 08, Event 14, Property 17) with this
        /// name that belong to a row.</summary>
        public uint[] FindMembers(uint owner, byte table, string name)
        {
            byte[] said = Encoding.UTF8.GetBytes(name);
            return Tokens(table, CopiedAll<uint>(b => Native.FindMember(ref Ptr, owner, table, said, Size.Of(said),
                                                                        b.Items, b.Length, ref b.Size),
                                          About.Row(owner)));
        }

        uint[] Members(uint type, string name)
        {
            var found = new List<uint>();
            foreach (uint table in new[] { fields, methods, properties, events })
                found.AddRange(FindMembers(type, (byte)table, name));
            return found.ToArray();
        }

        static uint[] Tokens(byte table, uint[] rows)
        {
            return Array.ConvertAll(rows, row => (uint)table << 24 | row);
        }

        /// <summary>The name of a row: Space.Type/Nested of types and references to them, Type.Member of members,
        /// and else its own; null where there is no such row, or it has no name.</summary>
        public string Name(uint token)
        {
            return Together(() => Has(token) ? Named(token, 100) : null);
        }

        // A name that goes through no more scopes than a depth; of rows that lead back into themselves it ends there.
        string Named(uint token, int depth)
        {
            switch (token >> 24)
            {
                case 0x01: return NamedType(token, 1, Scope(Token(token, 0), 0x01), depth);
                case types: return NamedType(token, 1, Outer(token), depth);
                case 0x27: return NamedType(token, 2, Scope(Token(token, 4), 0x27), depth);
                case fields: case events: case properties: return Owned(TypeOf(token), Text(token, 1), depth);
                case methods: return Owned(TypeOf(token), Text(token, 3), depth);
                case 0x0A: return Owned(Token(token, 0), Text(token, 1), depth);
                case 0x2B: return Named(Token(token, 0), depth);
                default: return OwnName(token);
            }
        }

        string OwnName(uint token)
        {
            switch (token >> 24)
            {
                case 0x00: case 0x26: return Text(token, 1);
                case 0x08: case 0x28: return Text(token, 2);
                case 0x1A: return Text(token, 0);
                case 0x20: return Text(token, 7);
                case 0x23: return Text(token, 6);
                case 0x2A: return Text(token, 3);
                default: return null;
            }
        }

        string NamedType(uint token, byte column, uint outer, int depth)
        {
            string space = Text(token, (byte)(column + 1)), name = Text(token, column);
            if (space != "") name = space + "." + name;
            return outer == 0 || depth == 0 ? name : Named(outer, depth - 1) + "/" + name;
        }

        string Owned(uint owner, string name, int depth)
        {
            string of = owner == 0 || depth == 0 ? null : Named(owner, depth - 1);
            return of == null ? name : of + "." + name;
        }

        static uint Scope(uint token, uint table)
        {
            return token >> 24 == table ? token : 0;
        }

        // The type of a field, a method, an event or a property; the last two belong to rows of EventMap, PropertyMap.
        uint TypeOf(uint member)
        {
            uint owner = Owner(member);
            return owner >> 24 == types ? owner : Token(owner, 0);
        }

        // The type that a type is nested in, by the rows of NestedClass, which are gone over once after each delta.
        uint Outer(uint type)
        {
            if (enclosing == null)
            {
                var all = new Dictionary<uint, uint>();
                foreach (uint row in Rows((byte)nested)) all[Token(row, 0)] = Token(row, 1);
                enclosing = all;
            }
            return enclosing.TryGetValue(type, out uint outer) ? outer : 0;
        }
    }

    /// <summary>A module as it was after its first deltas, though more may have been applied since. It lives as long
    /// as the module.</summary>
    public sealed class EncGeneration
    {
        readonly EncModule module;

        /// <summary>How many deltas it has: 0 is the base.</summary>
        public uint Number { get; }

        internal EncGeneration(EncModule module, uint number)
        {
            if (number >= module.Generations) throw EncException.Of((uint)EncStatus.Later, About.Generation(number));
            this.module = module;
            Number = number;
        }

        /// <summary>The EncId of its last delta, all zeros for the base.</summary>
        public Guid Id => module.Id(Number);

        /// <summary>The tokens of its last delta's EncMap; the base has none.</summary>
        public EncEntry[] Entries => module.Entries(Number);

        /// <summary>How long its last delta's own heaps are.</summary>
        public EncLengths Lengths => module.Lengths(Number);

        /// <summary>How many rows a table had.</summary>
        public uint Count(byte table)
        {
            uint count = 0;
            module.Must(() => Native.CountAt(ref module.Ptr, Number, table, ref count));
            return count;
        }

        /// <summary>The row as enc show printed it; null where there was none.</summary>
        public string Row(uint token)
        {
            return Size.Utf8(module.Copied<byte>(b => Native.RowAt(ref module.Ptr, Number, token, b.Items, b.Length,
                                                                   ref b.Size)));
        }

        /// <summary>The body of a method, without its clauses; null where it had none.</summary>
        public EncBody Body(uint method)
        {
            var head = new Native.Head();
            byte[] code = module.Copied<byte>(b => Native.CodeAt(ref module.Ptr, Number, method, b.Items, b.Length,
                                                                 ref b.Size, ref head));
            return code == null ? null : head.Body(code, null);
        }

        /// <summary>The sequence points of a method.</summary>
        public EncPoint[] Points(uint method)
        {
            var points = module.CopiedAll<Native.Point>(b => Native.PointsAt(ref module.Ptr, Number, method, b.Items,
                                                                             b.Length, ref b.Size));
            return Native.Point.Named(points, number =>
                module.Copied<byte>(b => Native.DocumentAt(ref module.Ptr, Number, method, number, b.Items, b.Length,
                                                           ref b.Size)));
        }

        /// <summary>The rule that forbids a frame of this generation to go on in the newest body of its method, of
        /// Q3 to Q7 of docs/scripts.md (EncRules.Words says what it says); null where it may.</summary>
        public string MayRemap(uint method, uint offset, params EncPair[] map)
        {
            uint rule = 0;
            module.Must(() => Native.MayRemap(ref module.Ptr, method, Number, offset, map, Size.Of(map), ref rule),
                        About.Row(method));
            return rule == 0 ? null : "Q" + rule;
        }
    }

    /// <summary>How it stands with a task.</summary>
    public enum EncTaskState : uint
    {
        /// <summary>It runs.</summary>
        Running = 0,
        /// <summary>Its last frame was left.</summary>
        Ended = 1,
        /// <summary>It stopped in front of an instruction.</summary>
        Trapped = 2
    }

    /// <summary>How it stands with a task, and how many steps it made.</summary>
    [DebuggerDisplay("{ToString(),nq}")]
    public struct EncStepped : IEquatable<EncStepped>
    {
        /// <summary>How many steps were made; one that trapped isn't counted.</summary>
        public uint Ran;
        /// <summary>How it stands with the task.</summary>
        public EncTaskState State;
        /// <summary>The number of the trap, from 1, of a task that trapped; else 0.</summary>
        public uint Trap;

        /// <summary>As enc run prints it: running, ended, trapped X5.</summary>
        public override string ToString()
        {
            return State.ToString().ToLowerInvariant() + (State == EncTaskState.Trapped ? " X" + Trap : "");
        }

        (uint, EncTaskState, uint) Key => (Ran, State, Trap);

        /// <summary>Whether all of it is equal.</summary>
        public bool Equals(EncStepped other) => Key.Equals(other.Key);

        /// <summary>Whether the other is one too, and all of it is equal.</summary>
        public override bool Equals(object other) => other is EncStepped && Equals((EncStepped)other);

        /// <summary>Equal where all of it is equal.</summary>
        public override int GetHashCode() => Key.GetHashCode();
    }

    /// <summary>What a remap came to.</summary>
    [DebuggerDisplay("{ToString(),nq}")]
    public struct EncRemapped : IEquatable<EncRemapped>
    {
        /// <summary>0 where the frame was moved; else the number of the rule that was broken, from 1.</summary>
        public uint Number;
        /// <summary>The method of the frame that was moved.</summary>
        public uint Method;
        /// <summary>The offset where it stood.</summary>
        public uint From;
        /// <summary>The offset where it goes on.</summary>
        public uint To;

        /// <summary>Whether the frame was moved.</summary>
        public bool IsMoved => Number == 0;

        /// <summary>The rule that was broken, as Q3, whose words EncRules.Words gives; null where none was.</summary>
        public string Rule => IsMoved ? null : "Q" + Number;

        (uint, uint, uint, uint) Key => (Number, Method, From, To);

        /// <summary>Whether all of it is equal.</summary>
        public bool Equals(EncRemapped other) => Key.Equals(other.Key);

        /// <summary>Whether the other is one too, and all of it is equal.</summary>
        public override bool Equals(object other) => other is EncRemapped && Equals((EncRemapped)other);

        /// <summary>Equal where all of it is equal.</summary>
        public override int GetHashCode() => Key.GetHashCode();

        /// <summary>The rule that was broken, or what was moved: 06000003 IL_0001 IL_000f.</summary>
        public override string ToString() => Rule ?? $"{Method:x8} IL_{From:x4} IL_{To:x4}";
    }

    /// <summary>A frame of a task.</summary>
    [DebuggerDisplay("{ToString(),nq}")]
    public struct EncFrame : IEquatable<EncFrame>
    {
        /// <summary>Its method.</summary>
        public uint Method;
        /// <summary>The generation of its body.</summary>
        public uint Generation;
        /// <summary>The offset of its next instruction.</summary>
        public uint Offset;
        /// <summary>The line of the source there; 0 where none is known.</summary>
        public uint Line;
        /// <summary>How many arguments it has.</summary>
        public uint Arguments;
        /// <summary>How many local variables.</summary>
        public uint Locals;
        /// <summary>How many values on its stack.</summary>
        public uint Stack;

        (uint, uint, uint, uint, uint, uint, uint) Key => (Method, Generation, Offset, Line, Arguments, Locals, Stack);

        /// <summary>Whether all of it is equal.</summary>
        public bool Equals(EncFrame other) => Key.Equals(other.Key);

        /// <summary>Whether the other is one too, and all of it is equal.</summary>
        public override bool Equals(object other) => other is EncFrame && Equals((EncFrame)other);

        /// <summary>Equal where all of it is equal.</summary>
        public override int GetHashCode() => Key.GetHashCode();

        /// <summary>Its method, where it stands and its body's generation: 06000003 IL_000f line 10
        /// generation 1.</summary>
        public override string ToString() => $"{Method:x8} IL_{Offset:x4} line {Line} generation {Generation}";
    }

    /// <summary>Which values of a frame are asked for.</summary>
    public enum EncPart : uint
    {
        /// <summary>Its arguments.</summary>
        Arguments = 0,
        /// <summary>Its local variables.</summary>
        Locals = 1,
        /// <summary>Its stack, from the bottom.</summary>
        Stack = 2
    }

    /// <summary>The kind of a value.</summary>
    public enum EncValueKind : uint
    {
        /// <summary>An integer of 32 bits.</summary>
        Int32 = 0,
        /// <summary>An integer of 64 bits.</summary>
        Int64 = 1,
        /// <summary>Null.</summary>
        Null = 2,
        /// <summary>An object.</summary>
        Object = 3
    }

    /// <summary>A value of a frame.</summary>
    [DebuggerDisplay("{ToString(),nq}")]
    public struct EncValue : IEquatable<EncValue>
    {
        /// <summary>Its kind.</summary>
        public EncValueKind Kind;
        /// <summary>The number of an object, from 1; else 0.</summary>
        public uint Object;
        /// <summary>An integer; else 0.</summary>
        public long Number;

        /// <summary>As enc run prints it: 5, 5L, null, #3.</summary>
        public override string ToString()
        {
            switch (Kind)
            {
                case EncValueKind.Int32: return Number.ToString();
                case EncValueKind.Int64: return Number + "L";
                case EncValueKind.Null: return "null";
                default: return "#" + Object;
            }
        }

        (EncValueKind, uint, long) Key => (Kind, Object, Number);

        /// <summary>Whether all of it is equal.</summary>
        public bool Equals(EncValue other) => Key.Equals(other.Key);

        /// <summary>Whether the other is one too, and all of it is equal.</summary>
        public override bool Equals(object other) => other is EncValue && Equals((EncValue)other);

        /// <summary>Equal where all of it is equal.</summary>
        public override int GetHashCode() => Key.GetHashCode();
    }

    /// <summary>What happened in a session.</summary>
    public enum EncEventKind : uint
    {
        /// <summary>A task began: Task, Method.</summary>
        Spawned = 1,
        /// <summary>A method was entered: Task, Method.</summary>
        Entered = 2,
        /// <summary>A method was left: Task, Method.</summary>
        Left = 3,
        /// <summary>A line was reached: Task, Method; Detail is the line.</summary>
        Line = 4,
        /// <summary>A delta was applied: Detail is the generation.</summary>
        Applied = 5,
        /// <summary>A delta was refused: Detail is the letter of the rule times 256, and its number.</summary>
        DeltaRefused = 6,
        /// <summary>A task trapped: Task; Detail is the number of the trap.</summary>
        TaskTrapped = 7,
        /// <summary>A task ended: Task.</summary>
        TaskEnded = 8
    }

    /// <summary>Something that happened in a session.</summary>
    [DebuggerDisplay("{ToString(),nq}")]
    public struct EncEvent : IEquatable<EncEvent>
    {
        /// <summary>Its kind, which says what the other fields have.</summary>
        public EncEventKind Kind;
        /// <summary>The task; 0 where there is none.</summary>
        public uint Task;
        /// <summary>The token of the method; 0 where there is none.</summary>
        public uint Method;
        /// <summary>The line, the generation, the rule or the trap; 0 where there is none.</summary>
        public uint Detail;

        (EncEventKind, uint, uint, uint) Key => (Kind, Task, Method, Detail);

        /// <summary>Whether all of it is equal.</summary>
        public bool Equals(EncEvent other) => Key.Equals(other.Key);

        /// <summary>Whether the other is one too, and all of it is equal.</summary>
        public override bool Equals(object other) => other is EncEvent && Equals((EncEvent)other);

        /// <summary>Equal where all of it is equal.</summary>
        public override int GetHashCode() => Key.GetHashCode();

        /// <summary>As a trace in a script prints it: line 1 06000003 16.</summary>
        public override string ToString() => Name + Numbered(Task) + (Method == 0 ? "" : $" {Method:x8}") + Told;

        string Name => Kind == EncEventKind.DeltaRefused ? "refused"
            : Kind.ToString().Replace("Task", "").ToLowerInvariant();

        string Told => Kind == EncEventKind.DeltaRefused ? $" {(char)(Detail >> 8)}{Detail & 0xFF}"
            : Kind == EncEventKind.TaskTrapped ? $" X{Detail}" : Numbered(Detail);

        static string Numbered(uint number) => number == 0 ? "" : " " + number;
    }

    /// <summary>A machine over a module: tasks make steps, and deltas are applied between them (docs/scripts.md).
    /// A task that isn't there throws an EncException with status Absent.</summary>
    public sealed class EncSession : EncHandle
    {
        readonly List<EncEvent> kept = new List<EncEvent>();
        readonly uint limit;

        /// <summary>Whether events are kept here without a limit until they are taken. It begins as true; where it is
        /// false, Events tells only those that the library still has.</summary>
        public bool KeepsEvents { get; set; } = true;

        EncSession(uint limit) : base(new Keeper(Native.SessionClose))
        {
            this.limit = limit;
        }

        /// <summary>Judges a base, with its Portable PDB where that has bytes, and opens a session over it. The
        /// library keeps at most so many events, 4 or more, before they are taken over here.</summary>
        /// <exception cref="EncRefusedException">It breaks a rule.</exception>
        public static EncSession Open(byte[] image, byte[] pdb = null, uint limit = 65536)
        {
            TryOpen(image, pdb, limit, out EncSession session, out EncRefusal refusal);
            Accept(refusal);
            return session;
        }

        /// <summary>The same: false, no session and the refusal, where it breaks a rule.</summary>
        public static bool TryOpen(byte[] image, byte[] pdb, uint limit, out EncSession session,
            out EncRefusal refusal)
        {
            if (image == null) throw new ArgumentNullException(nameof(image));
            if (limit < 4) throw new ArgumentOutOfRangeException(nameof(limit));
            var made = new EncSession(limit);
            refusal = made.Judged("", why => Native.SessionOpen(ref made.Ptr, image, Size.Of(image), pdb,
                                                                Size.Of(pdb), limit, ref why.Numbers));
            session = Opened(made, refusal);
            return refusal == null;
        }

        /// <summary>Reads NAME, or NAME.dll where NAME doesn't end in .dll or .exe, and the .pdb beside it where there
        /// is one.</summary>
        public static EncSession Load(string name)
        {
            return Open(Files.Image(name), Files.Pdb(name));
        }

        /// <summary>Starts a task with a method, and tells its number. With 64 tasks it throws an EncException with
        /// status Limit, and with Unlike where a task can't begin with this method.</summary>
        public uint Spawn(uint method)
        {
            uint task = 0;
            Recorded(() => Native.Spawn(ref Ptr, method, ref task), About.Row(method));
            return task;
        }

        /// <summary>A task makes so many steps, or fewer if it ends or traps.</summary>
        public EncStepped Step(uint task, uint count = 1)
        {
            var all = Task(task);
            while (count > 0 && all.State == EncTaskState.Running)
            {
                uint some = Math.Min(count, limit / 4);
                var now = new EncStepped();
                Recorded(() => Native.Step(ref Ptr, task, some, ref now), About.Task(task));
                now.Ran += all.Ran;
                all = now;
                count -= some;
            }
            return all;
        }

        /// <summary>How it stands with a task; Ran is 0.</summary>
        public EncStepped Task(uint task)
        {
            var stands = new EncStepped();
            Must(() => Native.Task(ref Ptr, task, ref stands), About.Task(task));
            stands.Ran = 0;
            return stands;
        }

        /// <summary>Judges a delta after those before it, and adds it; what had begun goes on in its old body.
        /// </summary>
        /// <exception cref="EncRefusedException">It breaks a rule, and nothing changes.</exception>
        public void Apply(EncDelta delta)
        {
            TryApply(delta, out EncRefusal refusal);
            Accept(refusal);
        }

        /// <summary>The same: false, and the refusal, where the delta breaks a rule.</summary>
        public bool TryApply(EncDelta delta, out EncRefusal refusal)
        {
            if (delta == null) throw new ArgumentNullException(nameof(delta));
            byte[] meta = delta.Metadata, il = delta.Il, pdb = delta.Pdb;
            refusal = Judged("", why => WithRoom(() => Native.SessionApply(
                ref Ptr, meta, Size.Of(meta), il, Size.Of(il), pdb, Size.Of(pdb), ref why.Numbers)));
            return refusal == null;
        }

        /// <summary>The innermost frame of a task goes on in the newest body of its method, at the offset to which
        /// the first pair leads that begins where it stands.</summary>
        public EncRemapped Remap(uint task, params EncPair[] map)
        {
            var remapped = new EncRemapped();
            Must(() => Native.Remap(ref Ptr, task, map, Size.Of(map), ref remapped), About.Task(task));
            return remapped;
        }

        /// <summary>The frames of a task, from the outermost.</summary>
        public EncFrame[] Frames(uint task)
        {
            return CopiedAll<EncFrame>(b => Native.Frames(ref Ptr, task, b.Items, b.Length, ref b.Size),
                                      About.Task(task));
        }

        /// <summary>Values of a frame; frames count from 0, the outermost.</summary>
        public EncValue[] Values(uint task, uint frame, EncPart part)
        {
            return CopiedAll<EncValue>(b => Native.Values(ref Ptr, task, frame, (uint)part, b.Items, b.Length,
                                                          ref b.Size), About.Task(task));
        }

        /// <summary>The events since the last call of this.</summary>
        public EncEvent[] Events()
        {
            return Together(() =>
            {
                Must(Take);
                EncEvent[] all = kept.ToArray();
                kept.Clear();
                return all;
            });
        }

        /// <summary>What tasks wrote since the last call of this, a line for each text: task 1 writes "..".</summary>
        public string Output()
        {
            return Size.Utf8(CopiedAll<byte>(b => Native.Output(ref Ptr, b.Items, b.Length, ref b.Size)));
        }

        /// <summary>The state as the command state of a script prints it.</summary>
        public string State()
        {
            return Size.Utf8(CopiedAll<byte>(b => Native.State(ref Ptr, b.Items, b.Length, ref b.Size)));
        }

        void Recorded(Func<uint> ask, About about)
        {
            Must(() => WithRoom(ask), about);
        }

        // Asks; where the events might pass the limit, takes them over first, and asks once more.
        uint WithRoom(Func<uint> ask)
        {
            uint status = ask();
            if (status != (uint)EncStatus.Short) return status;
            status = Take();
            return status != 0 ? status : ask();
        }

        // Takes over the events that the library keeps.
        uint Take()
        {
            var room = new Room<EncEvent>(64);
            uint status = room.Asked(() => Native.Events(ref Ptr, room.Items, room.Length, ref room.Size));
            if (!KeepsEvents) kept.Clear();
            if (status == 0) kept.AddRange(room.Taken());
            return status;
        }
    }

    // The pointer that the library writes: closed where it is null. One call at a time goes through it.
    sealed class Keeper : SafeHandle
    {
        internal delegate uint Closing(ref IntPtr handle);

        internal readonly object Gate = new object();
        readonly Closing close;

        internal Keeper(Closing close) : base(IntPtr.Zero, true)
        {
            this.close = close;
        }

        internal ref IntPtr Ptr => ref handle;

        public override bool IsInvalid => handle == IntPtr.Zero;

        internal uint Call(Func<uint> ask)
        {
            lock (Gate)
            {
                if (IsClosed) throw EncException.Of((uint)EncStatus.Closed);
                return ask();
            }
        }

        // It waits for a call that runs, which has taken the pointer out.
        protected override void Dispose(bool disposing)
        {
            lock (Gate) base.Dispose(disposing);
        }

        protected override bool ReleaseHandle()
        {
            return close(ref handle) == 0;
        }
    }

    // Room for what a call copies.
    abstract class Room
    {
        internal UIntPtr Size;
        internal abstract void Grow();

        // Asks, and once more with as much room as is needed where there was too little.
        internal static uint Asked(Func<uint> ask, params Room[] rooms)
        {
            uint status = ask();
            if (status != (uint)EncStatus.Short || rooms.Length == 0) return status;
            foreach (Room room in rooms) room.Grow();
            return ask();
        }
    }

    sealed class Room<T> : Room
    {
        internal T[] Items;
        internal UIntPtr Length => (UIntPtr)Items.Length;

        internal Room(int length)
        {
            Items = new T[length];
        }

        internal uint Asked(Func<uint> ask)
        {
            return Asked(ask, this);
        }

        internal override void Grow()
        {
            if ((ulong)Size > (ulong)Items.Length) Items = new T[checked((int)(ulong)Size)];
        }

        internal T[] Taken()
        {
            Array.Resize(ref Items, (int)Size);
            return Items;
        }
    }

    // The numbers of a refusal that a call may write.
    sealed class Why
    {
        internal Native.Refusal Numbers;
    }

    static class Size
    {
        internal static UIntPtr Of(Array items)
        {
            return (UIntPtr)(items == null ? 0 : items.Length);
        }

        internal static string Utf8(byte[] bytes)
        {
            return bytes == null ? null : Encoding.UTF8.GetString(bytes);
        }
    }

    static class Files
    {
        // How long a file is that is saved, at a guess: a longer one is made twice.
        internal const int Guess = 1 << 16;

        static bool IsWhole(string name)
        {
            return name.EndsWith(".dll") || name.EndsWith(".exe");
        }

        internal static byte[] Image(string name)
        {
            return File.ReadAllBytes(IsWhole(name) ? name : name + ".dll");
        }

        internal static byte[] Pdb(string name)
        {
            string pdb = IsWhole(name) ? Path.ChangeExtension(name, ".pdb") : name + ".pdb";
            return File.Exists(pdb) ? File.ReadAllBytes(pdb) : null;
        }
    }

    // The calls of library/enc.h, and those of its structs that are told otherwise above.
    static class Native
    {
        const string Name = "enc";

        internal struct Refusal
        {
            internal byte Letter, Rule, Place, Stream, Table, Column;
            internal uint Row, Entry;
        }

        internal struct Head
        {
            internal uint Stack, Locals, Init;

            internal EncBody Body(byte[] code, EncClause[] clauses)
            {
                uint locals = Locals == 0 ? 0 : 0x11000000 | Locals;
                return new EncBody { Code = code, Stack = Stack, Locals = locals, Init = Init != 0, Clauses = clauses };
            }
        }

        internal struct Point
        {
            internal uint Offset, Document, Hidden, StartLine, StartColumn, EndLine, EndColumn;

            // Points with the names of their documents, each of which is asked for once.
            internal static EncPoint[] Named(Point[] points, Func<uint, byte[]> document)
            {
                var names = new Dictionary<uint, string>();
                foreach (Point p in points)
                    if (!names.ContainsKey(p.Document)) names[p.Document] = Size.Utf8(document(p.Document));
                return Array.ConvertAll(points, p => p.With(names[p.Document]));
            }

            EncPoint With(string document)
            {
                return new EncPoint
                {
                    Offset = Offset, Document = document, IsHidden = Hidden != 0, StartLine = StartLine,
                    StartColumn = StartColumn, EndLine = EndLine, EndColumn = EndColumn
                };
            }
        }

        [DllImport(Name, EntryPoint = "enc_version")]
        internal static extern uint Release();

        [DllImport(Name, EntryPoint = "enc_words")]
        internal static extern uint Words(ref Refusal refusal, [Out] byte[] buffer, UIntPtr length,
            ref UIntPtr size);

        [DllImport(Name, EntryPoint = "enc_open")]
        internal static extern uint Open(ref IntPtr module, byte[] image, UIntPtr imageLength, byte[] pdb,
            UIntPtr pdbLength, ref Refusal refusal);

        [DllImport(Name, EntryPoint = "enc_apply")]
        internal static extern uint Apply(ref IntPtr module, byte[] metadata, UIntPtr metadataLength, byte[] il,
            UIntPtr ilLength, byte[] pdb, UIntPtr pdbLength, ref Refusal refusal);

        [DllImport(Name, EntryPoint = "enc_close")]
        internal static extern uint Close(ref IntPtr module);

        [DllImport(Name, EntryPoint = "enc_check")]
        internal static extern uint Check(ref IntPtr module, byte[] metadata, UIntPtr metadataLength, byte[] il,
            UIntPtr ilLength, byte[] pdb, UIntPtr pdbLength, ref Refusal refusal);

        [DllImport(Name, EntryPoint = "enc_save")]
        internal static extern uint Save(ref IntPtr module, [Out] byte[] image, UIntPtr imageLength,
            ref UIntPtr imageSize, [Out] byte[] pdb, UIntPtr pdbLength, ref UIntPtr pdbSize, ref Refusal refusal);

        [DllImport(Name, EntryPoint = "enc_compact")]
        internal static extern uint Compact(ref IntPtr module, [Out] byte[] image, UIntPtr imageLength,
            ref UIntPtr imageSize, [Out] byte[] pdb, UIntPtr pdbLength, ref UIntPtr pdbSize, [Out] EncPair[] moves,
            UIntPtr movesLength, ref UIntPtr movesSize, ref Refusal refusal);

        [DllImport(Name, EntryPoint = "enc_merge")]
        internal static extern uint Merge(ref IntPtr module, [Out] byte[] metadata, UIntPtr metadataLength,
            ref UIntPtr metadataSize, [Out] byte[] il, UIntPtr ilLength, ref UIntPtr ilSize, [Out] byte[] pdb,
            UIntPtr pdbLength, ref UIntPtr pdbSize, ref Refusal refusal);

        [DllImport(Name, EntryPoint = "enc_write")]
        internal static extern uint Write(ref IntPtr module, byte[] json, UIntPtr jsonLength, [Out] byte[] metadata,
            UIntPtr metadataLength, ref UIntPtr metadataSize, [Out] byte[] il, UIntPtr ilLength, ref UIntPtr ilSize,
            [Out] byte[] pdb, UIntPtr pdbLength, ref UIntPtr pdbSize, ref Refusal refusal);

        [DllImport(Name, EntryPoint = "enc_generations")]
        internal static extern uint Generations(ref IntPtr module, ref uint count);

        [DllImport(Name, EntryPoint = "enc_count")]
        internal static extern uint Count(ref IntPtr module, byte table, ref uint count);

        [DllImport(Name, EntryPoint = "enc_locate")]
        internal static extern uint Locate(ref IntPtr module, uint token, ref EncPlace place);

        [DllImport(Name, EntryPoint = "enc_locate_heap")]
        internal static extern uint LocateHeap(ref IntPtr module, uint heap, uint offset, ref EncPlace place);

        [DllImport(Name, EntryPoint = "enc_number")]
        internal static extern uint Number(ref IntPtr module, uint token, byte column, ref uint number);

        [DllImport(Name, EntryPoint = "enc_token")]
        internal static extern uint Token(ref IntPtr module, uint token, byte column, ref uint found);

        [DllImport(Name, EntryPoint = "enc_owner")]
        internal static extern uint Owner(ref IntPtr module, uint token, ref uint owner);

        [DllImport(Name, EntryPoint = "enc_lengths")]
        internal static extern uint Lengths(ref IntPtr module, uint generation, ref EncLengths lengths);

        [DllImport(Name, EntryPoint = "enc_count_at")]
        internal static extern uint CountAt(ref IntPtr module, uint generation, byte table, ref uint count);

        [DllImport(Name, EntryPoint = "enc_find_type")]
        internal static extern uint FindType(ref IntPtr module, uint enclosing, byte[] space, UIntPtr spaceLength,
            byte[] name, UIntPtr nameLength, ref uint token);

        [DllImport(Name, EntryPoint = "enc_find_member")]
        internal static extern uint FindMember(ref IntPtr module, uint owner, byte table, byte[] name,
            UIntPtr nameLength, [Out] uint[] buffer, UIntPtr length, ref UIntPtr size);

        [DllImport(Name, EntryPoint = "enc_kids")]
        internal static extern uint Kids(ref IntPtr module, uint token, byte table, [Out] uint[] buffer,
            UIntPtr length, ref UIntPtr size);

        [DllImport(Name, EntryPoint = "enc_id")]
        internal static extern uint Id(ref IntPtr module, uint generation, [Out] byte[] buffer, UIntPtr length,
            ref UIntPtr size);

        [DllImport(Name, EntryPoint = "enc_text")]
        internal static extern uint Text(ref IntPtr module, uint token, byte column, [Out] byte[] buffer,
            UIntPtr length, ref UIntPtr size);

        [DllImport(Name, EntryPoint = "enc_blob")]
        internal static extern uint Blob(ref IntPtr module, uint token, byte column, [Out] byte[] buffer,
            UIntPtr length, ref UIntPtr size);

        [DllImport(Name, EntryPoint = "enc_guid")]
        internal static extern uint Guid(ref IntPtr module, uint token, byte column, [Out] byte[] buffer,
            UIntPtr length, ref UIntPtr size);

        [DllImport(Name, EntryPoint = "enc_row")]
        internal static extern uint Row(ref IntPtr module, uint token, [Out] byte[] buffer, UIntPtr length,
            ref UIntPtr size);

        [DllImport(Name, EntryPoint = "enc_row_at")]
        internal static extern uint RowAt(ref IntPtr module, uint generation, uint token, [Out] byte[] buffer,
            UIntPtr length, ref UIntPtr size);

        [DllImport(Name, EntryPoint = "enc_code")]
        internal static extern uint Code(ref IntPtr module, uint method, [Out] byte[] buffer, UIntPtr length,
            ref UIntPtr size, ref Head head);

        [DllImport(Name, EntryPoint = "enc_code_at")]
        internal static extern uint CodeAt(ref IntPtr module, uint generation, uint method, [Out] byte[] buffer,
            UIntPtr length, ref UIntPtr size, ref Head head);

        [DllImport(Name, EntryPoint = "enc_clauses")]
        internal static extern uint Clauses(ref IntPtr module, uint method, [Out] EncClause[] buffer, UIntPtr length,
            ref UIntPtr size);

        [DllImport(Name, EntryPoint = "enc_user_text")]
        internal static extern uint UserText(ref IntPtr module, uint offset, [Out] byte[] buffer, UIntPtr length,
            ref UIntPtr size);

        [DllImport(Name, EntryPoint = "enc_entries")]
        internal static extern uint Entries(ref IntPtr module, uint generation, [Out] EncEntry[] buffer,
            UIntPtr length, ref UIntPtr size);

        [DllImport(Name, EntryPoint = "enc_points")]
        internal static extern uint Points(ref IntPtr module, uint method, [Out] Point[] buffer, UIntPtr length,
            ref UIntPtr size);

        [DllImport(Name, EntryPoint = "enc_points_at")]
        internal static extern uint PointsAt(ref IntPtr module, uint generation, uint method, [Out] Point[] buffer,
            UIntPtr length, ref UIntPtr size);

        [DllImport(Name, EntryPoint = "enc_document")]
        internal static extern uint Document(ref IntPtr module, uint method, uint number, [Out] byte[] buffer,
            UIntPtr length, ref UIntPtr size);

        [DllImport(Name, EntryPoint = "enc_document_at")]
        internal static extern uint DocumentAt(ref IntPtr module, uint generation, uint method, uint number,
            [Out] byte[] buffer, UIntPtr length, ref UIntPtr size);

        [DllImport(Name, EntryPoint = "enc_may_remap")]
        internal static extern uint MayRemap(ref IntPtr module, uint method, uint generation, uint offset,
            EncPair[] map, UIntPtr length, ref uint rule);

        [DllImport(Name, EntryPoint = "enc_session_open")]
        internal static extern uint SessionOpen(ref IntPtr session, byte[] image, UIntPtr imageLength, byte[] pdb,
            UIntPtr pdbLength, uint limit, ref Refusal refusal);

        [DllImport(Name, EntryPoint = "enc_session_close")]
        internal static extern uint SessionClose(ref IntPtr session);

        [DllImport(Name, EntryPoint = "enc_session_apply")]
        internal static extern uint SessionApply(ref IntPtr session, byte[] metadata, UIntPtr metadataLength,
            byte[] il, UIntPtr ilLength, byte[] pdb, UIntPtr pdbLength, ref Refusal refusal);

        [DllImport(Name, EntryPoint = "enc_spawn")]
        internal static extern uint Spawn(ref IntPtr session, uint method, ref uint task);

        [DllImport(Name, EntryPoint = "enc_step")]
        internal static extern uint Step(ref IntPtr session, uint task, uint count, ref EncStepped stepped);

        [DllImport(Name, EntryPoint = "enc_task")]
        internal static extern uint Task(ref IntPtr session, uint task, ref EncStepped stepped);

        [DllImport(Name, EntryPoint = "enc_remap")]
        internal static extern uint Remap(ref IntPtr session, uint task, EncPair[] map, UIntPtr length,
            ref EncRemapped remapped);

        [DllImport(Name, EntryPoint = "enc_state")]
        internal static extern uint State(ref IntPtr session, [Out] byte[] buffer, UIntPtr length, ref UIntPtr size);

        [DllImport(Name, EntryPoint = "enc_frames")]
        internal static extern uint Frames(ref IntPtr session, uint task, [Out] EncFrame[] buffer, UIntPtr length,
            ref UIntPtr size);

        [DllImport(Name, EntryPoint = "enc_values")]
        internal static extern uint Values(ref IntPtr session, uint task, uint frame, uint part,
            [Out] EncValue[] buffer, UIntPtr length, ref UIntPtr size);

        [DllImport(Name, EntryPoint = "enc_events")]
        internal static extern uint Events(ref IntPtr session, [Out] EncEvent[] buffer, UIntPtr length,
            ref UIntPtr size);

        [DllImport(Name, EntryPoint = "enc_output")]
        internal static extern uint Output(ref IntPtr session, [Out] byte[] buffer, UIntPtr length,
            ref UIntPtr size);
    }

    /// <summary>What rules say, in the words of docs/rules.md, docs/edits.md and docs/scripts.md.</summary>
    public static class EncRules
    {
        /// <summary>The words of a rule (E16), of a rule of remaps (Q3) or of a trap (X5); nothing where there is
        /// none with the name. Of a rule that is asked in several places they are those of the first.</summary>
        public static string Words(string rule)
        {
            return words.TryGetValue(rule, out string found) ? found : "";
        }

        // The words of a rule at a place, of what was asked for: "merge ", "edit " or nothing.
        internal static string Of(string asked, string rule, string place, EncPlaceKind kind)
        {
            string kindly = rule + " " + kind.ToString().ToLowerInvariant();
            string[] keys = { asked + rule + " " + place, rule + " " + place, asked == "" ? kindly : asked + rule,
                              kindly, rule };
            foreach (string key in keys)
                if (words.TryGetValue(key, out string found)) return found;
            return "";
        }

        static readonly Dictionary<string, string> words = new Dictionary<string, string>
        {
            // begin: from the docs, by csharp/rules.py
            { "F3",
                "MZ, PE\\0\\0 or the magic of PE32 or PE32+ isn't there, the optional header has fewer than 15 " +
                "directories, or headers don't stand whole in the file" },
            { "F4",
                "no 72 bytes of a CLI header stand in a section, flag 1 (ILONLY) isn't set, or " +
                "ManagedNativeHeader isn't zero" },
            { "F5",
                "that range doesn't stand whole in a section; resources and debug entries of size 0 are none" },
            { "F9",
                "a debug entry of type 17, an embedded PDB" },
            { "F1",
                "the root hasn't its magic, a zero and a version length that is a multiple of 4, or its " +
                "streams' headers don't stand whole in it" },
            { "F2",
                "a known stream stands a second time or outside the root; then, there isn't exactly one of #~ " +
                "and #-" },
            { "F6",
                "the table stream doesn't hold its counts and rows, a count passes 2^24 - 1, there is a table " +
                "past 2C, there isn't exactly one row of Module, or, in a base, there are rows of EncLog or " +
                "EncMap" },
            { "F7",
                "an index past its table, a tag of no table, or a run that begins outside 1 to the count plus 1 " +
                "or before the run of the row before" },
            { "F7 owner",
                "a field, method, parameter, property or event that the runs don't name exactly once" },
            { "F8",
                "an offset that isn't good in its heap" },
            { "F11",
                "a blob that isn't a signature of its kind: outside the grammar, with a token of a row that " +
                "isn't there, or with more than a hundred types one in the other" },
            { "F10",
                "a place for a body and no good body there, or a method that isn't IL" },
            { "F5 row",
                "an RVA, and no bytes of the field's size in a section there, or no known size" },
            { "E1",
                "its Mvid isn't the base's" },
            { "E2",
                "its Generation isn't the next" },
            { "E3",
                "its EncBaseId isn't the EncId of the last delta, nil for the first" },
            { "E4",
                "its EncId is nil or was used" },
            { "E5",
                "a joined heap passes its limit (2^24 bytes of #US, 2^29 of each other); the last byte of " +
                "#Strings that counts isn't 0; #GUID has fewer entries than before" },
            { "E6",
                "one before it in EncMap isn't less: EncMap doesn't rise" },
            { "E7",
                "its rows and its tokens in EncMap differ in number; Module, EncLog and EncMap have no rows " +
                "that tokens stand for" },
            { "E8",
                "a new row isn't the next of its table" },
            { "E9",
                "it stands in EncMap alone, or alone among EncLog's entries with code 0" },
            { "E10",
                "an entry of EncLog with a code past 5, or an Add entry (1 to 5) without its parent after, or " +
                "without the next new child in the entry behind it" },
            { "E11",
                "a new row of these tables hasn't exactly one Add entry" },
            { "E12",
                "it has rows, and a delta may not change it" },
            { "E13",
                "an index past its table after, or a tag of no table" },
            { "E14",
                "an offset that isn't good in the joined heaps" },
            { "E15",
                "an updated row says something else than it did; bodies, a parameter's flags and name and " +
                "custom attributes may change, tokens and signatures may be alike ones" },
            { "E16",
                "a place for a body and no good body in the delta's code, by the rows after, or a method that " +
                "isn't IL" },
            { "E17",
                "a method that had a body has no place for one" },
            { "E18",
                "a new field without flag Static, in a type that was there and has a layout of its own (either " +
                "bit of 18), or extends System.ValueType or System.Enum" },
            { "E19",
                "a new virtual method in an interface that was there, or a new virtual and abstract one in any " +
                "type that was there" },
            { "E20",
                "a new field, method, property or event with a sibling of equal name and, but for events, alike " +
                "signature; fields and methods that only the compiler knows (access 0) don't count" },
            { "E21",
                "a blob that isn't a signature of its kind, as F11, by the rows after" },
            { "E23",
                "its body's local signature isn't nil and doesn't begin as one of locals" },
            { "E24",
                "more than 65,535 deltas, or more than 2^24 - 1 rows of a table after" },
            { "F12",
                "its root or its table stream isn't good, as F1, F2 and F6; #Pdb doesn't hold its 32 bytes and " +
                "its counts whole; of a base, MethodDebugInformation has rows and not one for each method; of a " +
                "delta, it hasn't as many rows as EncMap has tokens of it" },
            { "F12 row",
                "an offset that isn't good; a name that isn't a separator and parts; a blob that isn't one of " +
                "sequence points, or whose point has no document" },
            { "E22",
                "of a delta, the token isn't behind those before it, its method isn't one of the delta's " +
                "EncMap, or a point's offset isn't below the size of the method's code there, 0 where it has no " +
                "body" },
            { "L4",
                "the heap of the module's distinct values would have more than 2^29 bytes, #US more than 2^24" },
            { "L4 image",
                "the module's weight is 2^31 or more: 65,536; for each row 4 for an index, a run or a heap and " +
                "the width with its padding for a number; 4 for each row of Field, MethodDef, Param, Event and " +
                "Property; the lengths of the four heaps; for each body 32, its code and 24 for each clause; " +
                "for each row of FieldRVA 8 and its bytes; 8 and the resources" },
            { "L4 #Pdb",
                "the plain PDB's weight is more than 2^29: 65,536; 64 for each method; 32 for each point; for " +
                "each distinct document 96, its name and its hash" },
            { "merge L4 #Pdb",
                "the weight, as above, of what is known after both of the methods that one of the last two " +
                "deltas lists is more than 2^29; 64 counts for each of these methods" },
            { "G1",
                "after all deltas its depth is 100 or more: a TypeRef's is one more than that of its " +
                "ResolutionScope, a TypeSpec's one more than that of the deepest TypeRef or TypeSpec in its " +
                "signature, and all else has depth 0; of rows that lead back into themselves it is 100" },
            { "J1",
                "the text isn't JSON" },
            { "J2 0",
                "the list isn't as above: the object itself, encId, documents, or edits isn't an array" },
            { "J2",
                "the first edit, counted from 1, that isn't as above" },
            { "edit E4 0",
                "the EncId is nil, or was used before" },
            { "edit E5 0",
                "a heap of the chain is at its limit, #GUID with the new EncId" },
            { "edit E24 0",
                "more than 65,535 deltas; 2^24 rows of a table after the list; 2^24 - 1 entries of EncLog" },
            { "edit E5",
                "with what this edit brings #Strings or #Blob passes 2^29 bytes, or #US 2^24" },
            { "edit E6",
                "an edit before it is about the same row" },
            { "edit E10",
                "the owner isn't a row of the table of owners" },
            { "edit E12",
                "a row of a table to which no row may be added" },
            { "edit E13",
                "a token names no row of a table that its column can name, or the method whose body is replaced " +
                "doesn't exist" },
            { "edit E16",
                "a body of a method that isn't IL; a body that isn't good; a branch that doesn't reach its " +
                "target: one of one byte past 127, or one of four past 2^31; code of 2^32 bytes or more" },
            { "edit E18",
                "a field that can't be added to its type, an old one" },
            { "edit E19",
                "a virtual method that can't be added to its type, an old one" },
            { "edit E20",
                "a member with a sibling of equal name and, but for an event, alike signature" },
            { "edit E21",
                "the signature of a row isn't one of its kind" },
            { "edit E23",
                "the local signature of a body isn't one of locals" },
            { "edit E22",
                "sequence points that can't be spelled, a document that isn't of the list, or a PDB of more " +
                "than 2^29 bytes" },
            { "Q1",
                "no task has the number, or it has ended or trapped, or an object is on its way to a handler in " +
                "it" },
            { "Q2",
                "something is on the frame's stack" },
            { "Q3",
                "the frame stands at no sequence point of its own body, or at a hidden one" },
            { "Q4",
                "no pair leads from its offset" },
            { "Q5",
                "the pair leads to no instruction of the newest body, or to one without a sequence point, or " +
                "with a hidden one" },
            { "Q6",
                "the interpreter doesn't run the newest body, or the kinds of the old local variables aren't " +
                "the first of the new ones" },
            { "Q7",
                "a handler is running in the frame, or the pair leads into a handler" },
            { "X1",
                "there is no instruction at the offset" },
            { "X2",
                "an instruction, a member's type or signature, that the interpreter doesn't know; a callvirt of " +
                "a virtual method whose signature has no this; an argument or local variable that doesn't exist" },
            { "X3",
                "too few values on the stack" },
            { "X4",
                "a value of another kind" },
            { "X5",
                "null" },
            { "X6",
                "division by zero" },
            { "X7",
                "overflow, or an array of a negative length" },
            { "X8",
                "an index outside of the array or text" },
            { "X9",
                "a cast to a class that the object isn't of" },
            { "X10",
                "the method that is reached has no body that the interpreter runs" },
            { "X11",
                "more than 1,024 frames" },
            { "X12",
                "more than 1,000,000 objects or 16,000,000 elements and units" },
            { "X13",
                "more values on a stack than its method says" },
            { "X14",
                "a thrown object that no clause takes" },
            // end
        };
    }
}
