// One silo inside this process, over libgrain_directory.so: lines in, lines out, as docs/RULES.md has them for a silo's process.
using System;
using System.Runtime.InteropServices;
using System.Text;

namespace GrainDirectory
{
    /// <summary>What the library's functions return (examples/library/grain_directory.h).</summary>
    public enum LibraryStatus : uint { Ok, Dead, Ended, OutOfMemory, NotASilo, NoSuchHashing, OutOfRange, NotAToken }

    public enum Hashing : uint { Sha256, Stated }

    /// <summary>The library refuses to open a silo, and none is open.</summary>
    public sealed class NotOpenException : Exception
    {
        public readonly LibraryStatus Status;

        public NotOpenException(LibraryStatus status) : base("the silo isn't open: " + status) { Status = status; }
    }

    /// <summary>A silo. Its calls may come from any threads: one at a time gets in.</summary>
    public sealed class LibrarySilo : IDisposable
    {
        const string Library = "grain_directory";

        [StructLayout(LayoutKind.Sequential)]
        struct Text
        {
            public IntPtr Bytes;
            public UIntPtr Length;
        }

        readonly object gate = new object();
        IntPtr silo;

        /// <summary>Opens the silo of an address, as 10.0.0.1:1000@1, with 1 to 128 points and 0 to 65,536 hints. With a token, 1 to 64 visible
        /// ASCII bytes, it takes only the join that carries just this token.</summary>
        /// <exception cref="NotOpenException">the first of a wrong token, address, hashing, number, and a lack of memory</exception>
        public LibrarySilo(string address, string token = null, Hashing hashing = Hashing.Sha256, int points = 30, int hints = 1024)
        {
            byte[] name = Bytes(address), secret = token == null ? null : Bytes(token);
            UIntPtr most = Size(points), kept = Size(hints);
            var status = token == null
                ? grain_directory_open(name, Size(address.Length), (uint)hashing, most, kept, ref silo)
                : grain_directory_open_with_token(name, Size(address.Length), secret, Size(token.Length), (uint)hashing, most, kept, ref silo);
            if (status != LibraryStatus.Ok)
                throw new NotOpenException(status);
        }

        /// <summary>Answers a line, given without its line feed. What is answered has a line feed behind each line, and may be empty.</summary>
        public LibraryStatus Answer(string line, out string answer)
        {
            lock (gate)
            {
                if (silo == IntPtr.Zero)
                    throw new ObjectDisposedException("LibrarySilo");
                var text = new Text();
                var status = grain_directory_line(silo, Bytes(line), Size(line.Length), ref text);
                var bytes = new byte[(int)text.Length];
                if (bytes.Length > 0 && status < LibraryStatus.Ended)
                    Marshal.Copy(text.Bytes, bytes, 0, bytes.Length);
                answer = status < LibraryStatus.Ended ? Encoding.ASCII.GetString(bytes) : "";
                return status;
            }
        }

        /// <summary>Closes the silo, and frees all that it has.</summary>
        public void Dispose()
        {
            lock (gate)
            {
                if (silo != IntPtr.Zero)
                    grain_directory_close(silo);
                silo = IntPtr.Zero;
            }
        }

        static UIntPtr Size(int count) { return count < 0 ? UIntPtr.Zero : (UIntPtr)(uint)count; }

        // A byte at least, since no pointer may be null; other characters become bytes that a line refuses.
        static byte[] Bytes(string text)
        {
            var bytes = new byte[Math.Max(text.Length, 1)];
            for (int at = 0; at < text.Length; at++)
                bytes[at] = text[at] <= 127 ? (byte)text[at] : (byte)255;
            return bytes;
        }

        [DllImport(Library)]
        static extern LibraryStatus grain_directory_open(byte[] address, UIntPtr length, uint hashing, UIntPtr points, UIntPtr cache, ref IntPtr silo);

        [DllImport(Library)]
        static extern LibraryStatus grain_directory_open_with_token(byte[] address, UIntPtr length, byte[] token, UIntPtr tokenLength, uint hashing,
                                                                    UIntPtr points, UIntPtr cache, ref IntPtr silo);

        [DllImport(Library)]
        static extern LibraryStatus grain_directory_line(IntPtr silo, byte[] line, UIntPtr length, ref Text answer);

        [DllImport(Library)]
        static extern void grain_directory_close(IntPtr silo);
    }
}
