// A connection to grain-directory-agent: questions with tags, answers in any order, events. Each connection has a thread that reads, and one that
// writes, for which alone whoever asks never waits.
using System;
using System.Collections.Concurrent;
using System.Collections.Generic;
using System.IO;
using System.Net.Sockets;
using System.Runtime.InteropServices;
using System.Text;
using System.Threading;
using System.Threading.Tasks;
using Mono.Unix;

namespace GrainDirectory
{
    /// <summary>The agent refuses, and all is as it was.</summary>
    public sealed class RefusedException : Exception
    {
        public readonly string Code;

        public RefusedException(string code, string words) : base("refused " + code + ": " + words) { Code = code; }
    }

    /// <summary>All activations are lost: end all work.</summary>
    public sealed class LostException : Exception
    {
        public LostException(string why) : base("lost: " + why) { }
    }

    public sealed class AgentConnection : IDisposable
    {
        const int MostWaiting = 2048;

        readonly Socket socket = new Socket(AddressFamily.Unix, SocketType.Stream, ProtocolType.Unspecified);
        readonly object gate = new object();
        readonly Dictionary<string, TaskCompletionSource<string[]>> waiting = new Dictionary<string, TaskCompletionSource<string[]>>();
        readonly SemaphoreSlim room = new SemaphoreSlim(MostWaiting);
        readonly BlockingCollection<string> lines = new BlockingCollection<string>();
        long tags;
        long until;
        volatile string lost;

        /// <summary>Told that all is lost: end all work, then Dispose, which hangs up.</summary>
        public event Action<string> Lost = delegate { };

        /// <summary>Told that the agent leaves: end the work, and unregister.</summary>
        public event Action Leaving = delegate { };

        /// <summary>Told that something about the members has changed.</summary>
        public event Action MembersChanged = delegate { };

        public AgentConnection(string path)
        {
            socket.Connect(new UnixEndPoint(path));
            var stream = new NetworkStream(socket);
            Start(() => Write(stream));
            Start(() => Read(new StreamReader(stream)));
            var before = Uptime.Printed();
            var now = long.Parse(Ask("clock").Result[1]);
            if (now < before || now > Uptime.Printed() + Uptime.Step)
            {
                Dispose();
                throw new LostException("the agent's clock isn't that of /proc/uptime: they have to run in one container");
            }
        }

        static void Start(ThreadStart what) { new Thread(what) { IsBackground = true }.Start(); }

        /// <summary>Whether work is allowed just now: test it before each effect. It waits for nothing, and asks the kernel whether the agent has
        /// hung up.</summary>
        public bool May
        {
            get { return lost == null && Uptime.Printed() + Uptime.Step < Interlocked.Read(ref until) && !HangUp.IsThere(socket); }
        }

        /// <summary>Throws where all is lost.</summary>
        public void Live()
        {
            var why = lost;
            if (why != null) throw new LostException(why);
        }

        /// <summary>The words of the agent's answer. Once the limit is cancelled nobody waits for it, but what was asked goes on.</summary>
        public async Task<string[]> Ask(string question, CancellationToken limit = default(CancellationToken))
        {
            await room.WaitAsync(limit).ConfigureAwait(false);
            var answer = Put(question);
            if (limit.CanBeCanceled)
            {
                var left = new TaskCompletionSource<string[]>();
                using (limit.Register(() => left.TrySetCanceled()))
                    await (await Task.WhenAny(answer, left.Task).ConfigureAwait(false)).ConfigureAwait(false);
            }
            var words = await answer.ConfigureAwait(false);
            if (words[0] == "refused" && words.Length > 1) throw new RefusedException(words[1], string.Join(" ", words, 2, words.Length - 2));
            return words;
        }

        Task<string[]> Put(string question)
        {
            var answer = new TaskCompletionSource<string[]>(TaskCreationOptions.RunContinuationsAsynchronously);
            lock (gate)
            {
                if (lost != null)
                {
                    room.Release();
                    throw new LostException(lost);
                }
                var tag = (++tags).ToString();
                waiting.Add(tag, answer);
                lines.Add(tag + " " + question + "\n"); // waits for nothing
            }
            return answer.Task;
        }

        public void Dispose()
        {
            socket.Close();
            End("hung up");
        }

        void Write(Stream stream)
        {
            try
            {
                foreach (var line in lines.GetConsumingEnumerable())
                {
                    var bytes = Encoding.UTF8.GetBytes(line);
                    stream.Write(bytes, 0, bytes.Length);
                }
            }
            catch (IOException) { } // the reader finds the end
            catch (ObjectDisposedException) { }
        }

        // Whatever ends it, all is lost then: that the agent hangs up or says so, and what nobody understands.
        void Read(TextReader reader)
        {
            var why = "the agent is gone";
            try
            {
                for (string line; (line = reader.ReadLine()) != null;)
                {
                    var words = line.Split(' ');
                    if (words[0] != "event") Answer(words);
                    else if (words[1] == "valid") Extend(long.Parse(words[2]));
                    else if (words[1] == "leaving") Leaving();
                    else if (words[1] == "member" || words[1] == "named") MembersChanged();
                    else if (words[1] == "lost") { why = line; break; }
                }
            }
            catch (ObjectDisposedException) { why = "hung up"; }
            catch (Exception e) { why = e.Message; }
            End(why);
        }

        void Extend(long later)
        {
            if (later > Interlocked.Read(ref until)) Interlocked.Exchange(ref until, later); // only the reader does
        }

        void Answer(string[] words)
        {
            TaskCompletionSource<string[]> answer;
            lock (gate)
            {
                if (!waiting.TryGetValue(words[0], out answer) || words.Length < 2)
                    throw new LostException("the agent answers what nobody asked: " + string.Join(" ", words));
                waiting.Remove(words[0]);
            }
            room.Release();
            answer.SetResult(words.Rest());
        }

        void End(string why)
        {
            List<TaskCompletionSource<string[]>> rest;
            lock (gate)
            {
                if (lost != null) return;
                lost = why;
                rest = new List<TaskCompletionSource<string[]>>(waiting.Values);
                waiting.Clear();
                lines.CompleteAdding();
            }
            foreach (var answer in rest)
            {
                room.Release();
                answer.SetException(new LostException(why));
            }
            Lost(why);
        }
    }

    static class Words
    {
        public static string[] Rest(this string[] words)
        {
            var rest = new string[words.Length - 1];
            Array.Copy(words, 1, rest, 0, rest.Length);
            return rest;
        }
    }

    /// <summary>Time since boot, which runs on while the machine sleeps, as the kernel prints it: in steps, rounded down.</summary>
    static class Uptime
    {
        public const long Step = 10000000;

        public static long Printed()
        {
            var words = File.ReadAllText("/proc/uptime").Split('.', ' ');
            return long.Parse(words[0]) * 1000000000 + long.Parse(words[1]) * Step;
        }
    }

    /// <summary>Whether the other end of a socket has hung up, or has said its last, by the kernel's word: what it said before needn't be read yet.
    /// </summary>
    static class HangUp
    {
        const short Asked = 0x2000; // POLLRDHUP; POLLERR, POLLHUP and POLLNVAL are told unasked

        [StructLayout(LayoutKind.Sequential)]
        struct Descriptor
        {
            public int Number;
            public short Events, Returned;
        }

        public static bool IsThere(Socket socket)
        {
            try
            {
                var one = new Descriptor { Number = socket.Handle.ToInt32(), Events = Asked };
                return poll(ref one, (UIntPtr)1, 0) != 0;
            }
            catch (ObjectDisposedException) { return true; }
        }

        [DllImport("libc")]
        static extern int poll(ref Descriptor descriptors, UIntPtr count, int milliseconds);
    }
}
