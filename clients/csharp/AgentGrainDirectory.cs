// A grain directory of Orleans' shape over grain-directory-agent. One object is one Orleans silo's, and has a connection of its own: what it
// registers is that silo's, and ends with the connection.
using System;
using System.Collections.Concurrent;
using System.Collections.Generic;
using System.Globalization;
using System.Text;
using System.Threading;
using System.Threading.Tasks;

namespace GrainDirectory
{
    public sealed class AgentGrainDirectory : IGrainDirectory, IDisposable
    {
        sealed class Held
        {
            public GrainAddress Address;
            public long Token;
            public bool Ends; // its end is asked for
        }

        // What a grain has: an address here, or an activation elsewhere.
        sealed class Granted
        {
            public GrainAddress Here;
            public string Elsewhere;
        }

        // A call, for which its caller waits no longer than it may. What was asked goes on.
        sealed class Call
        {
            public readonly TaskCompletionSource<bool> Left = new TaskCompletionSource<bool>(TaskCreationOptions.RunContinuationsAsynchronously);
            public bool IsLeft, IsDone; // one of them, under the gate
        }

        const int Pause = 20; // milliseconds until an end that was refused is asked for again, where nobody waits for it any more

        readonly AgentConnection connection;
        readonly SiloAddress silo;
        readonly TimeSpan limit;
        readonly ConcurrentDictionary<string, Held> held = new ConcurrentDictionary<string, Held>();
        readonly Dictionary<string, Task> turns = new Dictionary<string, Task>(); // the last call about a grain that changes what is held
        readonly object gate = new object();
        Dictionary<string, string> silos = new Dictionary<string, string>(); // the agents' silos, and the Orleans silo at each, until that changes
        long changes;

        /// <summary>Each call waits for so long at most, and throws TimeoutException behind that; without a limit, for as long as it takes.</summary>
        public AgentGrainDirectory(AgentConnection connection, SiloAddress silo, TimeSpan? limit = null)
        {
            this.connection = connection;
            this.silo = silo;
            this.limit = limit ?? Timeout.InfiniteTimeSpan;
            connection.MembersChanged += ForgetSilos;
            connection.Ask("named " + silo).Wait();
        }

        /// <summary>The address that the grain has: the one given, or another's that came first.</summary>
        public async Task<GrainAddress> Register(GrainAddress address)
        {
            if (address.SiloAddress.Text != silo.Text) throw new ArgumentException("a silo registers its own activations");
            var grain = GrainText(address.GrainId);
            var call = new Call();
            var granted = await InTurn(grain, call, () => Activate(grain, address, call));
            return granted.Here ?? await At(address.GrainId, granted.Elsewhere);
        }

        /// <summary>Only where the previous one is gone, or was this silo's: nobody's activation is taken from it.</summary>
        public async Task<GrainAddress> Register(GrainAddress address, GrainAddress previousAddress)
        {
            if (previousAddress != null && previousAddress.SiloAddress.Text == silo.Text) await Unregister(previousAddress);
            return await Register(address);
        }

        /// <summary>The work of the activation has ended.</summary>
        public async Task Unregister(GrainAddress address)
        {
            var grain = GrainText(address.GrainId);
            var call = new Call();
            await InTurn(grain, call, () => Deactivate(grain, address, call));
        }

        public async Task<GrainAddress> Lookup(GrainId grainId)
        {
            connection.Live();
            var grain = GrainText(grainId);
            Held mine;
            if (held.TryGetValue(grain, out mine) && !mine.Ends) return mine.Address;
            var words = await Ask("find " + grain);
            return words[0] == "nowhere" ? null : await At(grainId, words[1]);
        }

        /// <summary>Nothing is to be done: a death ends what the dead silo had.</summary>
        public Task UnregisterSilos(List<SiloAddress> siloAddresses) { return Task.FromResult(true); }

        /// <summary>A number that never falls for a grain and rises across a death, for stores that refuse lower ones.</summary>
        public long Token(GrainId grainId) { return held[GrainText(grainId)].Token; }

        public void Dispose() { connection.Dispose(); }

        // Calls about a grain come one after another: what is registered while its end is under way waits for that.
        async Task<T> InTurn<T>(string grain, Call call, Func<Task<T>> what)
        {
            Task<T> mine;
            lock (gate)
            {
                Task before;
                turns.TryGetValue(grain, out before);
                turns[grain] = mine = After(before, what);
            }
            Forget(grain, mine);
            if (await Task.WhenAny(mine, Task.Delay(limit)) == mine) return await mine;
            lock (gate) { call.IsLeft = !call.IsDone; }
            if (!call.IsLeft) return await mine; // it came just then
            call.Left.TrySetResult(true);
            throw new TimeoutException("the agent hasn't answered yet, about " + grain);
        }

        static async Task<T> After<T>(Task before, Func<Task<T>> what)
        {
            await Task.Yield();
            if (before != null) await Task.WhenAny(before); // whatever came of it
            return await what();
        }

        async void Forget(string grain, Task mine)
        {
            await Task.WhenAny(mine);
            lock (gate)
            {
                Task last;
                if (turns.TryGetValue(grain, out last) && last == mine) turns.Remove(grain);
            }
        }

        async Task<Granted> Activate(string grain, GrainAddress address, Call call)
        {
            connection.Live();
            Held first;
            if (held.TryGetValue(grain, out first)) return new Granted { Here = first.Address }; // asked twice, the first one stays
            if (call.Left.Task.IsCompleted) throw new TimeoutException(grain);
            var asked = connection.Ask("activate " + grain);
            await Task.WhenAny(asked, call.Left.Task);
            if (asked.IsCompleted)
            {
                var words = await asked;
                if (words[0] == "taken") return new Granted { Elsewhere = words[1] };
                lock (gate)
                {
                    call.IsDone = !call.IsLeft;
                    if (call.IsDone) held[grain] = new Held { Address = address, Token = long.Parse(words[4], CultureInfo.InvariantCulture) };
                }
                if (call.IsDone) return new Granted { Here = address };
            }
            await End(grain); // nobody waits for it: it is given up, and a firm that crosses with that begins nothing
            throw new TimeoutException(grain);
        }

        async Task<bool> Deactivate(string grain, GrainAddress address, Call call)
        {
            Held mine;
            if (!held.TryGetValue(grain, out mine) || mine.Address.ActivationId != address.ActivationId) return false;
            mine.Ends = true;
            try { await connection.Ask("deactivate " + grain); }
            catch (RefusedException)
            {
                lock (gate) { call.IsDone = !call.IsLeft; }
                mine.Ends = call.IsLeft;
                if (call.IsDone) throw; // all is as it was
                await End(grain);
            }
            held.TryRemove(grain, out mine);
            return true;
        }

        // Asks for an end until it comes.
        async Task End(string grain)
        {
            for (; ; await Task.Delay(Pause))
            {
                try
                {
                    await connection.Ask("deactivate " + grain);
                    return;
                }
                catch (RefusedException e)
                {
                    if (e.Code == "802" || e.Code == "803" || e.Code == "lost") return; // it isn't this silo's
                }
                catch (LostException) { return; }
            }
        }

        async Task<string[]> Ask(string question)
        {
            if (limit == Timeout.InfiniteTimeSpan) return await connection.Ask(question);
            using (var most = new CancellationTokenSource(limit))
                try { return await connection.Ask(question, most.Token); }
                catch (OperationCanceledException) { throw new TimeoutException(question); }
        }

        // An activation is SILO!COUNT of an agent; an entry has no room for the ActivationId that Orleans drew.
        async Task<GrainAddress> At(GrainId grain, string activation)
        {
            var at = activation.Split('!')[0];
            string orleans;
            bool isKnown;
            lock (gate) { isKnown = silos.TryGetValue(at, out orleans); }
            if (!isKnown) (await ReadMembers()).TryGetValue(at, out orleans);
            return new GrainAddress { GrainId = grain, ActivationId = activation, SiloAddress = new SiloAddress(orleans) };
        }

        // An Orleans silo that begins anew at its agent has another name.
        void ForgetSilos()
        {
            lock (gate) { changes++; silos = new Dictionary<string, string>(); }
        }

        async Task<Dictionary<string, string>> ReadMembers()
        {
            long before;
            lock (gate) { before = changes; }
            var words = await Ask("members"); // members V SILO STATUS NAMES SILO ..
            var now = new Dictionary<string, string>();
            for (var i = 2; i + 2 < words.Length; i += 3)
                if (words[i + 2] != "-") now[words[i]] = words[i + 2].Split(',')[0];
            lock (gate) { if (changes == before) silos = now; } // else it may be old by now
            return now;
        }

        // KIND/KEY of visible ASCII, with no slash in the kind; a % and two digits for any other byte.
        internal static string GrainText(GrainId grain) { return Escaped(grain.Type, true) + "/" + Escaped(grain.Key, false); }

        static string Escaped(string text, bool isKind)
        {
            var escaped = new StringBuilder();
            foreach (var one in Encoding.UTF8.GetBytes(text))
                if (one > 32 && one < 127 && one != '%' && !(isKind && one == '/')) escaped.Append((char)one);
                else escaped.Append('%').Append(one.ToString("x2"));
            return escaped.ToString();
        }
    }
}
