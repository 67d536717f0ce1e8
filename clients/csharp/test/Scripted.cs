// Tries the adapter at an agent whose lines the test says itself.
using System;
using System.IO;
using System.Net.Sockets;
using System.Threading;
using System.Threading.Tasks;
using GrainDirectory;
using Mono.Unix;

static class Scripted
{
    static readonly SiloAddress one = new SiloAddress("S10.0.0.1:11111:1");

    public static void Run()
    {
        AnotherClock();
        Nonsense();
        HungUp();
        Limits();
    }

    sealed class Agent : IDisposable
    {
        readonly string path = Path.Combine(Path.GetTempPath(), "agent-" + Guid.NewGuid().ToString("N"));
        readonly Socket listener = new Socket(AddressFamily.Unix, SocketType.Stream, ProtocolType.Unspecified);
        readonly Task<AgentConnection> dialed;
        readonly Socket conn;
        readonly StreamReader reader;
        readonly StreamWriter writer;

        public Agent(long ahead = 0)
        {
            listener.Bind(new UnixEndPoint(path));
            listener.Listen(1);
            dialed = Task.Run(() => new AgentConnection(path));
            conn = listener.Accept();
            conn.ReceiveTimeout = 5000;
            var stream = new NetworkStream(conn);
            reader = new StreamReader(stream);
            writer = new StreamWriter(stream) { AutoFlush = true, NewLine = "\n" };
            Hears("1 clock");
            Says("1 clock " + (Now() + ahead));
        }

        public AgentConnection Connection { get { return dialed.Result; } }

        public static long Now()
        {
            var words = File.ReadAllText("/proc/uptime").Split('.', ' ');
            return long.Parse(words[0]) * 1000000000 + long.Parse(words[1]) * 10000000;
        }

        public void Says(string line) { writer.WriteLine(line); }

        public void Hears(string line) { Tests.Is("heard", reader.ReadLine(), line); }

        public void HangsUp() { conn.Close(); }

        public void Dispose()
        {
            conn.Close();
            listener.Close();
            File.Delete(path);
        }
    }

    static void AnotherClock()
    {
        foreach (var ahead in new[] { 1000000000000, -1000000000 })
            using (var agent = new Agent(ahead))
                Fails<LostException>("another clock", () => { var connection = agent.Connection; });
    }

    // What nobody understands ends in lost.
    static void Nonsense()
    {
        foreach (var line in new[] { "77 ok", "", "event", "event valid soon", "2" })
            using (var agent = new Agent())
            {
                var told = new ManualResetEventSlim();
                agent.Connection.Lost += why => told.Set();
                var asked = agent.Connection.Ask("status");
                agent.Hears("2 status");
                agent.Says("event valid " + (Agent.Now() + 60000000000));
                agent.Says(line);
                Fails<LostException>(line, asked.Wait);
                Tests.Is("told of " + line, told.Wait(5000), true);
                Tests.Is("may not behind " + line, agent.Connection.May, false);
            }
    }

    // Whoever stood still sees that the agent has hung up, though its last lines aren't read yet.
    static void HungUp()
    {
        using (var agent = new Agent())
        {
            var connection = agent.Connection;
            var goesOn = new ManualResetEventSlim();
            connection.MembersChanged += () => goesOn.Wait(5000);
            agent.Says("event valid " + (Agent.Now() + 60000000000));
            Tests.Until("it may", () => connection.May);
            agent.Says("event member joined S version 9");
            agent.Says("event settled 9");
            agent.HangsUp();
            Tests.Is("may not", connection.May, false);
            goesOn.Set();
        }
    }

    // Who waits no longer for a grain gives it up: no firm that crosses with that begins anything, and who registers anew waits for the end. Who waits
    // no longer for an end has ended its work all the same.
    static void Limits()
    {
        using (var agent = new Agent())
        {
            var named = Task.Run(() => new AgentGrainDirectory(agent.Connection, one, TimeSpan.FromMilliseconds(300)));
            agent.Hears("2 named " + one.Text);
            agent.Says("2 ok");
            var directory = named.Result;
            GrainAddress ann = Tests.Address("ann", one), anew = Tests.Address("ann", one);
            var first = directory.Register(ann);
            agent.Hears("3 activate user/ann");
            Fails<TimeoutException>("registered in vain", first.Wait);
            agent.Hears("4 deactivate user/ann");
            agent.Says("3 firm S!1 user/ann token 7");
            var second = directory.Register(anew);
            agent.Says("4 refused busy ask again");
            agent.Hears("5 deactivate user/ann");
            agent.Says("5 ended user/ann removed");
            agent.Hears("6 activate user/ann");
            agent.Says("6 firm S!2 user/ann token 8");
            Tests.Is("registered anew", second.Result, anew);
            var ended = directory.Unregister(anew);
            agent.Hears("7 deactivate user/ann");
            Fails<TimeoutException>("unregistered in vain", ended.Wait);
            agent.Says("7 refused busy ask again");
            agent.Hears("8 deactivate user/ann");
            agent.Says("8 ended user/ann removed");
            var found = directory.Lookup(ann.GrainId);
            agent.Hears("9 find user/ann");
            Fails<TimeoutException>("looked up in vain", found.Wait);
        }
    }

    static void Fails<T>(string what, Action action) where T : Exception
    {
        try { action(); }
        catch (AggregateException e) { if (e.GetBaseException() is T) return; throw; }
        throw new Exception("it doesn't fail: " + what);
    }
}
