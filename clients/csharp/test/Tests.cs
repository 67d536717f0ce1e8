// Tries the adapter at two agents: Tests.exe SOCKET SOCKET. Status 0 if all is as it should be.
using System;
using System.Collections.Generic;
using System.Linq;
using System.Threading;
using System.Threading.Tasks;
using GrainDirectory;

static class Tests
{
    static readonly SiloAddress one = new SiloAddress("S10.0.0.1:11111:1"), two = new SiloAddress("S10.0.0.2:11111:1"),
        anew = new SiloAddress("S10.0.0.2:11111:2");

    static int Main(string[] sockets)
    {
        Scripted.Run();
        var first = new AgentConnection(sockets[0]);
        var a = new AgentGrainDirectory(first, one);
        var b = new AgentGrainDirectory(new AgentConnection(sockets[1]), two);
        Until("the silos know one another", () => Members(first) == 2);
        Registers(a, b);
        Races(a, b);
        AtOnce(a, b);
        Texts();
        Losing(a, BeginsAnew(a, b, sockets[1]), first);
        Console.WriteLine("all is as it should be");
        return 0;
    }

    static int Members(AgentConnection connection) { return connection.Ask("members").Result.Count(word => word.StartsWith("S10.")); }

    public static GrainAddress Address(string key, SiloAddress silo)
    {
        return new GrainAddress { GrainId = new GrainId("user", key), ActivationId = Guid.NewGuid().ToString("N"), SiloAddress = silo };
    }

    static void Registers(AgentGrainDirectory a, AgentGrainDirectory b)
    {
        GrainAddress ann = Address("ann", one), other = Address("ann", two);
        Is("registered", a.Register(ann).Result, ann);
        Is("registered twice", a.Register(ann).Result, ann);
        Is("the first one stays", a.Register(Address("ann", one)).Result, ann);
        var found = b.Register(other).Result;
        Is("taken", found.SiloAddress.Text, one.Text);
        Is("looked up", b.Lookup(ann.GrainId).Result.SiloAddress.Text, one.Text);
        Is("looked up at home", a.Lookup(ann.GrainId).Result, ann);
        b.Unregister(other).Wait(); // which it hasn't
        Is("still there", b.Lookup(ann.GrainId).Result.SiloAddress.Text, one.Text);
        var token = a.Token(ann.GrainId);
        var next = Address("ann", one);
        Is("replaced by its own silo", a.Register(next, ann).Result, next);
        a.Unregister(next).Wait();
        Is("nowhere", a.Lookup(ann.GrainId).Result, null);
        Is("registered by the other", b.Register(other, next).Result, other);
        Is("the token doesn't fall", b.Token(ann.GrainId) >= token, true);
        a.UnregisterSilos(new List<SiloAddress> { two }).Wait();
        Is("a silo that lives keeps its own", a.Lookup(ann.GrainId).Result.SiloAddress.Text, two.Text);
        b.Unregister(other).Wait();
    }

    // Of many who register a grain at once one wins, and all hear of that one.
    static void Races(AgentGrainDirectory a, AgentGrainDirectory b)
    {
        for (var i = 0; i < 200; i++)
        {
            GrainAddress mine = Address("race" + i, one), yours = Address("race" + i, two);
            var both = new[] { a.Register(mine), b.Register(yours) };
            Task.WaitAll(both);
            Is("one wins", (both[0].Result == mine) != (both[1].Result == yours), true);
            Is("both hear of it", both[0].Result.SiloAddress.Text, both[1].Result.SiloAddress.Text);
        }
    }

    // A grain that is unregistered and registered at once at one silo: who is told that it has it then has it, and nobody else.
    static void AtOnce(AgentGrainDirectory a, AgentGrainDirectory b)
    {
        for (var i = 0; i < 1000; i++)
        {
            GrainAddress first = Address("once" + i, one), mine = Address("once" + i, one), yours = Address("once" + i, two);
            a.Register(first).Wait();
            var go = new ManualResetEventSlim();
            var end = Task.Run(() => { go.Wait(); return a.Unregister(first); });
            var anew = Task.Run(() => { go.Wait(); return a.Register(mine); });
            go.Set();
            Task.WaitAll(end, anew);
            var found = b.Register(yours).Result;
            Is("one has it", found == yours, anew.Result != mine);
            a.Unregister(mine).Wait();
            b.Unregister(yours).Wait();
        }
    }

    static void Texts()
    {
        Is("a grain's text", AgentGrainDirectory.GrainText(new GrainId("a/b%", "c/d e\u00e4")), "a%2fb%25/c/d%20e%c3%a4");
        Is("other keys are other texts", AgentGrainDirectory.GrainText(new GrainId("a", "%20")) != AgentGrainDirectory.GrainText(new GrainId("a", " ")), true);
    }

    // An Orleans silo that begins anew at the same agent has another name, and is found by that.
    static AgentGrainDirectory BeginsAnew(AgentGrainDirectory a, AgentGrainDirectory b, string socket)
    {
        GrainAddress fay = Address("fay", two), again = Address("fay", anew);
        b.Register(fay).Wait();
        Is("found by the old name", a.Lookup(fay.GrainId).Result.SiloAddress.Text, two.Text);
        b.Dispose();
        var c = new AgentGrainDirectory(new AgentConnection(socket), anew);
        Until("it has the grain again", () => c.Register(again).Result == again);
        Until("found by the new name", () => a.Lookup(fay.GrainId).Result.SiloAddress.Text == anew.Text);
        return c;
    }

    // What a silo has is free when its connection ends.
    static void Losing(AgentGrainDirectory a, AgentGrainDirectory b, AgentConnection first)
    {
        Is("may", first.May, true);
        var told = new ManualResetEventSlim();
        first.Lost += why => told.Set();
        var eve = Address("eve", anew);
        a.Register(Address("eve", one)).Wait();
        a.Dispose();
        Is("told", told.Wait(5000), true);
        Is("may not", first.May, false);
        Until("its grain is free", () => b.Register(eve).Result == eve);
        try
        {
            a.Register(Address("eve", one)).Wait();
            throw new Exception("a lost connection registers");
        }
        catch (AggregateException e) { Is("lost", e.InnerException is LostException, true); }
    }

    public static void Until(string what, Func<bool> holds)
    {
        for (var end = DateTime.UtcNow.AddSeconds(20); !holds(); Thread.Sleep(20))
            if (DateTime.UtcNow > end) throw new Exception("not so: " + what);
    }

    public static void Is(string what, object got, object wanted)
    {
        if (!Equals(got, wanted)) throw new Exception(what + ": " + got + ", not " + wanted);
    }
}
