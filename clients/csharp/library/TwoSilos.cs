// The example of C (examples/library/two_silos.c) in C#: it prints the same. And what the library refuses.
using System;
using System.Collections.Generic;
using GrainDirectory;

static class TwoSilos
{
    static readonly string[] addresses = { "10.0.0.1:1000@1", "10.0.0.2:1000@1" };
    static readonly LibrarySilo[] silos = { Open(addresses[0]), Open(addresses[1]) };
    static readonly Queue<KeyValuePair<int, string>> messages = new Queue<KeyValuePair<int, string>>();

    static LibrarySilo Open(string address) { return new LibrarySilo(address, hashing: Hashing.Stated); }

    static int Main()
    {
        Say(0, "joined 1 10.0.0.1:1000@1 0");
        Say(0, "see 1");
        Carry();
        Say(1, "joined 1 10.0.0.1:1000@1 0");
        Say(0, "joined 2 10.0.0.2:1000@1 2147483648");
        Say(1, "joined 2 10.0.0.2:1000@1 2147483648");
        Say(0, "see 2");
        Say(1, "see 2");
        Carry();
        Say(0, "wake user/ann#7");
        Carry();
        Say(1, "find user/ann#7");
        Carry();
        Say(1, "find user/ann#7");
        Say(0, "dead 3 10.0.0.1:1000@1");
        Say(0, "show");
        foreach (var silo in silos)
            silo.Dispose();
        return Refuses(LibraryStatus.NotASilo, "nowhere", null, 30) && Refuses(LibraryStatus.OutOfRange, addresses[0], null, 129)
            && Refuses(LibraryStatus.NotAToken, addresses[0], "", 30) && Refuses(LibraryStatus.NotAToken, addresses[0], "ä", 30) ? 0 : 1;
    }

    static bool Refuses(LibraryStatus wanted, string address, string token, int points)
    {
        try
        {
            new LibrarySilo(address, token, Hashing.Stated, points).Dispose();
            return false;
        }
        catch (NotOpenException refused)
        {
            return refused.Status == wanted;
        }
    }

    static void Say(int silo, string line)
    {
        Console.WriteLine("{0} < {1}", silo + 1, line);
        string answer;
        var status = silos[silo].Answer(line, out answer);
        foreach (var said in answer.Split(new[] { '\n' }, StringSplitOptions.RemoveEmptyEntries))
        {
            Console.WriteLine("{0} > {1}", silo + 1, said);
            var words = said.Split(' ');
            if (words[0] == "letter")
                messages.Enqueue(new KeyValuePair<int, string>(Array.IndexOf(addresses, words[2]), said));
        }
        if (status != LibraryStatus.Ok)
            Console.WriteLine("{0} returns {1}", silo + 1, (uint)status);
    }

    static void Carry()
    {
        while (messages.Count > 0)
        {
            var message = messages.Dequeue();
            Say(message.Key, message.Value);
        }
    }
}
