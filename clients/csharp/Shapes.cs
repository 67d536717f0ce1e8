// What Orleans 7 asks of a grain directory, in its shapes (Orleans.GrainDirectory.IGrainDirectory and what that names), so that the adapter can be
// compiled and tried where Orleans isn't. With Orleans, leave this file out.
using System;
using System.Collections.Generic;
using System.Threading.Tasks;

namespace GrainDirectory
{
    public struct GrainId
    {
        public readonly string Type, Key;

        public GrainId(string type, string key) { Type = type; Key = key; }

        public override string ToString() { return Type + "/" + Key; }
    }

    public struct SiloAddress
    {
        public readonly string Text; // as Orleans prints it: S10.0.0.3:11111:1234567

        public SiloAddress(string text) { Text = text; }

        public override string ToString() { return Text; }
    }

    public sealed class GrainAddress
    {
        public GrainId GrainId { get; set; }
        public string ActivationId { get; set; }
        public SiloAddress SiloAddress { get; set; }
        public long MembershipVersion { get; set; }
    }

    public interface IGrainDirectory
    {
        Task<GrainAddress> Register(GrainAddress address);

        Task<GrainAddress> Register(GrainAddress address, GrainAddress previousAddress);

        Task Unregister(GrainAddress address);

        Task<GrainAddress> Lookup(GrainId grainId);

        Task UnregisterSilos(List<SiloAddress> siloAddresses);
    }
}
