package tcpcarrier

import (
	"crypto/x509"
	"net"

	"agent/transport"
)

// scheme is that of a URI in a certificate that names one endpoint, where several agents have one address: grain-directory://10.0.0.1:7000
const scheme = "grain-directory"

// named says from which endpoints one may carry letters, by its certificate: from those that it names; or where it names none, from all ports of the
// addresses that it names. It is asked by one goroutine.
func named(certificate *x509.Certificate) transport.Sender {
	endpoints := map[string]bool{}
	for _, uri := range certificate.URIs {
		if uri.Scheme == scheme {
			endpoints[uri.Host] = true
		}
	}
	lastEndpoint, last := "", false
	return func(endpoint string) bool {
		if endpoint == lastEndpoint {
			return last
		}
		host, _, err := net.SplitHostPort(endpoint)
		if lastEndpoint, last = endpoint, endpoints[endpoint]; len(endpoints) == 0 {
			last = err == nil && certificate.VerifyHostname(host) == nil
		}
		return last
	}
}
