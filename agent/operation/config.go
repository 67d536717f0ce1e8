package operation

import (
	"bufio"
	"crypto/tls"
	"crypto/x509"
	"errors"
	"flag"
	"fmt"
	"io"
	"io/fs"
	"os"
	"path/filepath"
	"regexp"
	"strconv"
	"strings"
	"time"

	"agent/directory"
)

// Certificates are the files of one end of a connection.
type Certificates struct{ Authority, Certificate, Key string }

// Config is what an agent is told.
type Config struct {
	Endpoint, Cluster, Program, Socket, HTTP string
	SocketMode                               fs.FileMode
	Settings                                 directory.Settings
	Etcd, EtcdUser, EtcdPassword, Postgres   string
	EtcdTLS, NatsTLS, TCPTLS                 Certificates
	Nats, NatsCredentials                    string
	LockDelay, SilentAfter, SiloTimeout      time.Duration
	DeafAfter                                time.Duration
	TransportTimeout, LeaveTimeout           time.Duration
	AfterEnd                                 string
	Rejoin, KillApplications, Create, Raise  bool
	TCPPlain                                 bool // without TLS
	Activations                              int
	EtcdQuota                                int // MiB
	Log                                      Level
}

// ErrHelp says that help was asked for, and printed.
var ErrHelp = errors.New("help")

const usage = `grain-directory-agent runs one silo of a grain directory: it starts the silo's process, joins it to the cluster, carries its
messages, fences it, and serves the applications of this machine over a Unix socket.

usage: grain-directory-agent --endpoint A.B.C.D:PORT --socket PATH [OPTION ..]

       grain-directory-agent --create [OPTION ..]

Each option may stand in a file instead, a line "name = value" each, named by --config; the command line comes first.
`

// option is one option, with how it is read.
type option struct {
	name, value, help string
	set               func(text string) error
	isFlag            bool
}

type options []option

// groups are the headings of the help, by the first option below them.
var groups = map[string]string{
	"endpoint": "this silo", "cluster": "the directory; all its agents have to agree on these, and the store tests it",
	"etcd": "the store of the membership", "nats": "the transport", "lock-delay": "fencing", "http": "operation",
}

func (c *Config) options() options {
	text := func(name string, to *string, help string) option {
		return option{name: name, value: *to, help: help, set: func(text string) error { *to = text; return nil }}
	}
	number := func(name string, to *int, help string) option {
		return option{name: name, value: strconv.Itoa(*to), help: help, set: func(text string) (err error) {
			*to, err = strconv.Atoi(text)
			return err
		}}
	}
	duration := func(name string, to *time.Duration, help string) option {
		return option{name: name, value: to.String(), help: help, set: func(text string) (err error) {
			*to, err = time.ParseDuration(text)
			return err
		}}
	}
	truth := func(name string, to *bool, help string) option {
		return option{name: name, value: strconv.FormatBool(*to), help: help, isFlag: true, set: func(text string) (err error) {
			*to, err = strconv.ParseBool(text)
			return err
		}}
	}
	return options{
		text("endpoint", &c.Endpoint, "the silo's endpoint, which names it; with --transport=tcp, messages come in there"),
		text("socket", &c.Socket, "the Unix socket for applications"),
		{name: "socket-mode", value: fmt.Sprintf("%#o", c.SocketMode), help: "its file mode: who may write to it is let in", set: func(text string) error {
			mode, err := strconv.ParseUint(text, 8, 9)
			c.SocketMode = fs.FileMode(mode)
			return err
		}},
		text("program", &c.Program, "the program of the silo, built by ./build"),
		number("activations", &c.Activations, "that this silo may hold, 1 to 16777216; each takes up to 2 KB of memory"),
		text("cluster", &c.Cluster, "the directory's name: letters, digits, - and _"),
		text("hashing", &c.Settings.Hashing, "sha256, or stated for examples"),
		number("points", &c.Settings.Points, "of each silo on the ring, 1 to 128"),
		number("cache", &c.Settings.Cache, "hints that a silo keeps, 1 to 65536"),
		text("transport", &c.Settings.Transport, "nats, or tcp: from agent to agent, without a broker"),
		duration("ttl", &c.Settings.TTL, "a beat that stands still for so long ends its silo; a short one makes each outage of the store an outage of all"),
		text("etcd", &c.Etcd, "etcd's endpoints, with commas; https:// in front for TLS"),
		text("etcd-user", &c.EtcdUser, "etcd's user"),
		text("etcd-password-file", &c.EtcdPassword, "a file with the password"),
		text("etcd-ca", &c.EtcdTLS.Authority, "the authority that signed etcd's certificate, a PEM file"),
		text("etcd-cert", &c.EtcdTLS.Certificate, "this agent's certificate for etcd"),
		text("etcd-key", &c.EtcdTLS.Key, "its key"),
		number("etcd-quota", &c.EtcdQuota, "etcd's quota (--quota-backend-bytes) in MiB: the agent warns when three quarters of it are used"),
		text("postgres", &c.Postgres, "PostgreSQL instead of etcd: a URL, or words as libpq takes them"),
		text("nats", &c.Nats, "NATS's URLs, with commas; users and passwords may stand in them"),
		text("nats-credentials", &c.NatsCredentials, "a file of credentials for NATS"),
		text("nats-ca", &c.NatsTLS.Authority, "the authority that signed NATS's certificate"),
		text("nats-cert", &c.NatsTLS.Certificate, "this agent's certificate for NATS"),
		text("nats-key", &c.NatsTLS.Key, "its key"),
		text("tcp-ca", &c.TCPTLS.Authority, "with --transport=tcp: the authority that signed all agents' certificates"),
		text("tcp-cert", &c.TCPTLS.Certificate, "this agent's certificate, which names its address, or its endpoint by grain-directory://A.B.C.D:PORT"),
		text("tcp-key", &c.TCPTLS.Key, "its key"),
		truth("tcp-plain", &c.TCPPlain, "without certificates: whoever reaches an agent's endpoint can make two activations of a grain"),
		truth("raise", &c.Raise, "give the directory the highest version that this agent speaks, and end: once all agents speak it"),
		truth("create", &c.Create, "begin a directory of this name, with these settings, and end: once, on the command line"),
		duration("lock-delay", &c.LockDelay, "what this agent waits beyond a TTL before it declares another silo dead"),
		duration("silent-after", &c.SilentAfter, "who leaves questions unanswered for so long is suspected; suspected by most, it is voted out"),
		duration("deaf-after", &c.DeafAfter, "of two silos that don't hear one another for so long, and no third hears both, one is given up"),
		duration("silo-timeout", &c.SiloTimeout, "the silo is given up where its process writes nothing for so long"),
		duration("transport-timeout", &c.TransportTimeout, "the silo is given up where the transport is lost for so long, and another member has it"),
		truth("kill-applications", &c.KillApplications, "a guard kills applications that haven't hung up when the silo is fenced"),
		text("after-end", &c.AfterEnd, "a file of this boot: the supervisor has ended the agent that noted its join there, and its applications"),
		truth("rejoin", &c.Rejoin, "a fenced agent joins anew as the next generation; else it ends with status 3"),
		duration("leave-timeout", &c.LeaveTimeout, "how long applications may take to end their activations at SIGTERM"),
		text("http", &c.HTTP, "where to serve /metrics, /healthz and /ring.svg, as 127.0.0.1:9700"),
		{name: "log", value: levels[c.Log], help: strings.Join(levels, ", "), set: func(text string) (err error) {
			c.Log, err = ReadLevel(text)
			return err
		}},
	}
}

// mostActivations is what a silo may hold at most.
const mostActivations = 1 << 24

// NewConfig has the defaults.
func NewConfig() Config {
	return Config{Cluster: "main", Program: "grain-directory", SocketMode: 0o660, Settings: directory.DefaultSettings(), Etcd: "127.0.0.1:2379",
		Nats: "nats://127.0.0.1:4222", LockDelay: time.Second, SilentAfter: 5 * time.Second, DeafAfter: time.Minute, SiloTimeout: 5 * time.Second,
		Activations: 1000000, EtcdQuota: 2048, TransportTimeout: 10 * time.Second, LeaveTimeout: 30 * time.Second, Rejoin: true, Log: Info}
}

// ReadConfig reads the command line, and the file that it names.
func ReadConfig(words []string, help io.Writer) (Config, error) {
	c := NewConfig()
	all := c.options()
	flags := flag.NewFlagSet("grain-directory-agent", flag.ContinueOnError)
	flags.SetOutput(io.Discard)
	file := flags.String("config", "", "")
	for _, one := range all {
		flags.Var(&value{one}, one.name, one.help)
	}
	if err := flags.Parse(words); errors.Is(err, flag.ErrHelp) {
		all.print(help)
		return c, ErrHelp
	} else if err != nil {
		return c, err
	}
	if flags.NArg() > 0 {
		return c, fmt.Errorf("%q is no option", flags.Arg(0))
	}
	if *file != "" {
		given := map[string]bool{}
		flags.Visit(func(f *flag.Flag) { given[f.Name] = true })
		if err := readFile(*file, flags, given); err != nil {
			return c, err
		}
	}
	return c, c.check()
}

// value is an option as package flag takes it.
type value struct{ option }

func (v *value) String() string        { return v.option.value }
func (v *value) Set(text string) error { return v.option.set(text) }
func (v *value) IsBoolFlag() bool      { return v.option.isFlag }

func readFile(path string, flags *flag.FlagSet, given map[string]bool) error {
	file, err := os.Open(path)
	if err != nil {
		return fmt.Errorf("the configuration: %w", err)
	}
	defer file.Close()
	lines := bufio.NewScanner(file)
	for number := 1; lines.Scan(); number++ {
		line := strings.TrimSpace(lines.Text())
		if line == "" || strings.HasPrefix(line, "#") {
			continue
		}
		name, text, found := strings.Cut(line, "=")
		name = strings.TrimSpace(name)
		if name == "create" {
			return fmt.Errorf("%s, line %d: a directory is created once, by --create on the command line: else one whose store is wiped would begin anew",
				path, number)
		}
		if name == "raise" {
			return fmt.Errorf("%s, line %d: a directory's version is raised by --raise on the command line", path, number)
		}
		if !found || name == "config" || flags.Lookup(name) == nil {
			return fmt.Errorf("%s, line %d: %q is no option: --help lists them, and a line is: name = value", path, number, name)
		}
		if given[name] {
			continue
		}
		if err := flags.Set(name, strings.TrimSpace(text)); err != nil {
			return fmt.Errorf("%s, line %d: %w", path, number, err)
		}
	}
	return lines.Err()
}

var clusterName = regexp.MustCompile(`^[A-Za-z0-9_-]{1,64}$`)

// isOnce says whether the agent does something to the directory and ends.
func (c *Config) isOnce() bool { return c.Create || c.Raise }

// check says what is wrong with a configuration, and what to do.
func (c *Config) check() error {
	if (c.Endpoint == "" || c.Socket == "") && !c.isOnce() {
		return errors.New("--endpoint A.B.C.D:PORT and --socket PATH are wanted; --help tells all options")
	}
	if err := directory.CheckEndpoint(c.Endpoint); err != nil && !(c.isOnce() && c.Endpoint == "") {
		return fmt.Errorf("--endpoint: %w", err)
	}
	if !clusterName.MatchString(c.Cluster) {
		return fmt.Errorf("--cluster: %q: up to 64 letters, digits, - and _ are wanted", c.Cluster)
	}
	if err := c.Settings.Check(); err != nil {
		return err
	}
	for _, one := range []struct {
		name string
		what time.Duration
		most time.Duration
	}{{"lock-delay", c.LockDelay, time.Hour}, {"silent-after", c.SilentAfter, time.Hour}, {"deaf-after", c.DeafAfter, 24 * time.Hour},
		{"silo-timeout", c.SiloTimeout, time.Hour},
		{"transport-timeout", c.TransportTimeout, time.Hour}, {"leave-timeout", c.LeaveTimeout, 24 * time.Hour}} {
		if one.what < 0 || one.what > one.most || one.what == 0 && one.name != "lock-delay" {
			return fmt.Errorf("--%s is %v: something up to %v is wanted", one.name, one.what, one.most)
		}
	}
	if c.Activations < 1 || c.Activations > mostActivations {
		return fmt.Errorf("--activations is %d: 1 to %d are wanted", c.Activations, mostActivations)
	}
	if c.EtcdQuota < 1 {
		return fmt.Errorf("--etcd-quota is %d: a number of MiB is wanted", c.EtcdQuota)
	}
	if c.AfterEnd != "" && !filepath.IsAbs(c.AfterEnd) {
		return fmt.Errorf("--after-end is %q: the path of a file is wanted, as /run/grain-directory-1/joined", c.AfterEnd)
	}
	for name, files := range map[string]Certificates{"etcd": c.EtcdTLS, "nats": c.NatsTLS, "tcp": c.TCPTLS} {
		if (files.Certificate == "") != (files.Key == "") {
			return fmt.Errorf("--%s-cert and --%s-key belong together", name, name)
		}
	}
	if c.TCPTLS.Authority != "" && c.TCPTLS.Certificate == "" || c.TCPTLS.Authority == "" && c.TCPTLS.Certificate != "" {
		return errors.New("--tcp-ca, --tcp-cert and --tcp-key belong together: both ends of each connection show a certificate")
	}
	if c.Settings.Transport == "tcp" && c.TCPTLS.Authority == "" && !c.TCPPlain && !c.isOnce() {
		return errors.New("--transport=tcp wants --tcp-ca, --tcp-cert and --tcp-key; or --tcp-plain, on a network that no stranger reaches")
	}
	return nil
}

func (o options) print(out io.Writer) {
	fmt.Fprint(out, usage)
	for _, one := range o {
		if heading := groups[one.name]; heading != "" {
			fmt.Fprintf(out, "\n%s:\n", heading)
		}
		name := one.name
		if one.value != "" {
			name += "=" + one.value
		}
		fmt.Fprintf(out, "  --%-36s %s\n", name, one.help)
	}
	fmt.Fprint(out, `
SIGTERM leaves: applications are told to end their activations, and the silo is dead once nothing is held.
Status: 0 it left; 1 it can't start or go on; 2 the command line, or a setting that differs from the directory's; 3 it was fenced, with --rejoin=false;
4 the store forgot or changed what was decided: stop all agents, and begin another directory.
`)
}

// TLS makes the settings of a connection's end, nil where no file is named.
func (c Certificates) TLS() (*tls.Config, error) {
	if c == (Certificates{}) {
		return nil, nil
	}
	settings := &tls.Config{MinVersion: tls.VersionTLS12}
	if c.Authority != "" {
		text, err := os.ReadFile(c.Authority)
		if err != nil {
			return nil, err
		}
		pool := x509.NewCertPool()
		if !pool.AppendCertsFromPEM(text) {
			return nil, fmt.Errorf("%s has no certificate in PEM", c.Authority)
		}
		settings.RootCAs, settings.ClientCAs, settings.ClientAuth = pool, pool, tls.RequireAndVerifyClientCert
	}
	if c.Certificate != "" {
		pair, err := tls.LoadX509KeyPair(c.Certificate, c.Key)
		if err != nil {
			return nil, err
		}
		settings.Certificates = []tls.Certificate{pair}
	}
	return settings, nil
}
