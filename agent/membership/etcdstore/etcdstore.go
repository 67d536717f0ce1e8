// Package etcdstore keeps a directory's membership in etcd, under /grain-directory/NAME/.
package etcdstore

import (
	"context"
	"crypto/tls"
	"errors"
	"math/rand"
	"strings"
	"sync/atomic"
	"time"

	"go.etcd.io/etcd/clientv3"
	"go.etcd.io/etcd/mvcc/mvccpb"
	"go.uber.org/zap"
	"google.golang.org/grpc"
	"google.golang.org/grpc/backoff"

	"agent/membership"
)

// Options say where etcd is, and how one comes in.
type Options struct {
	Endpoints      []string
	TLS            *tls.Config // nil: without
	User, Password string      // "": without
	Directory      string
}

// Store is a directory in etcd. It has a client for each server, and goes on to the next where a call failed: one client for all would stay with a
// server that stands still until its connection is found dead, and beats would end meanwhile.
type Store struct {
	clients []*clientv3.Client
	current int32 // atomic
	prefix  string
}

// Open makes the clients. It doesn't wait for a connection: each call does, as long as its context lasts.
func Open(options Options) (*Store, error) {
	s := &Store{prefix: "/grain-directory/" + options.Directory + "/"}
	for _, endpoint := range options.Endpoints {
		client, err := open(options, endpoint)
		if err != nil {
			s.Close()
			return nil, err
		}
		s.clients = append(s.clients, client)
	}
	if len(s.clients) == 0 {
		return nil, errors.New("no endpoint of etcd is named")
	}
	s.current = int32(rand.New(rand.NewSource(time.Now().UnixNano())).Intn(len(s.clients))) // else all agents would use the first server
	return s, nil
}

func open(options Options, endpoint string) (*clientv3.Client, error) {
	return clientv3.New(clientv3.Config{
		Endpoints: []string{endpoint}, TLS: options.TLS, Username: options.User, Password: options.Password,
		LogConfig:   quiet(),
		DialTimeout: 5 * time.Second, DialKeepAliveTime: 2 * time.Second, DialKeepAliveTimeout: time.Second,
		// Else the client would wait for up to two minutes between its tries, and beats end though etcd is back.
		DialOptions: []grpc.DialOption{grpc.WithConnectParams(grpc.ConnectParams{MinConnectTimeout: time.Second,
			Backoff: backoff.Config{BaseDelay: 100 * time.Millisecond, Multiplier: 1.6, Jitter: 0.2, MaxDelay: 500 * time.Millisecond}})},
	})
}

// on calls something with the client that is used now; where that fails, the next is used from then on.
func (s *Store) on(call func(client *clientv3.Client) error) error {
	current := atomic.LoadInt32(&s.current)
	err := call(s.clients[current])
	if err != nil {
		atomic.CompareAndSwapInt32(&s.current, current, (current+1)%int32(len(s.clients)))
	}
	return err
}

// quiet has the client log its errors alone: that a call failed is told by the call.
func quiet() *zap.Config {
	config := zap.NewProductionConfig()
	config.Level = zap.NewAtomicLevelAt(zap.ErrorLevel)
	return &config
}

// Read implements membership.Store.
func (s *Store) Read(ctx context.Context, prefix string) ([]membership.Entry, membership.Revision, error) {
	var answer *clientv3.GetResponse
	if err := s.on(func(client *clientv3.Client) (err error) {
		answer, err = client.Get(ctx, s.prefix+prefix, clientv3.WithPrefix())
		return err
	}); err != nil {
		return nil, 0, err
	}
	entries := make([]membership.Entry, 0, len(answer.Kvs))
	for _, kv := range answer.Kvs {
		entries = append(entries, s.entry(kv))
	}
	return entries, membership.Revision(answer.Header.Revision), nil
}

func (s *Store) entry(kv *mvccpb.KeyValue) membership.Entry {
	return membership.Entry{Key: strings.TrimPrefix(string(kv.Key), s.prefix), Value: string(kv.Value), Revision: membership.Revision(kv.ModRevision)}
}

// Watch implements membership.Store. It fails, rather than wait, where the server has lost its leader.
func (s *Store) Watch(ctx context.Context, after membership.Revision, tell func([]membership.Event)) error {
	return s.on(func(client *clientv3.Client) error { return s.watch(ctx, client, after, tell) })
}

func (s *Store) watch(ctx context.Context, client *clientv3.Client, after membership.Revision, tell func([]membership.Event)) error {
	watching, stop := context.WithCancel(clientv3.WithRequireLeader(ctx))
	defer stop()
	for answer := range client.Watch(watching, s.prefix, clientv3.WithPrefix(), clientv3.WithRev(int64(after)+1)) {
		if err := answer.Err(); err != nil {
			return err
		}
		events := make([]membership.Event, 0, len(answer.Events))
		for _, event := range answer.Events {
			events = append(events, membership.Event{Entry: s.entry(event.Kv), Gone: event.Type == mvccpb.DELETE})
		}
		tell(events)
	}
	if ctx.Err() != nil {
		return ctx.Err()
	}
	return errors.New("etcd ended the watch")
}

// Commit implements membership.Store.
func (s *Store) Commit(ctx context.Context, transaction membership.Transaction) (made bool, at membership.Revision, err error) {
	var conditions []clientv3.Cmp
	for _, condition := range transaction.If {
		key := s.prefix + condition.Key
		switch condition.Revision {
		case membership.Absent:
			conditions = append(conditions, clientv3.Compare(clientv3.CreateRevision(key), "=", 0))
		case membership.Present:
			conditions = append(conditions, clientv3.Compare(clientv3.CreateRevision(key), ">", 0))
		default:
			conditions = append(conditions, clientv3.Compare(clientv3.ModRevision(key), "=", int64(condition.Revision)))
		}
		if condition.Value != "" {
			conditions = append(conditions, clientv3.Compare(clientv3.Value(key), "=", condition.Value))
		}
	}
	var then []clientv3.Op
	for _, key := range transaction.Delete {
		then = append(then, clientv3.OpDelete(s.prefix+key))
	}
	for _, put := range transaction.Put {
		then = append(then, clientv3.OpPut(s.prefix+put.Key, put.Value))
	}
	err = s.on(func(client *clientv3.Client) error {
		answer, err := client.Txn(ctx).If(conditions...).Then(then...).Commit()
		if err == nil {
			made, at = answer.Succeeded, membership.Revision(answer.Header.Revision)
		}
		return err
	})
	return made, at, err
}

// Size is how many bytes the database of the server has that is used now. One that doesn't tell it is used all the same.
func (s *Store) Size(ctx context.Context) (int64, error) {
	client := s.clients[atomic.LoadInt32(&s.current)]
	answer, err := client.Status(ctx, client.Endpoints()[0])
	if err != nil {
		return 0, err
	}
	return answer.DbSize, nil
}

// Close implements membership.Store.
func (s *Store) Close() (err error) {
	for _, client := range s.clients {
		if fault := client.Close(); fault != nil {
			err = fault
		}
	}
	return err
}
