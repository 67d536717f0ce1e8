package main

import (
	"bufio"
	"errors"
	"fmt"
	"net"
	"os"
	"os/signal"
	"sort"
	"strings"
	"sync"
	"sync/atomic"
	"syscall"
	"time"

	"go.etcd.io/etcd/clientv3"

	"agent/clients/go/graindirectory"
)

// rate measures how often a second clients get something done, and how long once takes.
func rate(o options, name string, client func(n int) (func(i int) error, error)) error {
	var mu sync.Mutex
	var all []time.Duration
	var wait sync.WaitGroup
	var faults int64
	began := time.Now()
	until := began.Add(time.Duration(o.seconds * float64(time.Second)))
	for n := 0; n < o.clients; n++ {
		once, err := client(n)
		if err != nil {
			return err
		}
		wait.Add(1)
		go func() {
			defer wait.Done()
			var took []time.Duration
			for i := 0; time.Now().Before(until); i++ {
				before := time.Now()
				if err := once(i); err != nil && atomic.AddInt64(&faults, 1) < 3 {
					fmt.Println(err)
				}
				took = append(took, time.Since(before))
			}
			mu.Lock()
			defer mu.Unlock()
			all = append(all, took...)
		}()
	}
	wait.Wait()
	elapsed := time.Since(began).Seconds()
	if len(all) == 0 {
		return fmt.Errorf("%s: nothing was measured", name)
	}
	sort.Slice(all, func(i, j int) bool { return all[i] < all[j] })
	fmt.Printf("%s, %d clients: %.0f a second, p50 %v, p99 %v, %d faults\n", name, o.clients, float64(len(all))/elapsed,
		all[len(all)/2].Round(time.Microsecond), all[len(all)*99/100].Round(time.Microsecond), faults)
	return nil
}

// register activates a grain after the other.
func register(o options) error {
	run := time.Now().UnixNano()
	return rate(o, "register", func(n int) (func(i int) error, error) {
		client, err := connect(forever, o.at[n%len(o.at)])
		return func(i int) error {
			_, err := client.Activate(forever, fmt.Sprintf("bench/%x.%d.%d", run, n, i))
			return err
		}, err
	})
}

// find looks grains up that others have, each time anew.
func find(o options) error {
	const grains = 1000
	run := time.Now().UnixNano()
	holder, err := connect(forever, o.at[0])
	if err != nil {
		return err
	}
	defer holder.Close()
	for i := 0; i < grains; i++ {
		if _, err := holder.Activate(forever, fmt.Sprintf("bench/%x.%d", run, i)); err != nil {
			return err
		}
	}
	return rate(o, "find", func(n int) (func(i int) error, error) {
		client, err := connect(forever, o.at[n%len(o.at)])
		return func(i int) error {
			where, err := client.Find(forever, fmt.Sprintf("bench/%x.%d fresh", run, (n*37+i)%grains))
			if err == nil && where == "" {
				err = errors.New("it isn't found")
			}
			return err
		}, err
	})
}

func etcd(o options) error {
	client, err := clientv3.New(clientv3.Config{Endpoints: o.at, DialTimeout: 5 * time.Second})
	if err != nil {
		return err
	}
	run := time.Now().UnixNano()
	return rate(o, "etcd", func(n int) (func(i int) error, error) {
		return func(i int) error {
			key := fmt.Sprintf("bench/%x.%d.%d", run, n, i)
			answer, err := client.Txn(forever).If(clientv3.Compare(clientv3.CreateRevision(key), "=", 0)).
				Then(clientv3.OpPut(key, "127.0.0.1:7001@1")).Else(clientv3.OpGet(key)).Commit()
			if err == nil && !answer.Succeeded {
				err = errors.New("taken")
			}
			return err
		}, nil
	})
}

func redis(o options) error {
	run := time.Now().UnixNano()
	return rate(o, "redis", func(n int) (func(i int) error, error) {
		conn, err := net.Dial("tcp", o.at[0])
		if err != nil {
			return nil, err
		}
		reader := bufio.NewReader(conn)
		return func(i int) error {
			key := fmt.Sprintf("bench/%x.%d.%d", run, n, i)
			fmt.Fprintf(conn, "*4\r\n$3\r\nSET\r\n$%d\r\n%s\r\n$16\r\n127.0.0.1:7001@1\r\n$2\r\nNX\r\n", len(key), key)
			line, err := reader.ReadString('\n')
			if err == nil && !strings.HasPrefix(line, "+OK") {
				err = errors.New(line)
			}
			return err
		}, nil
	})
}

// all activates grains, many at once, each again until it is granted; first is told when the first was.
func all(o options, client *graindirectory.Client) (first, last time.Duration) {
	began := time.Now()
	var once sync.Once
	var wait sync.WaitGroup
	room := make(chan struct{}, 500)
	for i := 0; i < o.grains; i++ {
		room <- struct{}{}
		wait.Add(1)
		go func(i int) {
			defer wait.Done()
			for {
				_, err := client.Activate(forever, fmt.Sprintf("%s/%d", o.prefix, i))
				if err == nil || errors.Is(err, graindirectory.ErrLost) {
					break
				}
				time.Sleep(10 * time.Millisecond)
			}
			once.Do(func() { first = time.Since(began) })
			<-room
		}(i)
	}
	wait.Wait()
	return first, time.Since(began)
}

func hold(o options) error {
	client, err := connect(forever, o.at[0])
	if err != nil {
		return err
	}
	_, last := all(o, client)
	fmt.Printf("holds %d after %v\n", o.grains, last.Round(time.Millisecond))
	ended := make(chan os.Signal, 1)
	signal.Notify(ended, syscall.SIGTERM, syscall.SIGINT)
	select {
	case <-ended:
	case <-client.Lost:
	}
	return nil
}

func take(o options) error {
	client, err := connect(forever, o.at[0])
	if err != nil {
		return err
	}
	first, last := all(o, client)
	fmt.Printf("took %d: the first after %v, the last after %v\n", o.grains, first.Round(time.Millisecond), last.Round(time.Millisecond))
	return nil
}
