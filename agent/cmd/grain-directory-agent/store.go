package main

import (
	"context"
	"errors"
	"log"
	"os"
	"strings"
	"time"

	"agent/clock"
	"agent/membership"
	"agent/membership/etcdstore"
	"agent/membership/postgresstore"
	"agent/operation"
)

// call is how long a call of the store may take: where one server of it stands still, others are tried before the deadline.
func (a *agent) call() time.Duration {
	if quarter := a.config.Settings.TTL / 4; quarter < call {
		return quarter
	}
	return call
}

// agree tests the settings, as soon as the store answers and has a directory.
func (a *agent) agree(ctx context.Context, store membership.Store) error {
	var complaint operation.Complaint
	return a.ask(ctx, func(calling context.Context) error {
		version, err := membership.Agree(calling, store, a.config.Settings)
		a.config.Settings.Version = version
		if errors.Is(err, membership.ErrNoDirectory) && complaint.IsDue(clock.Boot()) {
			log.Printf("error: %q at %s: %v", a.config.Cluster, a.config.StoreName(), err)
		}
		return err
	})
}

// ask asks the store until it answers; a difference of the settings is an answer.
func (a *agent) ask(ctx context.Context, question func(context.Context) error) error {
	var complaint operation.Complaint
	for {
		calling, done := context.WithTimeout(ctx, call)
		err := question(calling)
		done()
		if err == nil || isMistake(err) {
			return err
		}
		if ctx.Err() != nil {
			return ctx.Err()
		}
		if !errors.Is(err, membership.ErrNoDirectory) && complaint.IsDue(clock.Boot()) {
			log.Printf("warning: the store can't be reached at %s, and is tried again: %v", a.config.StoreName(), err)
			operation.Notify("STATUS=waits for the store")
		}
		pause(ctx, retry)
	}
}

// create begins a directory, if there is none of its name.
func (a *agent) create(ctx context.Context) int {
	store, err := a.openStore(ctx)
	if err != nil {
		log.Printf("error: the store: %v", err)
		return cannot
	}
	defer store.Close()
	isNew := false
	err = a.ask(ctx, func(calling context.Context) (err error) {
		isNew, err = membership.Create(calling, store, a.config.Settings)
		return err
	})
	switch {
	case err != nil:
		log.Printf("error: the directory %q isn't created: %v", a.config.Cluster, err)
		return cannot
	case !isNew:
		log.Printf("error: there is a directory %q at %s already, or what is left of one", a.config.Cluster, a.config.StoreName())
		return cannot
	}
	log.Printf("created the directory %q at %s; its first agent waits for a TTL and a lock delay", a.config.Cluster, a.config.StoreName())
	return left
}

// openStore opens the store: PostgreSQL where that is named, once it answers; else etcd.
func (a *agent) openStore(ctx context.Context) (membership.Store, error) {
	if a.config.Postgres == "" {
		return a.openEtcd()
	}
	for complaint := (operation.Complaint{}); ; {
		calling, done := context.WithTimeout(ctx, call)
		store, err := postgresstore.Open(calling, a.config.Postgres, a.config.Cluster)
		done()
		if err == nil {
			return store, nil
		}
		if complaint.IsDue(clock.Boot()) {
			log.Printf("warning: PostgreSQL can't be used at %s, and is tried again: %v", a.config.StoreName(), err)
			operation.Notify("STATUS=waits for the store")
		}
		if pause(ctx, retry); ctx.Err() != nil {
			return nil, ctx.Err()
		}
	}
}

func (a *agent) openEtcd() (membership.Store, error) {
	settings, err := a.config.EtcdTLS.TLS()
	if err != nil {
		return nil, err
	}
	password := ""
	if a.config.EtcdPassword != "" {
		text, err := os.ReadFile(a.config.EtcdPassword)
		if err != nil {
			return nil, err
		}
		password = strings.TrimSpace(string(text))
	}
	return etcdstore.Open(etcdstore.Options{Endpoints: strings.Split(a.config.Etcd, ","), TLS: settings, User: a.config.EtcdUser, Password: password,
		Directory: a.config.Cluster})
}
