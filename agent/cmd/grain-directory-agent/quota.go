package main

import (
	"context"
	"log"
	"time"

	"agent/clock"
	"agent/membership"
	"agent/operation"
)

// lookAtQuota is how often the size of the store is looked at.
const lookAtQuota = 10 * time.Second

// sized is a store that knows how much it has, in bytes.
type sized interface {
	Size(ctx context.Context) (int64, error)
}

// watchQuota warns while etcd's database is near to its quota: beyond it etcd takes nothing more, and all agents are fenced.
func (a *agent) watchQuota(ctx context.Context, store membership.Store) {
	etcd, isSized := store.(sized)
	if !isSized {
		return
	}
	for complaint := (operation.Complaint{}); ctx.Err() == nil; pause(ctx, lookAtQuota) {
		calling, done := context.WithTimeout(ctx, call)
		size, err := etcd.Size(calling)
		done()
		if quota := int64(a.config.EtcdQuota) << 20; err == nil && size > quota/4*3 && complaint.IsDue(clock.Boot()) {
			log.Printf("warning: the database of %s has %d MiB, of a quota of %d: beyond it all agents are fenced; have it compacted (--auto-compaction-retention), "+
				"and defragment it (etcdctl defrag)", a.config.StoreName(), size>>20, a.config.EtcdQuota)
		}
	}
}
