package main

import (
	"strings"
	"testing"

	"agent/servers"
)

// An agent warns when etcd nears its quota.
func TestQuota(t *testing.T) {
	c := start(t)
	etcd := servers.RestorableEtcd(t)
	c.etcd = etcd.Endpoint
	for i := 0; i < 4; i++ { // 4 MB
		etcd.Ctl(t, "--endpoints", etcd.Endpoint, "put", "/other/"+strings.Repeat("k", i+1), strings.Repeat("x", 100000))
	}
	for i := 0; i < 12; i++ {
		etcd.Ctl(t, "--endpoints", etcd.Endpoint, "put", "/other/k", strings.Repeat("x", 100000))
	}
	fine, near := c.agent(1), c.agent(2, "--etcd-quota=1")
	near.says("of a quota of 1: beyond it all agents are fenced", 1)
	fine.says("is ready", 1)
	if fine.count("quota") > 0 {
		t.Error("it warns though there is room")
	}
}
